//! A reading that goes on over spoiled cells (02, S-13): blocks and frames with bits, or lost.

use crate::block::{Block, Scratch};
use crate::mapping::are_points;
use crate::settings::FAC_BYTES;
use crate::superframe::{read_refusal, Answer, BitsMut, Cells, Empties, Slots, State, FAC_NUMBERS};

/// Three FAC blocks, the SDC block, at most three frames.
pub const LOST_BYTES: usize = 7;

/// Reads one super frame; `lost` gets 1 for each block and finished frame that no bits give, else 0.
pub fn read_on(state: State, memory: &mut [i16], cells: Cells, bits: BitsMut, lost: &mut [u8]) -> (State, Answer) {
    let number = refusal(&state, memory, &cells, &bits, lost);
    if number != 0 {
        return (state, Answer::Refused { number, block: 0 });
    }
    let s = &state.settings;
    let mut scratch = Scratch::for_cells(s.n_mux());
    lost.fill(0);
    let fac = Block::fac_by(&state.table);
    for (k, (numbers, bytes)) in cells.fac.chunks(FAC_NUMBERS).zip(bits.fac.chunks_mut(FAC_BYTES)).enumerate() {
        lost[k] = read_or_lose(&fac, numbers, bytes, &mut scratch);
    }
    lost[3] = read_or_lose(&Block::sdc_by(&state.table, s), cells.sdc, bits.sdc, &mut scratch);
    let frame = Block::frame_by(&state.table, s);
    let rows = received(&cells.msc[..3 * frame.numbers()], s.msc_top());
    bits.msc.fill(0);
    let (mut finished, mut row_state) = (0, state);
    for k in 0..3 {
        let slots = Slots::new(&row_state);
        if slots.finishes() {
            let mut numbers = vec![0; frame.numbers()];
            slots.gather(memory, &rows, k, &mut numbers);
            let bytes = &mut bits.msc[finished * frame.bytes()..][..frame.bytes()];
            lost[4 + finished] = read_or_lose(&frame, &numbers, bytes, &mut scratch);
            finished += 1;
        }
        row_state = row_state.after_row();
    }
    (keep(&state, &rows, memory), Answer::Finished(finished as u8))
}

/// As Read up to 12, which lets (0, 0) pass here; 10 asks for seven bytes too.
fn refusal(state: &State, memory: &[i16], cells: &Cells, bits: &BitsMut, lost: &[u8]) -> u8 {
    match read_refusal(Empties::Pass, state, memory, cells, bits) {
        0 | 12 if lost.len() != LOST_BYTES => 10,
        number => number,
    }
}

/// Writes a block's bytes and gives 0; or zeros, and gives 1.
fn read_or_lose(block: &Block, numbers: &[i16], bytes: &mut [u8], scratch: &mut Scratch) -> u8 {
    let read = block.read(numbers, bytes, scratch);
    if !read {
        bytes.fill(0);
    }
    !read as u8
}

/// Cells as they are kept: (0, 0) in place of one that is no point.
fn received(rows: &[i16], top: i16) -> Vec<i16> {
    let mut kept = rows.to_vec();
    for cell in kept.chunks_mut(2) {
        if !are_points(cell, top) {
            cell.fill(0);
        }
    }
    kept
}

/// Puts the cells of three rows into memory; the state after them.
fn keep(state: &State, rows: &[i16], memory: &mut [i16]) -> State {
    let mut row_state = *state;
    for row in rows.chunks(rows.len() / 3) {
        Slots::new(&row_state).keep(row, memory);
        row_state = row_state.after_row();
    }
    row_state
}

#[cfg(test)]
mod tests {
    use super::*;
    use crate::buffers::{code_buffers, old_memory, read_buffers, BitBuffers, CellBuffers};
    use crate::digest::Random;
    use crate::interleaver::Places;
    use crate::settings::{Settings, HMMIX, HMSYM, SM16, SM64};
    use crate::superframe::reset;

    /// What a run of this reading gave: bits, number of frames and lost bytes of each call.
    type Given = Vec<(BitBuffers, usize, [u8; 7])>;

    fn settings() -> [Settings; 5] {
        let s = Settings { mode: 1, level_b: 1, x: 60, ..Settings::default() };
        let short = Settings { interleaving: 1, msc: HMSYM, ..s };
        [s, Settings { msc: HMMIX, ..s }, short, Settings { msc: SM16, occupancy: 2, ..s }, Settings { msc: SM64, x: 0, ..s }]
    }

    fn run(s: &Settings, calls: usize, random: &mut Random) -> (Vec<BitBuffers>, Vec<CellBuffers>) {
        let mut memory = old_memory(s);
        let (mut state, _) = reset(State::default(), *s, &mut memory);
        let (mut brought, mut sent) = (Vec::new(), Vec::new());
        for _ in 0..calls {
            brought.push(BitBuffers::random(s, random, true));
            sent.push(CellBuffers::filled(s, 0));
            let (bits, cells) = (brought.last().unwrap(), sent.last_mut().unwrap());
            assert_eq!(code_buffers(&mut state, &mut memory, bits, cells), 0);
        }
        (brought, sent)
    }

    fn call(state: &mut State, memory: &mut [i16], cells: &CellBuffers, bits: &mut BitBuffers, lost: &mut [u8]) -> Answer {
        let cells = Cells { fac: &cells.fac, sdc: &cells.sdc, msc: &cells.msc };
        let bits = BitsMut { fac: &mut bits.fac, sdc: &mut bits.sdc, msc: &mut bits.msc };
        let (next, answer) = read_on(*state, memory, cells, bits, lost);
        *state = next;
        answer
    }

    fn read_all(s: &Settings, received: &[CellBuffers]) -> Given {
        let mut memory = old_memory(s);
        let (mut state, _) = reset(State::default(), *s, &mut memory);
        let mut given = Vec::new();
        for cells in received {
            let (mut bits, mut lost) = (BitBuffers::filled(s, 0xFF), [9; 7]);
            let Answer::Finished(n) = call(&mut state, &mut memory, cells, &mut bits, &mut lost) else { panic!() };
            given.push((bits, n as usize, lost));
        }
        given
    }

    /// Some numbers replaced: by other points, by no points, by extremes; fillers too.
    fn spoil(cells: &mut CellBuffers, random: &mut Random) {
        for numbers in [&mut cells.fac, &mut cells.sdc, &mut cells.msc] {
            for _ in 0..random.byte() % 3 {
                let at = (random.byte() as usize * 256 + random.byte() as usize) % numbers.len();
                numbers[at] = [1, -1, 0, 3, -32768, 77, -7, 9][random.byte() as usize % 8];
            }
        }
    }

    /// The cells of frame f as received, from the rows alone; none while its last cell is not in.
    fn received_frame(s: &Settings, received: &[CellBuffers], f: usize) -> Option<Vec<i16>> {
        let (n, depth) = (s.n_mux(), s.slots());
        let mut numbers = vec![0; 2 * n];
        for (i, place) in Places::new(n, 5).take(n).enumerate() {
            let row = f + i % depth;
            let cell = &received.get(row / 3)?.msc[2 * n * (row % 3) + 2 * i..][..2];
            if are_points(cell, s.msc_top()) {
                numbers[2 * place..][..2].copy_from_slice(cell);
            }
        }
        Some(numbers)
    }

    /// A block's bytes and 0, or zeros and 1, from its received cells.
    fn expected(block: &Block, numbers: &[i16]) -> (Vec<u8>, u8) {
        let mut bytes = vec![0; block.bytes()];
        match block.read(numbers, &mut bytes, &mut Scratch::for_cells(block.cells)) {
            true => (bytes, 0),
            false => (vec![0; block.bytes()], 1),
        }
    }

    /// Everything that is out after the calls is as its received cells say, without memory, position or count.
    fn check(s: &Settings, received: &[CellBuffers], given: &Given) {
        let frame = Block::frame(s);
        let mut f = 0;
        for (cells, (bits, n, lost)) in received.iter().zip(given) {
            for k in 0..3 {
                let right = expected(&Block::fac(), &cells.fac[130 * k..][..130]);
                assert_eq!((bits.fac[9 * k..][..9].to_vec(), lost[k]), right);
            }
            assert_eq!((bits.sdc.clone(), lost[3]), expected(&Block::sdc(s), &cells.sdc));
            for k in 0..3 {
                let right = if k < *n {
                    f += 1;
                    expected(&frame, &received_frame(s, received, f - 1).unwrap())
                } else {
                    (vec![0; frame.bytes()], 0)
                };
                assert_eq!((bits.msc[k * frame.bytes()..][..frame.bytes()].to_vec(), lost[4 + k]), right);
            }
        }
        assert_eq!(f, (3 * received.len()).saturating_sub(s.slots() - 1));
        assert!(received_frame(s, received, f).is_none());
    }

    #[test]
    fn any_cells_are_read_as_their_received_cells_say() {
        let mut random = Random(13);
        let mut lost = [0; 7];
        for s in settings() {
            for _ in 0..4 {
                let (_, mut received) = run(&s, 5, &mut random);
                received.iter_mut().for_each(|cells| spoil(cells, &mut random));
                let given = read_all(&s, &received);
                check(&s, &received, &given);
                given.iter().for_each(|g| (0..7).for_each(|k| lost[k] += g.2[k] as usize));
            }
        }
        assert!(lost.iter().all(|&n| n > 0), "{lost:?}");
    }

    #[test]
    fn one_spoiled_super_frame_costs_so_much_and_no_more() {
        let mut random = Random(14);
        for s in settings() {
            for m in 0..4 {
                let (brought, mut cells) = run(&s, 6, &mut random);
                cells[m].fac.fill(0);
                cells[m].sdc.iter_mut().for_each(|v| *v = -*v);
                cells[m].msc.iter_mut().for_each(|v| *v = *v * 2 + 1);
                let given = read_all(&s, &cells);
                let bytes = Block::frame(&s).bytes();
                let frames: Vec<&[u8]> = brought.iter().flat_map(|b| b.msc.chunks(bytes)).collect();
                let mut f = 0;
                for (j, (bits, n, lost)) in given.iter().enumerate() {
                    if j != m {
                        assert!(bits.fac == brought[j].fac && bits.sdc == brought[j].sdc && lost[..4] == [0; 4]);
                    }
                    for k in 0..*n {
                        if f + s.slots() - 1 < 3 * m || f > 3 * m + 2 {
                            assert!((&bits.msc[k * bytes..][..bytes], lost[4 + k]) == (frames[f], 0), "{f}");
                        }
                        f += 1;
                    }
                }
                assert_eq!(given[m].2[..4], [1; 4]);
            }
        }
    }

    /// Where Read accepts a call, this reading yields the same, with nothing lost.
    #[test]
    fn undamaged_runs_read_as_before() {
        let mut random = Random(15);
        for s in settings() {
            let (_, mut sent) = run(&s, 4, &mut random);
            sent[0].fill_ignored(2 * s.n_mux(), if s.long() { 0 } else { 4 });
            let mut memory = old_memory(&s);
            let (mut state, _) = reset(State::default(), s, &mut memory);
            let (mut other, mut other_memory) = (state, memory.clone());
            for cells in &sent {
                let [mut bits, mut other_bits] = [0xFF, 0xEE].map(|v| BitBuffers::filled(&s, v));
                let mut lost = [9; 7];
                let answer = read_buffers(&mut state, &mut memory, cells, &mut bits);
                assert_eq!(call(&mut other, &mut other_memory, cells, &mut other_bits, &mut lost), answer);
                assert!(matches!(answer, Answer::Finished(_)) && lost == [0; 7] && bits == other_bits);
                assert!((other, &other_memory) == (state, &memory));
            }
        }
    }

    #[test]
    fn wrong_fillers_are_passed_over() {
        let s = settings()[0];
        assert_eq!(s.n_sfa() - 3 * s.n_mux(), 2);
        let (_, mut sent) = run(&s, 1, &mut Random(16));
        let last = sent[0].msc.len() - 4;
        sent[0].msc[last..].copy_from_slice(&[0, 9, -32768, 3]);
        assert_eq!(read_all(&s, &sent)[0].2, [0; 7]);
    }

    #[test]
    fn refusals_in_order() {
        let s = settings()[0];
        let mut memory = old_memory(&s);
        let (state, _) = reset(State::default(), s, &mut memory);
        let (mut cells, mut bits, mut lost) = (CellBuffers::filled(&s, 0), BitBuffers::filled(&s, 7), [9; 7]);
        let before = bits.clone();
        let refused = |number| Answer::Refused { number, block: 0 };
        let bad = State { settings: Settings { sdc: 2, ..s }, position: 5, table: [1; 196], ..state };
        let answer = |state: State, memory: &mut [i16], cells: &CellBuffers, bits: &mut BitBuffers, lost: &mut [u8]| {
            call(&mut state.clone(), memory, cells, bits, lost)
        };
        assert_eq!(answer(bad, &mut [], &cells, &mut bits, &mut lost), refused(6));
        let bad = State { settings: s, ..bad };
        assert_eq!(answer(bad, &mut [], &cells, &mut bits, &mut lost), refused(23));
        let bad = State { position: 5, ..state };
        assert_eq!(answer(bad, &mut [], &cells, &mut bits, &mut lost), refused(8));
        assert_eq!(answer(bad, &mut memory, &cells, &mut bits, &mut [0; 6]), refused(10));
        assert_eq!(answer(bad, &mut memory, &cells, &mut bits, &mut lost), refused(12));
        cells.fac.pop();
        assert_eq!(answer(bad, &mut memory, &cells, &mut bits, &mut [0; 8]), refused(9));
        cells.fac.push(0);
        // (0, 0) passes in memory, and nothing else that is no point does.
        memory[0..2].copy_from_slice(&[0, 1]);
        assert_eq!(answer(state, &mut memory, &cells, &mut bits, &mut lost), refused(12));
        assert_eq!((&bits, lost), (&before, [9; 7]));
        memory[0..2].copy_from_slice(&[0, 0]);
        assert_eq!(answer(state, &mut memory, &cells, &mut bits, &mut lost), Answer::Finished(0));
        assert_eq!((bits.msc.iter().max(), lost), (Some(&0), [1, 1, 1, 1, 0, 0, 0]));
    }
}
