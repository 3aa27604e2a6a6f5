//! Tests of whole blocks and runs.

use crate::block::{Block, Scratch};
use crate::blocks;
use crate::buffers::{code_buffers, old_memory, read_buffers, BitBuffers, CellBuffers};
use crate::digest::Random;
use crate::rates;
use crate::reference::{self, Cell, Turning};
use crate::settings::{Settings, HMMIX, HMSYM, PAIRINGS, SM16, SM64};
use crate::superframe::{reset, reset_table, Answer, State};
use crate::table::{self, Table, STANDARD};

fn flat(cells: &[Cell]) -> Vec<i16> {
    cells.iter().flat_map(|c| [c.0, c.1]).collect()
}

/// A permitted setting, drawn at random.
fn random_settings(random: &mut Random) -> Settings {
    let mut draw = |n: usize| (random.byte() as usize * 256 + random.byte() as usize) % n;
    let (mode, occupancy) = PAIRINGS[draw(16)];
    let msc = draw(4) as u8;
    let levels = rates::combinations(msc).len();
    let mut s = Settings { mode, occupancy, msc, ..Settings::default() };
    s.level_a = draw(levels) as u8;
    s.level_b = draw(levels) as u8;
    s.vspp = if s.hierarchical() { draw(4) as u8 } else { 0 };
    s.sdc = draw(2) as u8;
    s.interleaving = draw(2) as u8;
    s.x = draw(s.largest_x() as usize + 1) as u16;
    assert_eq!(s.refusal(), 0);
    s
}

fn random_bytes(block: &Block, random: &mut Random) -> Vec<u8> {
    let mut bytes = vec![0; block.bytes()];
    random.block(block.bits, &mut bytes);
    bytes
}

fn coded(block: &Block, bytes: &[u8]) -> Vec<i16> {
    let mut numbers = vec![0; block.numbers()];
    block.code(bytes, &mut numbers, &mut Scratch::for_cells(block.cells));
    numbers
}

#[test]
fn labels_of_the_cases() {
    let number = |msc: u8, bits: [u8; 3]| {
        let block = Block::frame(&Settings { msc, ..Settings::default() });
        let mut numbers = [block.top; 16];
        for ((_, way), bit) in block.levels.iter().zip(bits) {
            way.put(&[bit; 16], &mut numbers);
        }
        assert_eq!(numbers, [numbers[0]; 16]);
        numbers[0]
    };
    assert_eq!((number(SM64, [1, 0, 0]), number(SM64, [0, 0, 1])), (5, -1));
    assert_eq!((number(HMSYM, [1, 0, 0]), number(HMSYM, [0, 1, 0])), (-1, 5));
    for bits in 0..8 {
        let i = [bits & 1, bits >> 1 & 1, bits >> 2 & 1];
        assert_eq!((number(SM64, i), number(HMSYM, i)), (reference::sm64(i), reference::hmsym(i)));
    }
}

#[test]
fn layout_of_a_block_agrees_with_the_lengths() {
    for s in blocks::settings() {
        let (l, block) = (s.lengths(), Block::frame(&s));
        assert_eq!((block.bits, block.vspp), (l.frame_bits(), l.vspp));
        let part_a: usize = block.levels.iter().map(|(level, _)| level.a.bits).sum();
        assert_eq!(part_a, l.l1);
        assert_eq!(Block::sdc(&s).bits, s.sdc_bits());
    }
}

#[test]
fn all_patterns_tail_rows_and_powers_of_two_occur() {
    let mut tails = [false; 12];
    let mut patterns = [[false; 13]; 2];
    let mut sizes = [false; 14];
    for s in blocks::settings() {
        for (level, way) in Block::frame(&s).levels {
            tails[(level.b.coded - 12) % level.b.rate.denominator] = true;
            for (part, seen) in [level.a, level.b].iter().zip(&mut patterns) {
                let rate = rates::RATES.iter().position(|r| *r == part.rate).unwrap();
                seen[rate] |= part.bits > 0;
                if part.coded.is_power_of_two() && way.t.is_some() {
                    sizes[part.coded.trailing_zeros() as usize] = true;
                }
            }
        }
    }
    // Row 11 would need a denominator above 11.
    assert!(tails[..11].iter().all(|&seen| seen) && !tails[11]);
    assert_eq!(patterns, [[true; 13]; 2]);
    assert!(sizes[3..].iter().all(|&seen| seen), "{sizes:?}");
}

#[test]
fn blocks_agree_with_the_slow_rules() {
    let mut random = Random(11);
    for s in blocks::settings().into_iter().step_by(37) {
        let s = Settings { sdc: random.byte() % 2, ..s };
        let bytes = random_bytes(&Block::fac(), &mut random);
        assert_eq!(coded(&Block::fac(), &bytes), flat(&reference::fac(&STANDARD, &bytes, Turning::Right)));
        let bytes = random_bytes(&Block::sdc(&s), &mut random);
        assert_eq!(coded(&Block::sdc(&s), &bytes), flat(&reference::sdc(&STANDARD, &s, &bytes, Turning::Right)));
        let bytes = random_bytes(&Block::frame(&s), &mut random);
        assert_eq!(coded(&Block::frame(&s), &bytes), flat(&reference::frame(&STANDARD, &s, &bytes, Turning::Right)), "{s:?}");
    }
}

/// A table that passes.
fn random_table(random: &mut Random) -> Table {
    table::drawn(|n| (random.byte() as usize * 256 + random.byte() as usize) % n)
}

#[test]
fn blocks_with_other_tables_agree_with_the_slow_rules() {
    let mut random = Random(23);
    for s in blocks::settings().into_iter().step_by(61) {
        let (s, table) = (Settings { sdc: random.byte() % 2, ..s }, random_table(&mut random));
        let fac = Block::fac_by(&table);
        let bytes = random_bytes(&fac, &mut random);
        assert_eq!(coded(&fac, &bytes), flat(&reference::fac(&table, &bytes, Turning::Right)));
        let sdc = Block::sdc_by(&table, &s);
        let bytes = random_bytes(&sdc, &mut random);
        assert_eq!(coded(&sdc, &bytes), flat(&reference::sdc(&table, &s, &bytes, Turning::Right)));
        let frame = Block::frame_by(&table, &s);
        let bytes = random_bytes(&frame, &mut random);
        let cells = coded(&frame, &bytes);
        assert_eq!(cells, flat(&reference::frame(&table, &s, &bytes, Turning::Right)), "{s:?}");
        let mut read = vec![0xFF; frame.bytes()];
        assert!(frame.read(&cells, &mut read, &mut Scratch::for_cells(frame.cells)) && read == bytes);
    }
}

/// A run with a table: Code's cells are that table's, and a reader with the table gives the bits.
#[test]
fn a_run_with_another_table() {
    let mut random = Random(24);
    let (s, table) = (rich(), random_table(&mut random));
    let (mut memory, mut reader_memory) = (old_memory(&s), old_memory(&s));
    let (mut coder, answer) = reset_table(State::default(), s, &table, &mut memory);
    assert_eq!((answer, coder.table), (0, table));
    let (mut reader, _) = reset_table(State::default(), s, &table, &mut reader_memory);
    let (mut all, mut out) = (Vec::new(), Vec::<u8>::new());
    for n in [0, 2, 3] {
        let bits = BitBuffers::random(&s, &mut random, true);
        let (mut cells, mut read) = (CellBuffers::filled(&s, 0), BitBuffers::filled(&s, 0));
        assert_eq!(code_buffers(&mut coder, &mut memory, &bits, &mut cells), 0);
        let fac: Vec<Cell> =
            bits.fac.chunks(9).flat_map(|b| reference::fac(&table, b, Turning::Right)).collect();
        assert_eq!(cells.fac, flat(&fac));
        assert_eq!(cells.sdc, flat(&reference::sdc(&table, &s, &bits.sdc, Turning::Right)));
        assert_eq!(read_buffers(&mut reader, &mut reader_memory, &cells, &mut read), Answer::Finished(n));
        assert!(read.fac == bits.fac && read.sdc == bits.sdc);
        out.extend(&read.msc[..n as usize * bits.msc.len() / 3]);
        all.extend(bits.msc);
    }
    assert_eq!(out, all[..out.len()]);
    assert_eq!((coder.table, reader.table), (table, table));
}

/// 23 goes after 7 and before 8, in Reset, Code and Read.
#[test]
fn a_table_that_fails_is_23() {
    let s = rich();
    let (state, mut memory) = fresh(&s);
    let bad_settings = Settings { x: 65_535, ..s };
    for bad in [&STANDARD[1..], &[1; 196], &[]] {
        assert_eq!(reset_table(state, bad_settings, bad, &mut memory), (state, 7));
        assert_eq!(reset_table(state, s, bad, &mut memory[1..]), (state, 23));
    }
    let bad = State { table: [1; 196], ..state };
    let (bits, mut cells) = (BitBuffers::filled(&s, 0), CellBuffers::filled(&s, 0));
    assert_eq!(code_buffers(&mut bad.clone(), &mut memory[1..], &bits, &mut cells), 23);
    let answer = read_buffers(&mut bad.clone(), &mut memory[1..], &cells, &mut bits.clone());
    assert_eq!(answer, Answer::Refused { number: 23, block: 0 });
    let mut worse = State { settings: bad_settings, ..bad };
    assert_eq!(code_buffers(&mut worse, &mut memory[1..], &bits, &mut cells), 7);
    // The old state's table is not looked at.
    assert_eq!(reset(bad, s, &mut memory), (state, 0));
}

#[test]
fn read_after_code_gives_the_bits() {
    let mut random = Random(12);
    for _ in 0..60 {
        let s = random_settings(&mut random);
        for block in [Block::fac(), Block::sdc(&s), Block::frame(&s)] {
            let bytes = random_bytes(&block, &mut random);
            let mut scratch = Scratch::for_cells(block.cells);
            let mut read = vec![0xFF; block.bytes()];
            assert!(block.read(&coded(&block, &bytes), &mut read, &mut scratch));
            assert_eq!(read, bytes);
        }
    }
}

#[test]
fn a_block_with_one_changed_bit_is_not_read() {
    let mut random = Random(13);
    for msc in [SM64, HMMIX, HMSYM, SM16] {
        let s = Settings { mode: 1, msc, x: 100, ..Settings::default() };
        let block = Block::frame(&s);
        let mut numbers = coded(&block, &random_bytes(&block, &mut random));
        let mut scratch = Scratch::for_cells(block.cells);
        let mut read = vec![0; block.bytes()];
        for i in (0..numbers.len()).step_by(17) {
            let right = numbers[i];
            for wrong in (-block.top..=block.top).filter(|&v| v != right && (v & 1 == 0 || i % 5 == 0)) {
                numbers[i] = wrong;
                assert!(!block.read(&numbers, &mut read, &mut scratch));
            }
            numbers[i] = right;
        }
        assert!(block.read(&numbers, &mut read, &mut scratch));
    }
}

/// Settings with both parts, a VSPP and fillers.
fn rich() -> Settings {
    Settings { mode: 1, occupancy: 0, msc: HMSYM, level_b: 1, vspp: 1, x: 100, ..Settings::default() }
}

#[test]
fn wrong_turnings_within_a_frame_differ() {
    let mut random = Random(14);
    for msc in [HMSYM, HMMIX] {
        let s = Settings { msc, ..rich() };
        let block = Block::frame(&s);
        let bytes = random_bytes(&block, &mut random);
        let right = coded(&block, &bytes);
        assert_eq!(right, flat(&reference::frame(&STANDARD, &s, &bytes, Turning::Right)));
        for turning in [Turning::PlaceModuloN, Turning::OneInterleaver, Turning::OneDispersal] {
            assert_ne!(right, flat(&reference::frame(&STANDARD, &s, &bytes, turning)), "{turning:?}");
        }
    }
}

#[test]
fn wrong_turning_in_the_fac_differs() {
    let bytes = random_bytes(&Block::fac(), &mut Random(15));
    let right = coded(&Block::fac(), &bytes);
    for turning in [Turning::FacTailTable, Turning::PlaceModuloN] {
        assert_ne!(right, flat(&reference::fac(&STANDARD, &bytes, turning)), "{turning:?}");
    }
}

/// Cells that Code gives for a run of calls, after each the bits brought.
fn run(s: &Settings, calls: usize, seed: u32) -> (Vec<BitBuffers>, Vec<CellBuffers>) {
    let mut random = Random(seed);
    let (mut state, mut memory) = fresh(s);
    let mut all = (Vec::new(), Vec::new());
    for _ in 0..calls {
        let bits = BitBuffers::random(s, &mut random, true);
        let mut cells = CellBuffers::filled(s, 0);
        assert_eq!(code_buffers(&mut state, &mut memory, &bits, &mut cells), 0);
        all.0.push(bits);
        all.1.push(cells);
    }
    all
}

fn fresh(s: &Settings) -> (State, Vec<i16>) {
    let mut memory = old_memory(s);
    let (state, answer) = reset(State::default(), *s, &mut memory);
    assert_eq!((answer, state.position, state.count), (0, 0, 0));
    let start = flat(&reference::before_the_first(&STANDARD, s));
    assert!(memory.chunks(start.len()).all(|slot| slot == start));
    (state, memory)
}

/// Mapping-order cells of all frames brought.
fn frames(s: &Settings, brought: &[BitBuffers]) -> Vec<Vec<Cell>> {
    let bytes = s.lengths().frame_bits().div_ceil(8);
    let all = brought.iter().flat_map(|b| b.msc.chunks(bytes));
    all.map(|b| reference::frame(&STANDARD, s, b, Turning::Right)).collect()
}

#[test]
fn runs_give_the_standards_cells() {
    for (msc, interleaving, occupancy) in [(0, 0, 0), (1, 0, 1), (2, 1, 3), (3, 0, 5), (2, 0, 0)] {
        let s = Settings { msc, interleaving, occupancy, vspp: 0, ..rich() };
        let s = Settings { level_b: 1, ..s };
        let (brought, sent) = run(&s, 4, 16);
        let (before, frames) = (reference::before_the_first(&STANDARD, &s), frames(&s, &brought));
        for m in 0..4 {
            let fac = brought[m].fac.chunks(9).flat_map(|b| reference::fac(&STANDARD, b, Turning::Right));
            assert_eq!(sent[m].fac, flat(&fac.collect::<Vec<_>>()));
            assert_eq!(sent[m].sdc, flat(&reference::sdc(&STANDARD, &s, &brought[m].sdc, Turning::Right)));
            assert_eq!(sent[m].msc, flat(&reference::super_frame(&s, &before, &frames, m, Turning::Right)));
        }
    }
}

/// A run sends the standard's cells over a zero frame's, by its own table; no cell is (0, 0).
#[test]
fn runs_start_with_a_zero_frame() {
    let mut random = Random(5);
    for k in 0..3 {
        let s = Settings { msc: k, vspp: 0, ..rich() };
        let table = if k == 2 { random_table(&mut random) } else { STANDARD };
        let mut memory = old_memory(&s);
        let (mut state, answer) = reset_table(State::default(), s, &table, &mut memory);
        assert_eq!(answer, 0);
        let (mut reader, mut reader_memory) = (state, memory.clone());
        let before = reference::before_the_first(&table, &s);
        let mut frames = Vec::new();
        for m in 0..3 {
            let bits = BitBuffers::random(&s, &mut random, true);
            let mut cells = CellBuffers::filled(&s, 0);
            assert_eq!(code_buffers(&mut state, &mut memory, &bits, &mut cells), 0);
            let bytes = s.lengths().frame_bits().div_ceil(8);
            frames.extend(bits.msc.chunks(bytes).map(|b| reference::frame(&table, &s, b, Turning::Right)));
            assert_eq!(cells.msc, flat(&reference::super_frame(&s, &before, &frames, m, Turning::Right)));
            assert!(cells.msc.chunks(2).all(|c| c != [0, 0]));
            // The reader ignores the cells of frames before the first, and keeps what its memory has there.
            if m == 0 {
                cells.fill_ignored(2 * s.n_mux(), 0);
            }
            let answer = read_buffers(&mut reader, &mut reader_memory, &cells, &mut BitBuffers::filled(&s, 0));
            assert_eq!(answer, Answer::Finished([0, 2, 3][m]));
        }
    }
}

/// In short interleaving too the one slot has the zero frame's cells.
#[test]
fn the_zero_frame_fills_every_slot() {
    for interleaving in [0, 1] {
        let s = Settings { interleaving, ..rich() };
        let mut memory = old_memory(&s);
        reset(State::default(), s, &mut memory);
        let zero = flat(&reference::frame(&STANDARD, &s, &vec![0; s.sizes().msc_bytes / 3], Turning::Right));
        assert_eq!(memory, zero.repeat(s.slots()));
    }
}

/// (0, 0) in memory is 12, in Code and in Read.
#[test]
fn empty_cells_in_memory() {
    let s = rich();
    let (state, mut memory) = fresh(&s);
    let (mut bits, mut cells) = (BitBuffers::filled(&s, 0), CellBuffers::filled(&s, 0));
    assert_eq!(code_buffers(&mut state.clone(), &mut memory.clone(), &bits, &mut cells), 0);
    memory[2 * s.n_mux() + 10..][..2].fill(0);
    assert_eq!(code_buffers(&mut state.clone(), &mut memory, &bits, &mut cells), 12);
    let answer = read_buffers(&mut state.clone(), &mut memory, &cells, &mut bits);
    assert_eq!(answer, Answer::Refused { number: 12, block: 0 });
}

#[test]
fn wrong_turnings_in_the_cell_interleaver_differ() {
    let s = rich();
    let (brought, sent) = run(&s, 2, 17);
    let (before, frames) = (reference::before_the_first(&STANDARD, &s), frames(&s, &brought));
    for turning in [Turning::DelayFromPlace, Turning::PlaceModuloN] {
        assert_ne!(sent[1].msc, flat(&reference::super_frame(&s, &before, &frames, 1, turning)), "{turning:?}");
    }
}

#[test]
fn a_read_after_a_code_run_gives_the_bits_late() {
    let mut random = Random(18);
    for seed in 0..12 {
        let s = random_settings(&mut random);
        let (brought, sent) = run(&s, 4, seed);
        let bytes = s.lengths().frame_bits().div_ceil(8);
        let mut expected = brought.iter().flat_map(|b| b.msc.chunks(bytes));
        let (mut state, mut memory) = fresh(&s);
        for (m, cells) in sent.iter().enumerate() {
            let mut bits = BitBuffers::filled(&s, 0xFF);
            let answer = read_buffers(&mut state, &mut memory, cells, &mut bits);
            let n = if s.long() { [0, 2, 3, 3][m] } else { 3 };
            assert_eq!(answer, Answer::Finished(n));
            assert!(bits.fac == brought[m].fac && bits.sdc == brought[m].sdc);
            let (full, rest) = bits.msc.split_at(n as usize * bytes);
            assert!(full.chunks(bytes).all(|f| Some(f) == expected.next()));
            assert!(rest.iter().all(|&b| b == 0));
        }
    }
}

#[test]
fn every_count_finishes_its_number_of_frames() {
    // A reader that has the coder's memory knows all older frames, whatever its count.
    let s = rich();
    let (mut state, mut memory) = fresh(&s);
    let mut random = Random(19);
    let mut brought = Vec::new();
    for _ in 0..2 {
        brought.push(BitBuffers::random(&s, &mut random, true));
        let bits = brought.last().unwrap();
        assert_eq!(code_buffers(&mut state, &mut memory, bits, &mut CellBuffers::filled(&s, 0)), 0);
    }
    let mut cells = CellBuffers::filled(&s, 0);
    let before = (state, memory.clone());
    code_buffers(&mut state, &mut memory, &brought[0], &mut cells);
    let bytes = s.lengths().frame_bits().div_ceil(8);
    for (count, finished) in [(0, 0), (1, 0), (2, 1), (3, 2), (4, 3)] {
        let (mut reader, mut reader_memory) = (State { count, ..before.0 }, before.1.clone());
        let mut bits = BitBuffers::filled(&s, 0xFF);
        let answer = read_buffers(&mut reader, &mut reader_memory, &cells, &mut bits);
        assert_eq!(answer, Answer::Finished(finished as u8));
        assert_eq!((reader.position, reader.count), (4, (count + 3).min(4)));
        // Frames 2, 3 and 4 of the run are finished last.
        let all: Vec<&[u8]> = brought.iter().flat_map(|b| b.msc.chunks(bytes)).collect();
        assert_eq!(bits.msc[..finished * bytes], all[5 - finished..5].concat());
        assert!(bits.msc[finished * bytes..].iter().all(|&b| b == 0));
    }
}

/// A reader that has read two super frames of a run, and the third's cells.
fn third_call(s: &Settings) -> (State, Vec<i16>, CellBuffers) {
    let (_, sent) = run(s, 3, 20);
    let (mut state, mut memory) = fresh(s);
    for cells in &sent[..2] {
        read_buffers(&mut state, &mut memory, cells, &mut BitBuffers::filled(s, 0));
    }
    (state, memory, sent[2].clone())
}

/// Reads and checks that a refusal leaves everything.
fn refused(state: State, memory: &[i16], cells: &CellBuffers) -> Answer {
    let mut after = (state, memory.to_vec(), BitBuffers::filled(&state.settings, 0x5A));
    let before = after.clone();
    let answer = read_buffers(&mut after.0, &mut after.1, cells, &mut after.2);
    assert!(after == before);
    answer
}

#[test]
fn damaged_blocks_are_named() {
    for msc in 0..4 {
        for interleaving in 0..2 {
            let s = Settings { msc, interleaving, vspp: 0, ..rich() };
            let (state, memory, cells) = third_call(&s);
            // Where a number of each block stands; in long interleaving the frame's last cells come with cell 4.
            let row = 2 * s.n_mux();
            for block in 0..7_u8 {
                let mut bad = cells.clone();
                let v = match block {
                    0..=2 => &mut bad.fac[130 * block as usize + 40],
                    3 => &mut bad.sdc[40],
                    _ => &mut bad.msc[row * (block - 4) as usize + 9],
                };
                *v = -*v;
                assert_eq!(refused(state, &memory, &bad), Answer::Refused { number: 14, block });
                let v = match block {
                    0..=2 => &mut bad.fac[130 * block as usize + 40],
                    3 => &mut bad.sdc[40],
                    _ => &mut bad.msc[row * (block - 4) as usize + 9],
                };
                *v += 1;
                assert_eq!(refused(state, &memory, &bad), Answer::Refused { number: 13, block });
            }
            let mut bad = cells.clone();
            *bad.msc.last_mut().unwrap() = 3;
            assert_eq!(refused(state, &memory, &bad), Answer::Refused { number: 13, block: 7 });
        }
    }
}

#[test]
fn a_wrong_point_is_noticed_when_its_frame_is_finished() {
    let s = rich();
    let (_, sent) = run(&s, 3, 21);
    let (mut state, mut memory) = fresh(&s);
    let mut bits = BitBuffers::filled(&s, 0);
    let mut bad = sent[0].clone();
    // Sent cell 0 of row 2 is of frame 2, which the third call finishes first.
    let v = &mut bad.msc[4 * s.n_mux()];
    *v = -*v;
    assert_eq!(read_buffers(&mut state, &mut memory, &bad, &mut bits), Answer::Finished(0));
    assert_eq!(read_buffers(&mut state, &mut memory, &sent[1], &mut bits), Answer::Finished(2));
    assert_eq!(refused(state, &memory, &sent[2]), Answer::Refused { number: 14, block: 4 });
}

#[test]
fn ignored_cells_may_hold_anything() {
    let s = rich();
    let (_, sent) = run(&s, 1, 22);
    let mut odd = sent[0].clone();
    odd.fill_ignored(2 * s.n_mux(), 0);
    assert!(odd != sent[0]);
    let mut results = Vec::new();
    for cells in [&sent[0], &odd] {
        let (mut state, mut memory) = fresh(&s);
        let mut bits = BitBuffers::filled(&s, 0xFF);
        let answer = read_buffers(&mut state, &mut memory, cells, &mut bits);
        results.push((answer, state, memory, bits));
    }
    assert!(results[0] == results[1]);
}

#[test]
fn printed_tables_say_what_they_should() {
    let mut out = Vec::new();
    crate::refusals::print(&crate::calls::Own, &mut out).unwrap();
    let text = String::from_utf8(out).unwrap();
    let has = |start: &str| assert!(text.lines().any(|l| l.starts_with(start)), "{start}");
    let numbers = [("lengths", 1..=7), ("reset", 1..=8), ("code", 1..=12), ("read", 1..=10)];
    for (call, range) in numbers {
        for number in range {
            let found = text.lines().any(|l| {
                let f: Vec<&str> = l.split(' ').collect();
                f[0] == call && f[2] == number.to_string() && f[3] == "0"
            });
            assert!(found, "{call} {number}");
        }
    }
    (0..8).for_each(|b| assert!(text.lines().any(|l| l.starts_with("read") && l.contains(&format!(" 13 {b} ")))));
    (0..7).for_each(|b| assert!(text.lines().any(|l| l.starts_with("read") && l.contains(&format!(" 14 {b} ")))));
    has("code 56 0 0 ");
    has("read 77 0 3 ");
    has("read 78 0 0 ");
}
