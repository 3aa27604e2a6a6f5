//! The next super frame before it is sent (02, S-3): Code on a copy of the memory.

use crate::superframe::{code, Bits, CellsMut, State};

/// The cells, the state and the answer that coding would give; the memory is only read.
pub fn preview(state: State, memory: &[i16], bits: Bits, cells: CellsMut) -> (State, u8) {
    code(state, &mut memory.to_vec(), bits, cells)
}

#[cfg(test)]
mod tests {
    use super::*;
    use crate::buffers::{code_buffers, old_memory, BitBuffers, CellBuffers};
    use crate::digest::Random;
    use crate::settings::{Settings, HMMIX};
    use crate::superframe::reset;

    fn preview_buffers(state: State, memory: &[i16], bits: &BitBuffers, cells: &mut CellBuffers) -> (State, u8) {
        let bits = Bits { fac: &bits.fac, sdc: &bits.sdc, msc: &bits.msc };
        preview(state, memory, bits, CellsMut { fac: &mut cells.fac, sdc: &mut cells.sdc, msc: &mut cells.msc })
    }

    /// A run with previews in between sends what it sends without them, and each preview shows what is sent next.
    #[test]
    fn previews_change_nothing() {
        let s = Settings { mode: 1, msc: HMMIX, x: 50, vspp: 2, ..Settings::default() };
        let mut random = Random(3);
        let mut memory = old_memory(&s);
        let (mut state, _) = reset(State::default(), s, &mut memory);
        let (mut plain, mut plain_memory) = (state, memory.clone());
        for _ in 0..3 {
            let bits = BitBuffers::random(&s, &mut random, true);
            let [mut shown, mut sent, mut other] = [0; 3].map(|_| CellBuffers::filled(&s, 0));
            let any = BitBuffers::random(&s, &mut random, true);
            assert_eq!(preview_buffers(state, &memory, &any, &mut other).1, 0);
            let (next, answer) = preview_buffers(state, &memory, &bits, &mut shown);
            assert_eq!((answer, code_buffers(&mut state, &mut memory, &bits, &mut sent)), (0, 0));
            assert!((next, &shown) == (state, &sent) && other != sent);
            assert_eq!(code_buffers(&mut plain, &mut plain_memory, &bits, &mut other), 0);
            assert!((plain, &plain_memory, other) == (state, &memory, sent));
        }
    }

    #[test]
    fn a_refused_preview_gives_the_state_back() {
        let s = Settings { mode: 1, ..Settings::default() };
        let mut memory = old_memory(&s);
        let (state, _) = reset(State::default(), s, &mut memory);
        let (mut bits, mut cells) = (BitBuffers::filled(&s, 0), CellBuffers::filled(&s, 7));
        bits.fac.pop();
        let before = cells.clone();
        assert!(preview_buffers(state, &memory, &bits, &mut cells) == (state, 9) && cells == before);
    }
}
