//! Pseudo-random numbers, and what is drawn with them.

use second::fac;
use second::rates;
use second::settings::{Settings, FAC_BITS, FAC_BYTES};
use second::table::{self, Table, STANDARD};

/// SplitMix64.
pub struct Draw(pub u64);

impl Draw {
    pub fn word(&mut self) -> u64 {
        self.0 = self.0.wrapping_add(0x9E3779B97F4A7C15);
        let z = (self.0 ^ self.0 >> 30).wrapping_mul(0xBF58476D1CE4E5B9);
        let z = (z ^ z >> 27).wrapping_mul(0x94D049BB133111EB);
        z ^ z >> 31
    }

    /// A number below n, which is above 0.
    pub fn below(&mut self, n: usize) -> usize {
        (self.word() % n as u64) as usize
    }

    pub fn byte(&mut self) -> u8 {
        self.word() as u8
    }

    pub fn pick<T: Copy>(&mut self, from: &[T]) -> T {
        from[self.below(from.len())]
    }

    /// A place in a buffer, unless it is empty.
    pub fn place<T>(&mut self, buffer: &[T]) -> Option<usize> {
        (!buffer.is_empty()).then(|| self.below(buffer.len()))
    }

    /// A coordinate of the constellation with this top.
    pub fn coordinate(&mut self, top: i16) -> i16 {
        top - 2 * self.below(top as usize + 1) as i16
    }

    /// A number that may or may not be a coordinate: near one, near a multiple of 256, extreme, or any.
    pub fn number(&mut self) -> i16 {
        match self.below(4) {
            0 => self.below(21) as i16 - 10,
            1 => self.coordinate(7).wrapping_add(self.pick(&[-32768, -16384, -512, -256, 256, 512, 16384])),
            2 => self.pick(&[-32768, -32767, 32767, 32766, -8, 8, 77]),
            _ => self.word() as i16,
        }
    }

    /// Permitted settings with this pairing, MSC mode and interleaving.
    pub fn settings(&mut self, (mode, occupancy): (u8, u8), msc: u8, interleaving: u8) -> Settings {
        let levels = rates::combinations(msc).len();
        let mut s = Settings { mode, occupancy, msc, interleaving, ..Settings::default() };
        s.level_a = self.below(levels) as u8;
        s.level_b = self.below(levels) as u8;
        s.vspp = if s.hierarchical() { self.below(4) as u8 } else { 0 };
        s.sdc = self.below(2) as u8;
        let largest = s.largest_x();
        let any = self.below(largest as usize + 1) as u16;
        s.x = self.pick(&[0, 1, any, any, any, largest - 1, largest]);
        s
    }

    /// Packed blocks of so many bits one after another, spare bits zero: any bits, or now and then all 0 or all 1.
    pub fn blocks(&mut self, bits: usize, blocks: usize) -> Vec<u8> {
        let same = self.pick(&[None, None, None, None, None, None, Some(0), Some(0xFF)]);
        let mut bytes = vec![0; bits.div_ceil(8) * blocks];
        bytes.iter_mut().for_each(|b| *b = same.unwrap_or_else(|| self.byte()));
        let spare = 8 * bits.div_ceil(8) - bits;
        bytes.chunks_mut(bits.div_ceil(8)).for_each(|b| b[bits / 8 - (spare == 0) as usize] &= 0xFF << spare);
        bytes
    }

    /// The FAC, SDC and MSC bytes of a super frame.
    pub fn super_frame(&mut self, s: &Settings) -> [Vec<u8>; 3] {
        debug_assert_eq!(FAC_BITS, 8 * FAC_BYTES);
        [self.blocks(FAC_BITS, 3), self.blocks(s.sdc_bits(), 1), self.blocks(s.lengths().frame_bits(), 3)]
    }

    /// Old contents of an output of bytes: each differs from the next, none is zero for long.
    pub fn old_bytes(&mut self, len: usize) -> Vec<u8> {
        let start = self.byte();
        (0..len).map(|i| start.wrapping_add(i as u8)).collect()
    }

    /// Old contents of an output of numbers.
    pub fn old_numbers(&mut self, len: usize) -> Vec<i16> {
        let start = self.word() as i16;
        (0..len).map(|i| start.wrapping_add(i as i16)).collect()
    }

    /// A puncturing table that passes: the standard's now and then.
    pub fn table(&mut self) -> Table {
        if self.below(5) == 0 { STANDARD } else { table::drawn(|n| self.below(n)) }
    }

    /// Fields of an FAC block that agree with the settings.
    pub fn fields(&mut self, s: &Settings) -> Vec<u32> {
        let mut fields = [0; fac::FIELDS];
        for (k, field) in fields.iter_mut().enumerate() {
            *field = (self.word() % (1 << fac::width(k))) as u32;
        }
        fac::take_named(s, &mut fields);
        fields.to_vec()
    }
}
