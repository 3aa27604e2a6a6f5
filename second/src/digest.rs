//! The digest over printed numbers and the pseudo-random bytes; both programs have them.

/// d starts at 0 and takes a number v by d = (d * 31 + v) mod 4294967291.
#[derive(Clone, Copy, Default)]
pub struct Digest(pub u64);

impl Digest {
    pub fn take(&mut self, v: u64) {
        self.0 = (self.0 * 31 + v) % 4294967291;
    }

    /// Numbers of cells in −7 to 7, raised by 8.
    pub fn take_cells(&mut self, numbers: &[i16]) {
        numbers.iter().for_each(|&v| self.take((v as i64 + 8) as u64));
    }

    pub fn take_bytes(&mut self, bytes: &[u8]) {
        bytes.iter().for_each(|&b| self.take(b as u64));
    }
}

/// x = (x * 1103515245 + 12345) mod 2^31; the byte is x / 65536 mod 256.
pub struct Random(pub u32);

impl Random {
    pub fn byte(&mut self) -> u8 {
        self.0 = ((self.0 as u64 * 1103515245 + 12345) % 2147483648) as u32;
        (self.0 / 65536 % 256) as u8
    }

    /// Fills a packed block of so many bits; spare bits of its last byte are cleared afterwards.
    pub fn block(&mut self, bits: usize, bytes: &mut [u8]) {
        bytes.iter_mut().for_each(|b| *b = self.byte());
        if bits % 8 != 0 {
            bytes[bits / 8] &= 0xFF << (8 - bits % 8);
        }
    }
}
