//! Packed bits: first bit highest, spare bits of the last byte zero.

pub fn unpack(bytes: &[u8], bits: &mut [u8]) {
    for (group, byte) in bits.chunks_mut(8).zip(bytes) {
        for (i, bit) in group.iter_mut().enumerate() {
            *bit = byte >> (7 - i) & 1;
        }
    }
}

pub fn pack(bits: &[u8], bytes: &mut [u8]) {
    for (group, byte) in bits.chunks(8).zip(bytes) {
        *byte = group.iter().enumerate().fold(0, |b, (i, bit)| b | bit << (7 - i));
    }
}

/// Whether a spare bit of a packed block of so many bits is set.
pub fn spare_bit_set(bytes: &[u8], bits: usize) -> bool {
    bits % 8 != 0 && bytes[bits / 8] << (bits % 8) != 0
}

#[cfg(test)]
mod tests {
    use super::*;

    #[test]
    fn first_bit_is_highest_and_spare_bits_are_zero() {
        let mut bytes = [0xFF; 2];
        pack(&[1, 0, 0, 0, 0, 0, 0, 1, 0, 1], &mut bytes);
        assert_eq!(bytes, [0x81, 0x40]);
        let mut bits = [9; 10];
        unpack(&bytes, &mut bits);
        assert_eq!(bits, [1, 0, 0, 0, 0, 0, 0, 1, 0, 1]);
    }

    #[test]
    fn spare_bits_are_those_after_the_last() {
        assert!(!spare_bit_set(&[0xFF, 0xC0], 10));
        assert!(spare_bit_set(&[0x00, 0x20], 10));
        assert!(spare_bit_set(&[0x00, 0x01], 10));
        assert!(!spare_bit_set(&[0xFF, 0xFF], 16));
    }
}
