//! Energy dispersal (clause 7.2.2), and its going on from any bit (02, S-6).

use crate::packing::{pack, spare_bit_set, unpack};

/// Adds p(n) = p(n−9) + p(n−5) modulo 2, started anew with nine ones before it; the inverse is the same.
pub fn disperse(bits: &mut [u8]) {
    // Bit k holds p(n−1−k).
    let mut register = 0x1FF_u16;
    for bit in bits {
        let p = (register >> 8 ^ register >> 4) & 1;
        register = register << 1 | p;
        *bit ^= p as u8;
    }
}

/// p(0), p(1), ..: so many bits of the sequence, each from the ones before it.
pub fn sequence(n: usize) -> Vec<u8> {
    let mut p = vec![1; 9];
    for k in 9..9 + n {
        p.push(p[k - 9] ^ p[k - 5]);
    }
    p.split_off(9)
}

/// Adds p(treated), p(treated + 1), .. to the bits.
pub fn disperse_from(treated: usize, bits: &mut [u8]) {
    let p = sequence(treated + bits.len());
    for (bit, p) in bits.iter_mut().zip(&p[treated..]) {
        *bit ^= p;
    }
}

/// A part of a frame that begins at the frame's bit `cut`: the VSPP goes on, and the remainder starts anew after it.
pub fn disperse_half(vspp: usize, cut: usize, bits: &mut [u8]) {
    let of_vspp = vspp.saturating_sub(cut).min(bits.len());
    let (first, rest) = bits.split_at_mut(of_vspp);
    disperse_from(cut, first);
    disperse_from(cut.saturating_sub(vspp), rest);
}

/// Packed bits added to the sequence from p(treated) on: 9 bytes of the wrong number, 10 output, 11 a spare bit set.
pub fn disperse_packed(treated: u16, bits: u16, bytes: &[u8], out: &mut [u8]) -> u8 {
    let bits = bits as usize;
    if bytes.len() != bits.div_ceil(8) {
        return 9;
    }
    if out.len() != bits.div_ceil(8) {
        return 10;
    }
    if spare_bit_set(bytes, bits) {
        return 11;
    }
    let mut unpacked = vec![0; bits];
    unpack(bytes, &mut unpacked);
    disperse_from(treated as usize, &mut unpacked);
    pack(&unpacked, out);
    0
}

#[cfg(test)]
mod tests {
    use super::*;
    use crate::digest::Random;

    #[test]
    fn begins_as_in_table_64() {
        let mut bits = [0; 16];
        disperse(&mut bits);
        assert_eq!(bits, [0, 0, 0, 0, 0, 1, 1, 1, 1, 0, 1, 1, 1, 1, 1, 0]);
        assert_eq!(sequence(16), bits);
    }

    #[test]
    fn twice_gives_the_bits_back() {
        let mut bits = [1; 1000];
        disperse(&mut bits);
        disperse(&mut bits);
        assert_eq!(bits, [1; 1000]);
    }

    /// The polynomial x^9 + x^5 + 1 is primitive: the sequence repeats after 511 bits and not before.
    #[test]
    fn the_sequence_repeats_after_511_bits() {
        let p = sequence(131_070);
        assert!((511..p.len()).all(|n| p[n] == p[n - 511]));
        assert!((1..511).all(|period| (period..1022).any(|n| p[n] != p[n - period])));
    }

    #[test]
    fn goes_on_from_any_bit() {
        let mut out = [0xAA; 2];
        // p(4) to p(13) of 0000 0111 1011 1110 are 0111 1011 11.
        assert_eq!(disperse_packed(4, 10, &[0x80, 0x40], &mut out), 0);
        assert_eq!(out, [0b1111_1011, 0b1000_0000]);
        // 65,535 is 127 more than 128 times 511; the bits after it are those of 65,536 and up, not of 0 and up.
        assert_eq!(disperse_packed(65_535, 8, &[0], &mut out[..1]), 0);
        assert_eq!(out[0], sequence(127 + 8)[127..].iter().fold(0, |byte, p| 2 * byte + p));
    }

    /// The VSPP and the remainder by themselves, at once and in halves.
    #[test]
    fn two_halves_give_the_whole() {
        let mut random = Random(6);
        for (vspp, remainder) in [(0, 40), (23, 40), (40, 600), (600, 9)] {
            let frame: Vec<u8> = (0..vspp + remainder).map(|_| random.byte() & 1).collect();
            let mut whole = frame.clone();
            disperse(&mut whole[..vspp]);
            disperse(&mut whole[vspp..]);
            for cut in 0..=frame.len() {
                let (mut first, mut second) = (frame[..cut].to_vec(), frame[cut..].to_vec());
                disperse_half(vspp, 0, &mut first);
                disperse_half(vspp, cut, &mut second);
                assert_eq!([first, second].concat(), whole, "{vspp} {cut}");
            }
        }
    }

    #[test]
    fn refusals_in_order() {
        let mut out = [0xAA; 2];
        assert_eq!(disperse_packed(0, 10, &[0xFF], &mut out[..1]), 9);
        assert_eq!(disperse_packed(0, 10, &[0xFF; 2], &mut out[..1]), 10);
        assert_eq!(disperse_packed(0, 10, &[0xFF; 2], &mut out), 11);
        assert_eq!(disperse_packed(0, 0, &[0], &mut out), 9);
        assert_eq!((disperse_packed(0, 0, &[], &mut []), out), (0, [0xAA; 2]));
    }
}
