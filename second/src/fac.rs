//! FAC blocks from their fields (02, S-1): clauses 6.3.3 to 6.3.5 and annex D.

use crate::packing::{pack, unpack};
use crate::settings::{Settings, FAC_BITS, FAC_BYTES};

/// Fields of a block that a caller names; the reserved ones are not among them.
pub const FIELDS: usize = 14;

/// First bit and number of bits of each field; rfu is bits 18 and 19, Rfa 57 to 63.
static PLACES: [(usize, usize); FIELDS] = [
    (0, 1),   // base/enhancement flag
    (1, 2),   // identity
    (3, 4),   // spectrum occupancy
    (7, 1),   // interleaver depth flag
    (8, 2),   // MSC mode
    (10, 1),  // SDC mode
    (11, 4),  // number of services
    (15, 3),  // reconfiguration index
    (20, 24), // service identifier
    (44, 2),  // short identifier
    (46, 1),  // CA indication
    (47, 4),  // language
    (51, 1),  // audio/data flag
    (52, 5),  // service descriptor
];

/// Bits of field k.
pub fn width(k: usize) -> usize {
    PLACES[k].1
}

/// Fields that the settings name too, and their values.
fn named(s: &Settings) -> [(usize, u32); 4] {
    [(2, s.occupancy), (3, s.interleaving), (4, s.msc), (5, s.sdc)].map(|(k, v)| (k, v as u32))
}

/// Gives these fields the values of the settings.
pub fn take_named(s: &Settings, fields: &mut [u32; FIELDS]) {
    named(s).iter().for_each(|&(k, v)| fields[k] = v);
}

/// Whether these fields have the values of the settings.
fn agrees(s: &Settings, fields: &[u32]) -> bool {
    named(s).iter().all(|&(k, v)| fields[k] == v)
}

/// Degree of the generator polynomial.
const STAGES: usize = 8;
/// g0 to g7 of x^8 + x^4 + x^3 + x^2 + 1.
const G8: [bool; STAGES] = [true, false, true, true, true, false, false, false];

/// The CRC word that is transmitted, first bit first.
pub fn crc(bits: &[u8]) -> [u8; STAGES] {
    let mut stages = [true; STAGES];
    for bit in bits {
        let back = stages[STAGES - 1] != (*bit == 1);
        for i in (0..STAGES).rev() {
            let before = i > 0 && stages[i - 1];
            stages[i] = before != (G8[i] && back);
        }
    }
    let mut word = [0; STAGES];
    for (i, stage) in stages.iter().rev().enumerate() {
        word[i] = !stage as u8;
    }
    word
}

/// The CRC word of packed bits, as a byte.
pub fn crc_of(bytes: &[u8]) -> u8 {
    let mut bits = vec![0; 8 * bytes.len()];
    unpack(bytes, &mut bits);
    let mut word = [0];
    pack(&crc(&bits), &mut word);
    word[0]
}

/// Builds a block; 0, or the refusal, with nothing written.
pub fn build(s: &Settings, fields: &[u32], block: &mut [u8]) -> u8 {
    if s.refusal() != 0 {
        return s.refusal();
    }
    if fields.len() != FIELDS {
        return 9;
    }
    if block.len() != FAC_BYTES {
        return 10;
    }
    let too_large = PLACES.iter().zip(fields).any(|((_, bits), value)| value >> bits != 0);
    if too_large || !agrees(s, fields) {
        return 15;
    }
    let mut bits = [0; FAC_BITS];
    for ((at, width), value) in PLACES.iter().zip(fields) {
        for i in 0..*width {
            bits[at + i] = (value >> (width - 1 - i) & 1) as u8;
        }
    }
    let word = crc(&bits[..FAC_BITS - STAGES]);
    bits[FAC_BITS - STAGES..].copy_from_slice(&word);
    pack(&bits, block);
    0
}

/// Reads a block; 0, or the refusal, with nothing written.
pub fn read(s: &Settings, block: &[u8], fields: &mut [u32]) -> u8 {
    if s.refusal() != 0 {
        return s.refusal();
    }
    if block.len() != FAC_BYTES {
        return 9;
    }
    if fields.len() != FIELDS {
        return 10;
    }
    let mut bits = [0; FAC_BITS];
    unpack(block, &mut bits);
    let found = PLACES.map(|(at, width)| bits[at..at + width].iter().fold(0, |n, b| 2 * n + *b as u32));
    if !agrees(s, &found) {
        return 15;
    }
    let (parameters, word) = bits.split_at(FAC_BITS - STAGES);
    if crc(parameters) != word {
        return 16;
    }
    fields.copy_from_slice(&found);
    0
}

#[cfg(test)]
mod tests {
    use super::*;

    /// The nine ASCII digits 123456789 have the check value 4B (CRC-8/SAE-J1850 of the usual catalogues).
    #[test]
    fn check_value_of_the_crc() {
        assert_eq!(crc_of(b"123456789"), 0x4B);
    }

    #[test]
    fn fields_follow_each_other_but_for_the_reserved_bits() {
        let mut free = [true; FAC_BITS - STAGES];
        for (at, width) in PLACES {
            assert!(free[at..at + width].iter().all(|f| *f));
            free[at..at + width].fill(false);
        }
        let reserved: Vec<usize> = (0..free.len()).filter(|&i| free[i]).collect();
        assert_eq!(reserved, [18, 19, 57, 58, 59, 60, 61, 62, 63]);
    }

    const SETTINGS: Settings = Settings {
        mode: 0, occupancy: 3, msc: 0, level_a: 0, level_b: 1, vspp: 0, x: 285, sdc: 0, interleaving: 0,
    };
    const FIELDS_OF_IT: [u32; FIELDS] = [0, 1, 3, 0, 0, 0, 4, 0, 0xABCDEF, 2, 0, 5, 0, 31];

    #[test]
    fn a_block_by_hand() {
        let mut block = [0x5A; FAC_BYTES];
        assert_eq!(build(&SETTINGS, &FIELDS_OF_IT, &mut block), 0);
        // 0 01 0011 0, 00 0 0100 0, 00 00 and the identifier's 1010, .., its 1111 and 10 0 0, 101 0 1111, 1 0000000
        assert_eq!(block[..8], [0x26, 0x08, 0x0A, 0xBC, 0xDE, 0xF8, 0xAF, 0x80]);
    }

    #[test]
    fn every_wrong_bit_is_seen() {
        let mut block = [0; FAC_BYTES];
        assert_eq!(build(&SETTINGS, &FIELDS_OF_IT, &mut block), 0);
        for i in 0..FAC_BITS {
            let (mut other, mut fields) = (block, [7; FIELDS]);
            other[i / 8] ^= 0x80 >> (i % 8);
            assert!(matches!(read(&SETTINGS, &other, &mut fields), 15 | 16));
            assert_eq!(fields, [7; FIELDS]);
        }
    }
}
