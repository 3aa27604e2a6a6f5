//! Code rates, their puncturing patterns (table 65), the tail's patterns (table 66)
//! and the combinations of rates by protection level (tables 67 to 74).

/// A code rate with its puncturing pattern.
#[derive(Debug, PartialEq, Eq)]
pub struct Rate {
    pub numerator: usize,
    pub denominator: usize,
    /// One number per column of the pattern; bit j is set if B_j is kept.
    pub columns: &'static [u8],
}

/// Columns of the patterns, named after the rows they keep.
const K0: u8 = 0b0001;
const K01: u8 = 0b0011;
const K02: u8 = 0b0101;
const K012: u8 = 0b0111;
const K0123: u8 = 0b1111;

const fn rate(numerator: usize, denominator: usize, columns: &'static [u8]) -> Rate {
    Rate { numerator, denominator, columns }
}

pub static R1_4: Rate = rate(1, 4, &[K0123]);
pub static R3_10: Rate = rate(3, 10, &[K0123, K012, K012]);
pub static R1_3: Rate = rate(1, 3, &[K012]);
pub static R4_11: Rate = rate(4, 11, &[K012, K012, K012, K01]);
pub static R1_2: Rate = rate(1, 2, &[K01]);
pub static R4_7: Rate = rate(4, 7, &[K01, K02, K01, K0]);
pub static R3_5: Rate = rate(3, 5, &[K01, K0, K01]);
pub static R2_3: Rate = rate(2, 3, &[K01, K0]);
pub static R8_11: Rate = rate(8, 11, &[K01, K0, K0, K01, K0, K0, K01, K0]);
pub static R3_4: Rate = rate(3, 4, &[K01, K0, K0]);
pub static R4_5: Rate = rate(4, 5, &[K01, K0, K0, K0]);
pub static R7_8: Rate = rate(7, 8, &[K01, K0, K0, K0, K0, K0, K0]);
pub static R8_9: Rate = rate(8, 9, &[K01, K0, K0, K0, K0, K0, K0, K0]);

/// All rates in the order of table 65.
pub static RATES: [&Rate; 13] = [
    &R1_4, &R3_10, &R1_3, &R4_11, &R1_2, &R4_7, &R3_5, &R2_3, &R8_11, &R3_4, &R4_5, &R7_8, &R8_9,
];

/// Table 66: the six columns of the tail for each remainder.
pub static TAIL: [[u8; 6]; 12] = [
    [K01, K01, K01, K01, K01, K01],
    [K012, K01, K01, K01, K01, K01],
    [K012, K01, K01, K012, K01, K01],
    [K012, K012, K01, K012, K01, K01],
    [K012, K012, K01, K012, K012, K01],
    [K012, K012, K012, K012, K012, K01],
    [K012, K012, K012, K012, K012, K012],
    [K0123, K012, K012, K012, K012, K012],
    [K0123, K012, K012, K0123, K012, K012],
    [K0123, K0123, K012, K0123, K012, K012],
    [K0123, K0123, K012, K0123, K012, K0123],
    [K0123, K0123, K0123, K0123, K012, K0123],
];

/// The rates of a protection level, level by level in the order of the partition
/// (without the VSPP), and their common denominator RYlcm.
pub struct Combination {
    pub rates: &'static [&'static Rate],
    pub common: usize,
}

const fn combination(rates: &'static [&'static Rate], common: usize) -> Combination {
    Combination { rates, common }
}

/// Table 67: 16-QAM SM, levels 0 and 1.
static QAM16: [Combination; 2] =
    [combination(&[&R1_3, &R2_3], 3), combination(&[&R1_2, &R3_4], 4)];

/// Table 68: 64-QAM SM, levels 0 to 2.
static QAM64: [Combination; 4] = [
    combination(&[&R1_4, &R1_2, &R3_4], 4),
    combination(&[&R1_3, &R2_3, &R4_5], 15),
    combination(&[&R1_2, &R3_4, &R7_8], 8),
    combination(&[&R2_3, &R4_5, &R8_9], 45),
];

/// Table 69: HMsym, levels 1 and 2.
static HMSYM: [Combination; 4] = [
    combination(&[&R3_10, &R3_5], 10),
    combination(&[&R4_11, &R8_11], 11),
    combination(&[&R4_7, &R7_8], 56),
    combination(&[&R2_3, &R8_9], 9),
];

/// Table 71: HMmix, imaginary 0, real 1, imaginary 1, real 2, imaginary 2.
static HMMIX: [Combination; 4] = [
    combination(&[&R1_4, &R3_10, &R1_2, &R3_5, &R3_4], 20),
    combination(&[&R1_3, &R4_11, &R2_3, &R8_11, &R4_5], 165),
    combination(&[&R1_2, &R4_7, &R3_4, &R7_8, &R7_8], 56),
    combination(&[&R2_3, &R2_3, &R4_5, &R8_9, &R8_9], 45),
];

/// Table 70: the VSPP of HMsym and HMmix.
pub static VSPP: [&Rate; 4] = [&R1_2, &R4_7, &R3_5, &R2_3];

/// Tables 72 and 73: the SDC in 16-QAM and 4-QAM.
pub static SDC: [&[&Rate]; 2] = [&[&R1_3, &R2_3], &[&R1_2]];

/// The protection levels of an MSC mode.
pub fn combinations(msc: u8) -> &'static [Combination] {
    match msc {
        0 => &QAM64,
        1 => &HMMIX,
        2 => &HMSYM,
        _ => &QAM16,
    }
}

#[cfg(test)]
mod tests {
    use super::*;

    #[test]
    fn patterns_keep_as_many_bits_as_the_denominator() {
        for r in RATES {
            let kept: u32 = r.columns.iter().map(|c| c.count_ones()).sum();
            assert_eq!((r.columns.len(), kept as usize), (r.numerator, r.denominator));
        }
    }

    #[test]
    fn first_parity_is_always_kept() {
        assert!(RATES.iter().all(|r| r.columns.iter().all(|c| c & 1 == 1)));
        assert!(TAIL.iter().all(|row| row.iter().all(|c| c & 1 == 1)));
    }

    #[test]
    fn tail_row_keeps_twelve_and_its_number() {
        for (r, row) in TAIL.iter().enumerate() {
            let kept: u32 = row.iter().map(|c| c.count_ones()).sum();
            assert_eq!(kept as usize, 12 + r);
        }
    }

    #[test]
    fn common_denominators_are_least_common_multiples() {
        for msc in 0..4 {
            for c in combinations(msc) {
                let divides = |n: usize| c.rates.iter().all(|r| n % r.denominator == 0);
                assert_eq!((1..).find(|&n| divides(n)), Some(c.common));
            }
        }
    }
}
