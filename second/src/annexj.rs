//! Subcommand `annexj`: the counts of annex J, from the formulas.
//!
//! The file `annexj.txt` holds the same lines as the document prints them. It was made from lines 6127 to
//! 6341 of the crawled text of ES 201 980 V1.2.1 and from nothing else: a line "Table J.k: ..." sets k, and
//! each following line that begins with "64 QAM", "16 QAM" or "4 QAM" gives one line, `J.k` and then its
//! fields after the first, which tabulators separate; fields that are empty or "Not used" are left out, and
//! the spaces inside a number (3 757) are taken away.

use crate::settings::{self, Settings, HMMIX, HMSYM, SM16, SM64};
use std::io::{self, Write};

/// Which count of a frame a group of tables gives.
#[derive(Clone, Copy)]
enum Count {
    Spp,
    Vspp,
}

pub fn print(out: &mut impl Write) -> io::Result<()> {
    for mode in 0..4 {
        let k = 1 + mode;
        rows(out, k, mode, SM64, Count::Spp, 4)?;
        rows(out, k, mode, SM16, Count::Spp, 2)?;
    }
    for (first, msc, count) in
        [(5, HMSYM, Count::Vspp), (9, HMSYM, Count::Spp), (13, HMMIX, Count::Vspp), (17, HMMIX, Count::Spp)]
    {
        for mode in 0..4 {
            rows(out, first + mode, mode, msc, count, 4)?;
        }
    }
    for mode in 0..4 {
        for sdc in 0..2 {
            sdc_row(out, 21 + mode, mode, sdc)?;
        }
    }
    Ok(())
}

/// The rows of one table for one MSC mode, a row per protection level.
fn rows(out: &mut impl Write, k: u8, mode: u8, msc: u8, count: Count, levels: u8) -> io::Result<()> {
    for level in 0..levels {
        let (level_b, vspp) = match count {
            Count::Spp => (level, 0),
            Count::Vspp => (0, level),
        };
        write!(out, "J.{k}")?;
        for occupancy in 0..6 {
            let s = Settings { mode, occupancy, msc, level_b, vspp, ..Settings::default() };
            // Annex J uses the hierarchical mappings from occupancy 2 on only.
            if s.refusal() != 0 || (s.hierarchical() && occupancy < 2) {
                continue;
            }
            let l = s.lengths();
            let bits = match count {
                Count::Spp => l.l2,
                Count::Vspp => l.vspp,
            };
            write!(out, " {bits}")?;
        }
        writeln!(out)?;
    }
    Ok(())
}

fn sdc_row(out: &mut impl Write, k: u8, mode: u8, sdc: u8) -> io::Result<()> {
    write!(out, "J.{k}")?;
    for occupancy in 0..6 {
        let s = Settings { mode, occupancy, sdc, ..Settings::default() };
        if s.refusal() == 0 {
            write!(out, " {}", settings::sdc_bits(sdc, s.n_sdc()))?;
        }
    }
    writeln!(out)
}

#[cfg(test)]
mod tests {
    use super::*;

    #[test]
    fn formulas_give_the_counts_of_the_document() {
        let mut out = Vec::new();
        print(&mut out).unwrap();
        assert_eq!(String::from_utf8(out).unwrap(), include_str!("../annexj.txt"));
    }

    /// Typed from annex J: a row per protection level, a column per occupancy in use.
    type Rows = &'static [&'static [usize]];

    /// Tables J.1 to J.4: SM, four rows of 64-QAM and two of 16-QAM.
    const SM: [Rows; 4] = [
        &[
            &[3757, 4248, 7878, 8857, 16374, 18336],
            &[4509, 5096, 9450, 10628, 19646, 21998],
            &[5322, 6018, 11157, 12547, 23193, 25976],
            &[5898, 6664, 12364, 13908, 25704, 28788],
            &[2505, 2832, 5250, 5904, 10914, 12222],
            &[3131, 3540, 6565, 7381, 13645, 15280],
        ],
        &[
            &[2880, 3312, 6133, 6991, 12727, 14304],
            &[3456, 3972, 7361, 8390, 15272, 17162],
            &[4080, 4692, 8688, 9900, 18026, 20264],
            &[4520, 5196, 9630, 10980, 19980, 22456],
            &[1920, 2208, 4089, 4662, 8484, 9534],
            &[2400, 2760, 5111, 5826, 10606, 11920],
        ],
        &[&[5514, 11581], &[6615, 13898], &[7808, 16406], &[8654, 18188], &[3675, 7722], &[4595, 9651]],
        &[&[3660, 7800], &[4391, 9359], &[5185, 11050], &[5746, 12242], &[2439, 5199], &[3050, 6500]],
    ];

    /// Tables J.5 to J.8: HMsym, VSPP.
    const HMSYM_VSPP: [Rows; 4] = [
        &[&[2626, 2953, 5458, 6112], &[3000, 3372, 6236, 6984], &[3150, 3543, 6549, 7332], &[3500, 3936, 7276, 8148]],
        &[&[2045, 2331, 4243, 4768], &[2336, 2664, 4848, 5448], &[2454, 2796, 5091, 5721], &[2726, 3108, 5656, 6356]],
        &[&[1838, 3861], &[2100, 4412], &[2205, 4632], &[2450, 5148]],
        &[&[1220, 2600], &[1392, 2968], &[1464, 3120], &[1626, 3466]],
    ];

    /// Tables J.9 to J.12: HMsym, SPP.
    const HMSYM_SPP: [Rows; 4] = [
        &[&[4725, 5313, 9822, 10998], &[5724, 6432, 11904, 13332], &[7592, 8538, 15784, 17680], &[8164, 9184, 16972, 19012]],
        &[&[3681, 4194, 7635, 8580], &[4452, 5076, 9252, 10392], &[5913, 6738, 12268, 13792], &[6358, 7252, 13192, 14828]],
        &[&[3306, 6948], &[4008, 8424], &[5313, 11167], &[5714, 12012]],
        &[&[2196, 4680], &[2652, 5664], &[3527, 7518], &[3794, 8082]],
    ];

    /// Tables J.13 to J.16: HMmix, VSPP.
    const HMMIX_VSPP: [Rows; 4] = [
        &[&[1310, 1473, 2726, 3053], &[1496, 1684, 3112, 3488], &[1572, 1767, 3270, 3663], &[1746, 1964, 3634, 4070]],
        &[&[1019, 1162, 2118, 2381], &[1164, 1328, 2420, 2720], &[1221, 1395, 2541, 2856], &[1358, 1550, 2824, 3174]],
        &[&[916, 1927], &[1044, 2200], &[1098, 2313], &[1220, 2570]],
        &[&[607, 1297], &[692, 1480], &[726, 1554], &[808, 1728]],
    ];

    /// Tables J.17 to J.20: HMmix, SPP.
    const HMMIX_SPP: [Rows; 4] = [
        &[&[6288, 7066, 13083, 14650], &[7571, 8506, 15751, 17649], &[9349, 10517, 19461, 21801], &[10244, 11516, 21308, 23872]],
        &[&[4885, 5577, 10164, 11425], &[5885, 6717, 12244, 13753], &[7266, 8293, 15121, 17001], &[7960, 9088, 16556, 18620]],
        &[&[4395, 9247], &[5286, 11139], &[6540, 13750], &[7152, 15072]],
        &[&[2908, 6220], &[3500, 7484], &[4322, 9257], &[4728, 10136]],
    ];

    /// Tables J.21 to J.24: SDC, 16-QAM and 4-QAM.
    const SDC: [Rows; 4] = [
        &[&[321, 366, 705, 798, 1494, 1680], &[161, 184, 353, 399, 748, 840]],
        &[&[246, 288, 552, 630, 1164, 1311], &[124, 144, 276, 316, 582, 656]],
        &[&[564, 1200], &[282, 601]],
        &[&[291, 651], &[146, 326]],
    ];

    /// Occupancies of a mode in annex J, from the given one on.
    fn occupancies(mode: u8, first: u8) -> Vec<u8> {
        (first..6).filter(|&o| mode < 2 || o == 3 || o == 5).collect()
    }

    fn compare(tables: &[Rows; 4], first: u8, settings: impl Fn(usize) -> Settings, bits: impl Fn(&Settings) -> usize) {
        for (mode, rows) in (0..4).zip(tables) {
            for (row, counts) in rows.iter().enumerate() {
                let all = occupancies(mode, first);
                assert_eq!(all.len(), counts.len());
                for (&occupancy, &count) in all.iter().zip(*counts) {
                    let s = Settings { mode, occupancy, ..settings(row) };
                    assert_eq!(bits(&s), count, "{s:?}");
                }
            }
        }
    }

    #[test]
    fn typed_counts_of_sm() {
        let row = |r: usize| match r {
            0..=3 => Settings { msc: SM64, level_b: r as u8, ..Settings::default() },
            _ => Settings { msc: SM16, level_b: r as u8 - 4, ..Settings::default() },
        };
        compare(&SM, 0, row, |s| s.lengths().l2);
    }

    #[test]
    fn typed_counts_of_the_hierarchical_mappings() {
        let spp = |msc: u8| move |r: usize| Settings { msc, level_b: r as u8, ..Settings::default() };
        let vspp = |msc: u8| move |r: usize| Settings { msc, vspp: r as u8, ..Settings::default() };
        compare(&HMSYM_VSPP, 2, vspp(HMSYM), |s| s.lengths().vspp);
        compare(&HMSYM_SPP, 2, spp(HMSYM), |s| s.lengths().l2);
        compare(&HMMIX_VSPP, 2, vspp(HMMIX), |s| s.lengths().vspp);
        compare(&HMMIX_SPP, 2, spp(HMMIX), |s| s.lengths().l2);
    }

    #[test]
    fn typed_counts_of_the_sdc() {
        compare(&SDC, 0, |r| Settings { sdc: r as u8, ..Settings::default() }, |s| s.sdc_bits());
    }
}
