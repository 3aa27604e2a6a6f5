//! Subcommand `lengths`: a digest of refusals, lengths and sizes for each mode, occupancy and MSC mode.

use crate::digest::Digest;
use crate::settings::Settings;
use std::io::{self, Write};

static X: [u16; 8] = [0, 1, 2, 285, 1000, 2000, 3577, 65535];

pub fn print(out: &mut impl Write) -> io::Result<()> {
    for mode in 0..=4 {
        for occupancy in 0..=6 {
            for msc in 0..=4 {
                let mut d = Digest::default();
                let base = Settings { mode, occupancy, msc, ..Settings::default() };
                all_settings(&mut d, base);
                all_x(&mut d, base);
                writeln!(out, "{mode} {occupancy} {msc} {}", d.0)?;
            }
        }
    }
    Ok(())
}

/// Every value of the remaining settings, the first forbidden one included, with a few X.
fn all_settings(d: &mut Digest, base: Settings) {
    for level_a in 0..=4 {
        for level_b in 0..=4 {
            for vspp in 0..=4 {
                for sdc in 0..=2 {
                    for interleaving in 0..=2 {
                        for x in X {
                            take(d, &Settings { level_a, level_b, vspp, sdc, interleaving, x, ..base });
                        }
                    }
                }
            }
        }
    }
}

/// Every X up to one that no setting permits.
fn all_x(d: &mut Digest, base: Settings) {
    for level_a in 0..=4 {
        for x in 0..=3600 {
            take(d, &Settings { level_a, x, ..base });
        }
    }
}

/// The twelve numbers of one setting.
fn take(d: &mut Digest, s: &Settings) {
    d.take(s.refusal() as u64);
    s.lengths_and_sizes().iter().for_each(|&v| d.take(v as u64));
}
