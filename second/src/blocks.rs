//! Subcommand `blocks`: digests of the cells of one FAC block, SDC block and multiplex frame per setting.

use crate::block::{Block, Scratch};
use crate::digest::{Digest, Random};
use crate::rates;
use crate::settings::{Settings, PAIRINGS};
use std::io::{self, Write};

pub fn print(out: &mut impl Write) -> io::Result<()> {
    for (line, s) in (0..).zip(settings()) {
        let s = Settings { sdc: (line % 2) as u8, ..s };
        let mut random = Random(line + 1);
        write!(out, "{}", s.hex())?;
        for block in [Block::fac(), Block::sdc(&s), Block::frame(&s)] {
            write!(out, " {}", digest(&block, &mut random))?;
        }
        writeln!(out)?;
    }
    Ok(())
}

/// All settings of the enumeration; SDC mode and interleaving are 0.
pub fn settings() -> Vec<Settings> {
    let mut all = Vec::new();
    levels_and_x(&mut all);
    powers_of_two(&mut all);
    all
}

/// Every pairing, MSC mode and levels, each with two of five X.
fn levels_and_x(all: &mut Vec<Settings>) {
    let mut counter = 0;
    for (mode, occupancy) in PAIRINGS {
        for msc in 0..4 {
            let levels = rates::combinations(msc).len() as u8;
            let vspps = if msc == 1 || msc == 2 { 4 } else { 1 };
            for level_a in 0..levels {
                for level_b in 0..levels {
                    for vspp in 0..vspps {
                        let s = Settings { mode, occupancy, msc, level_a, level_b, vspp, ..Settings::default() };
                        let largest = s.largest_x();
                        for (kind, x) in [0, 1, largest / 2, largest - 1, largest].into_iter().enumerate() {
                            if (counter + kind) % 5 < 2 {
                                all.push(Settings { x, ..s });
                            }
                        }
                        counter += 1;
                    }
                }
            }
        }
    }
}

/// The first X of each N1 that makes an interleaver's size a power of two.
fn powers_of_two(all: &mut Vec<Settings>) {
    for (mode, occupancy) in PAIRINGS {
        for msc in 0..4 {
            let levels = rates::combinations(msc).len() as u8;
            for level_a in 0..levels {
                let s = Settings { mode, occupancy, msc, level_a, level_b: level_a, ..Settings::default() };
                let mut last = 0;
                for x in 1..=s.largest_x() {
                    let l = Settings { x, ..s }.lengths();
                    if l.n1 != last && (l.n1.is_power_of_two() || l.n2.is_power_of_two()) {
                        all.push(Settings { x, ..s });
                    }
                    last = l.n1;
                }
            }
        }
    }
}

/// Codes random bits, reads them back and gives the digest of the cells.
fn digest(block: &Block, random: &mut Random) -> u64 {
    let mut bytes = vec![0; block.bytes()];
    random.block(block.bits, &mut bytes);
    let mut scratch = Scratch::for_cells(block.cells);
    let mut numbers = vec![0; block.numbers()];
    block.code(&bytes, &mut numbers, &mut scratch);
    let mut read = vec![0xFF; block.bytes()];
    assert!(block.read(&numbers, &mut read, &mut scratch) && read == bytes);
    let mut d = Digest::default();
    d.take_cells(&numbers);
    d.0
}
