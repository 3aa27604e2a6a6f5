//! Subcommand `counts`: one Code and one Read call at every position and count.

use crate::buffers::{BitBuffers, CellBuffers};
use crate::calls::{at, must, words, Calls, Side, COUNT, POSITION};
use crate::digest::{Digest, Random};
use crate::settings::Settings;
use crate::superframe::Answer;
use std::io::{self, Write};

pub fn print(calls: &impl Calls, out: &mut impl Write) -> io::Result<()> {
    for msc in 0..4 {
        let s = Settings { mode: 1, msc, level_b: 1, x: 100, ..Settings::default() };
        let mut random = Random(msc as u32 + 1);
        let bits = [(); 3].map(|()| BitBuffers::random(&s, &mut random, true));
        let side = at(after_two_calls(calls, &s, &bits), || format!("counts, MSC mode {msc}"))?;
        for shift in 0..5 {
            for count in 0..5 {
                let mut side = side.clone();
                side.state[POSITION] = (1 + shift) % 5;
                side.state[COUNT] = count;
                rotate(&mut side.memory, shift as usize);
                let fields = at(fields(calls, &s, &side, &bits[2]), || format!("counts, {} {shift} {count}", s.hex()))?;
                writeln!(out, "{} {shift} {count} {fields}", s.hex())?;
            }
        }
    }
    Ok(())
}

fn after_two_calls(calls: &impl Calls, s: &Settings, bits: &[BitBuffers]) -> io::Result<Side> {
    let mut side = Side::fresh(calls, s)?;
    let mut cells = CellBuffers::filled(s, 0);
    for bits in &bits[..2] {
        let answer = calls.code(&mut side, bits, &mut cells);
        must(answer == 0, || format!("Code answers {answer} instead of 0"))?;
    }
    let position = side.state[POSITION];
    must(position == 1, || format!("position {position} instead of 1 after six frames"))?;
    Ok(side)
}

/// What was in slot j is in slot j + shift, modulo 5.
fn rotate(memory: &mut [i16], shift: usize) {
    let slot = memory.len() / 5;
    memory.rotate_right(shift * slot);
}

/// Codes, and reads the cells with the state and memory that the coder had before; ignored cells are no points.
fn fields(calls: &impl Calls, s: &Settings, side: &Side, bits: &BitBuffers) -> io::Result<String> {
    let mut coder = side.clone();
    let mut cells = CellBuffers::filled(s, 0);
    let answer = calls.code(&mut coder, bits, &mut cells);
    let mut d = Digest::default();
    cells.take(&mut d);
    let coded = format!("{answer} {}", side_digest(d, &coder));

    let mut reader = side.clone();
    let mut read = BitBuffers::filled(s, 90);
    cells.fill_ignored(2 * s.n_mux(), side.state[COUNT] as usize);
    let answer = calls.read(&mut reader, &cells, &mut read);
    let accepted = matches!(answer, Answer::Finished(_));
    must(accepted, || format!("Read is refused by {}", words(answer)))?;
    let mut d = Digest::default();
    read.take(&mut d);
    Ok(format!("{coded} {} {}", words(answer), side_digest(d, &reader)))
}

/// Goes on with memory, position and count.
fn side_digest(mut d: Digest, side: &Side) -> u64 {
    d.take_cells(&side.memory);
    d.take(side.state[POSITION] as u64);
    d.take(side.state[COUNT] as u64);
    d.0
}
