//! Times Code and Read of the archive beside the second program's and the tuned version's, compares them, or makes a
//! given number of calls.

mod compare;
mod rig;
mod times;

use rig::{Program, Rig};
use second::settings::Settings;
use std::process::ExitCode;

const USAGE: &str = "bench
    times Code and Read, after comparing cells and bits
bench compare
    compares the tuned version with the library over random settings
bench code|read MODE OCCUPANCY MSC-MODE long|short CALLS library|second|tuned|kept
    makes so many calls and nothing else of that program (MODE is A to D)
bench coded-bits MODE OCCUPANCY MSC-MODE long|short
    the coded bits of the MSC in such a call";

fn main() -> ExitCode {
    let args: Vec<String> = std::env::args().skip(1).collect();
    let args: Vec<&str> = args.iter().map(String::as_str).collect();
    match done(&args) {
        Some(()) => ExitCode::SUCCESS,
        None => {
            eprintln!("{USAGE}");
            ExitCode::from(2)
        }
    }
}

/// Does what the words ask for, if these are right.
fn done(args: &[&str]) -> Option<()> {
    match args {
        [] => times::print(),
        ["compare"] => compare::all(),
        ["coded-bits", words @ ..] => println!("{}", rig::coded_bits(&words_settings(words)?)),
        [call, words @ .., calls, program] => some_calls(call, words, calls, program)?,
        _ => return None,
    }
    Some(())
}

/// Both parts in use, half of the greatest X; protection levels 0 and 1, VSPP level 0, SDC in 16-QAM.
fn settings(mode: u8, occupancy: u8, msc: u8, interleaving: u8) -> Settings {
    let s = Settings { mode, occupancy, msc, interleaving, level_b: 1, ..Settings::default() };
    match s.refusal() {
        0 => Settings { x: s.largest_x() / 2, ..s },
        _ => s,
    }
}

/// The settings that four words name, if they are permitted.
fn words_settings(words: &[&str]) -> Option<Settings> {
    let &[mode, occupancy, msc, interleaving] = words else { return None };
    let mode = ["A", "B", "C", "D"].iter().position(|m| *m == mode)? as u8;
    let interleaving = ["long", "short"].iter().position(|i| *i == interleaving)? as u8;
    let s = settings(mode, occupancy.parse().ok()?, msc.parse().ok()?, interleaving);
    (s.refusal() == 0).then_some(s)
}

/// Makes so many calls of a program.
fn some_calls(call: &str, words: &[&str], calls: &str, program: &str) -> Option<()> {
    let call: fn(&mut Rig) = match call {
        "code" => Rig::code,
        "read" => Rig::read,
        _ => return None,
    };
    let calls: u32 = calls.parse().ok()?;
    let mut rig = Rig::new(words_settings(words)?, Program::named(program)?);
    (0..calls).for_each(|_| call(&mut rig));
    Some(())
}
