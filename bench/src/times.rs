//! Times of all programs in one run, and what they are to each other.

use crate::rig::{coded_bits, Program, Rig, PROGRAMS};
use crate::settings;
use harness::archive;
use second::nearest::RECEIVED;
use second::settings::{Settings, FAC_BITS, FAC_BYTES};
use std::time::Instant;

/// The least of so many rounds counts; in each a program makes so many calls of a kind in a row.
const ROUNDS: usize = 60;
const IN_A_ROW: usize = 3;

const MSC_NAMES: [&str; 4] = ["64-QAM SM", "HMmix", "HMsym", "16-QAM SM"];
const SHOWN: [(u8, u8); 3] = [(0, 5), (1, 3), (3, 5)];

/// The programs that the library is compared with.
const OTHERS: [Program; 3] = [Program::Second, Program::Tuned, Program::Kept];

/// Nanoseconds of one call, by program.
#[derive(Clone, Copy)]
struct Times {
    code: [f64; PROGRAMS.len()],
    read: [f64; PROGRAMS.len()],
    coded_bits: f64,
}

/// A run of each program with the same settings, and the least times so far.
struct Race {
    rigs: [Rig; PROGRAMS.len()],
    least: Times,
}

impl Race {
    /// Cells, bits, states and memories of all programs are equal before anything is timed.
    fn new(s: Settings) -> Race {
        let mut rigs = PROGRAMS.map(|program| Rig::new(s, program));
        for rig in &mut rigs {
            rig.forget();
            rig.code();
            rig.read();
        }
        let [library, others @ ..] = &rigs;
        others.iter().for_each(|other| library.assert_same(other));
        let none = [f64::INFINITY; PROGRAMS.len()];
        let least = Times { code: none, read: none, coded_bits: coded_bits(&s) as f64 };
        Race { rigs, least }
    }

    fn round(&mut self) {
        for (rig, (code, read)) in self.rigs.iter_mut().zip(self.least.code.iter_mut().zip(&mut self.least.read)) {
            for _ in 0..IN_A_ROW {
                *code = code.min(time(|| rig.code()));
            }
            for _ in 0..IN_A_ROW {
                *read = read.min(time(|| rig.read()));
            }
        }
    }
}

/// Programs and settings take turns, so that whatever else the machine does hurts all alike; the least time counts.
fn measure<const N: usize>(settings: [Settings; N]) -> [Times; N] {
    let mut races = settings.map(Race::new);
    for _ in 0..ROUNDS {
        races.iter_mut().for_each(Race::round);
    }
    races.map(|race| race.least)
}

fn time(call: impl FnOnce()) -> f64 {
    let start = Instant::now();
    call();
    start.elapsed().as_nanos() as f64
}

/// How many times a program's time the library takes.
fn ratio(times: &[f64; PROGRAMS.len()], program: Program) -> f64 {
    times[Program::Library as usize] / times[program as usize]
}

pub fn print() {
    println!("Nanoseconds a coded bit of the MSC, and how many times another program's time the library takes.");
    println!("Levels 0 and 1, X half of the greatest; least of {ROUNDS} rounds with {IN_A_ROW} calls in a row.");
    println!();
    println!("                           |             Code              |             Read              | Read/Code");
    println!("settings                   | library second   tuned   kept | library second   tuned   kept |   library");
    let mut all = Vec::new();
    for (mode, occupancy) in SHOWN {
        for msc in 0..4 {
            for interleaving in 0..2 {
                let [times] = measure([settings(mode, occupancy, msc, interleaving)]);
                print_times(&name(mode, occupancy, msc, interleaving), &times);
                all.push(times);
            }
        }
    }
    println!();
    for program in OTHERS {
        print_ratios("Code, library", program.name(), all.iter().map(|t| ratio(&t.code, program)).collect());
    }
    for program in OTHERS {
        print_ratios("Read, library", program.name(), all.iter().map(|t| ratio(&t.read, program)).collect());
    }
    for (k, program) in PROGRAMS.iter().enumerate() {
        print_ratios(&format!("{} Read", program.name()), "Code", all.iter().map(|t| t.read[k] / t.code[k]).collect());
    }
    println!();
    print_growth();
    println!();
    print_nearest();
}

/// The search for the nearest FAC block, by values with a third unknown.
fn print_nearest() {
    let received: Vec<u8> = (0..RECEIVED).map(|i| (i % 3) as u8).collect();
    let (mut block, mut count) = ([0; FAC_BYTES], [0]);
    let mut least = f64::INFINITY;
    for _ in 0..ROUNDS {
        least = least.min(time(|| assert_eq!(archive::fac_nearest(&received, &mut block, &mut count), 0)));
    }
    println!("nearest FAC block: {:.0} ns a bit", least / FAC_BITS as f64);
}

fn print_times(name: &str, t: &Times) {
    let part = |times: &[f64; PROGRAMS.len()]| {
        let [second, tuned, kept] = OTHERS.map(|program| ratio(times, program));
        format!("{:7.2} {second:6.2} {tuned:7.2} {kept:6.2}", times[Program::Library as usize] / t.coded_bits)
    };
    let library = Program::Library as usize;
    println!("{name:<26} | {} | {} | {:9.2}", part(&t.code), part(&t.read), t.read[library] / t.code[library]);
}

fn name(mode: u8, occupancy: u8, msc: u8, interleaving: u8) -> String {
    let interleaving = if interleaving == 0 { "long" } else { "short" };
    format!("{}/{occupancy} {}, {interleaving}", (b'A' + mode) as char, MSC_NAMES[msc as usize])
}

fn print_ratios(over: &str, under: &str, ratios: Vec<f64>) {
    let least = ratios.iter().copied().fold(f64::INFINITY, f64::min);
    let greatest = ratios.iter().copied().fold(0.0, f64::max);
    let mean = (ratios.iter().map(|r| r.ln()).sum::<f64>() / ratios.len() as f64).exp();
    println!("{over} / {under}: {least:.2} to {greatest:.2}, geometric mean {mean:.2}");
}

/// How much longer a call takes with 6118 cells a frame (A/5) than with 966 (B/0).
fn print_growth() {
    println!("Growth from 966 cells a frame (B/0) to 6118 (A/5), which is {:.2} times as many:", 6118.0 / 966.0);
    println!("                           |            Code             |            Read");
    println!("settings                   | library second tuned   kept | library second tuned   kept");
    let (mut code, mut read) = (Vec::new(), Vec::new());
    for msc in 0..4 {
        for interleaving in 0..2 {
            let [few, many] = measure([settings(1, 0, msc, interleaving), settings(0, 5, msc, interleaving)]);
            let name = name(1, 0, msc, interleaving).replace("B/0 ", "");
            let grown = [(many.code, few.code), (many.read, few.read)];
            let [of_code, of_read] = grown.map(|(many, few)| [0, 1, 2, 3].map(|k| many[k] / few[k]));
            let shown = [of_code, of_read].map(|[l, s, t, k]| format!("{l:7.2} {s:6.2} {t:5.2} {k:6.2}"));
            println!("{name:<26} | {} | {}", shown[0], shown[1]);
            code.push(of_code[0]);
            read.push(of_read[0]);
        }
    }
    print_ratios("Code, library, 6118 cells", "966 cells", code);
    print_ratios("Read, library, 6118 cells", "966 cells", read);
}
