use second::calls::Own;
use std::io::{self, BufWriter, Write};
use std::process::ExitCode;

fn main() -> ExitCode {
    let name = std::env::args().nth(1).unwrap_or_default();
    let mut out = BufWriter::new(io::stdout().lock());
    let done = match name.as_str() {
        "lengths" => second::lengths::print(&mut out),
        "annexj" => second::annexj::print(&mut out),
        "blocks" => second::blocks::print(&mut out),
        "nearest" => second::nearest::print(&mut out),
        "kinds" => second::grid::print(&mut out),
        "runs" => second::runs::print(&Own, &mut out),
        "counts" => second::counts::print(&Own, &mut out),
        "refusals" => second::refusals::print(&Own, &mut out),
        _ => {
            eprintln!("second lengths | annexj | blocks | nearest | kinds | runs | counts | refusals");
            return ExitCode::from(2);
        }
    };
    match done.and_then(|()| out.flush()) {
        Ok(()) => ExitCode::SUCCESS,
        Err(e) => {
            eprintln!("{e}");
            ExitCode::FAILURE
        }
    }
}
