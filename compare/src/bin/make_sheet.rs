//! Makes sheets for comparison.
//!
//! `make_sheet SEED COUNT DIR` writes DIR/000000.sheet and on, COUNT of them.
//! `make_sheet SEED COUNT -` prints the last of those COUNT sheets, so that
//! any one of a directory can be made again without the others.

use std::io::{self, Write};
use std::path::Path;
use std::process::ExitCode;

use compare::make::sheet;

fn main() -> ExitCode {
    let words: Vec<String> = std::env::args().skip(1).collect();
    let Some((seed, count, place)) = parse(&words) else {
        eprintln!("usage: make_sheet SEED COUNT DIR|-");
        return ExitCode::from(2);
    };
    let done = if place == "-" { print_last(seed, count) } else { write_all(seed, count, Path::new(place)) };
    match done {
        Ok(()) => ExitCode::SUCCESS,
        Err(error) => {
            eprintln!("make_sheet: {error}");
            ExitCode::FAILURE
        }
    }
}

fn parse(words: &[String]) -> Option<(u64, u64, &str)> {
    let [seed, count, place] = words else {
        return None;
    };
    Some((seed.parse().ok()?, count.parse().ok()?, place))
}

fn print_last(seed: u64, count: u64) -> io::Result<()> {
    io::stdout().lock().write_all(&sheet(seed, count.saturating_sub(1)))
}

fn write_all(seed: u64, count: u64, directory: &Path) -> io::Result<()> {
    std::fs::create_dir_all(directory)?;
    for index in 0..count {
        std::fs::write(directory.join(format!("{index:06}.sheet")), sheet(seed, index))?;
    }
    Ok(())
}
