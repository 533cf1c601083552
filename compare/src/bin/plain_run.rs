//! The program `run`: a sheet on standard input, its listing on standard output.

use std::io::{self, Read, Write};

use compare::sheet::{listing, MOST_BYTES};

fn main() -> io::Result<()> {
    let mut input = Vec::new();
    // One byte more than a sheet may have is enough to know it is too long.
    io::stdin().lock().take(MOST_BYTES as u64 + 1).read_to_end(&mut input)?;
    io::stdout().lock().write_all(listing(&input).as_bytes())
}
