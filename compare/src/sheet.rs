//! Sheets: the lines of one, and the listing it gives.

use crate::owners::CELLS;
use crate::refusal::Refusal;
use crate::table::{Reply, Table};

pub const MOST_BYTES: usize = 65_536;

#[derive(Clone, PartialEq, Eq, Debug)]
pub enum Line {
    Open { seat: u32, reading: u32, frame: Vec<u8> },
    Step { seat: u32 },
}

/// Reads one line, without its line feed; none if it has another shape.
pub fn parse_line(line: &[u8]) -> Option<Line> {
    // Splitting at every space makes two spaces, or one at an end, give an
    // empty field, which is neither a number nor hex.
    let fields: Vec<&[u8]> = line.split(|byte| *byte == b' ').collect();
    match fields[..] {
        [b"o", seat, reading, frame] => Some(Line::Open {
            seat: parse_number(seat)?,
            reading: parse_number(reading)?,
            frame: parse_hex(frame)?,
        }),
        [b"s", seat] => Some(Line::Step { seat: parse_number(seat)? }),
        _ => None,
    }
}

/// Decimal, 0 to 4294967295, no leading zeros.
fn parse_number(text: &[u8]) -> Option<u32> {
    let digits = !text.is_empty() && text.iter().all(u8::is_ascii_digit);
    let leading_zero = text.len() > 1 && text[0] == b'0';
    if !digits || leading_zero {
        return None;
    }
    std::str::from_utf8(text).ok()?.parse().ok()
}

/// Lower-case hex, at least one byte.
fn parse_hex(text: &[u8]) -> Option<Vec<u8>> {
    if text.is_empty() || text.len() % 2 != 0 {
        return None;
    }
    text.chunks_exact(2).map(|pair| Some(nibble(pair[0])? * 16 + nibble(pair[1])?)).collect()
}

fn nibble(digit: u8) -> Option<u8> {
    match digit {
        b'0'..=b'9' => Some(digit - b'0'),
        b'a'..=b'f' => Some(digit - b'a' + 10),
        _ => None,
    }
}

/// The lines of the input. A line feed ends a line, so none follows the last
/// one, and an empty input has no lines.
fn lines(input: &[u8]) -> impl Iterator<Item = &[u8]> {
    input.split_inclusive(|byte| *byte == b'\n').map(|line| line.strip_suffix(b"\n").unwrap_or(line))
}

/// The state behind a listing as it is written.
struct Run {
    table: Table,
    image: Vec<u32>,
    ended: u64,
    listing: String,
}

impl Run {
    fn start() -> Run {
        Run { table: Table::fresh(), image: vec![0; CELLS], ended: 0, listing: String::from("wear-run 1\n") }
    }

    fn write(&mut self, line: String) {
        self.listing.push_str(&line);
        self.listing.push('\n');
    }

    fn perform(&mut self, line: Line) {
        match line {
            Line::Open { seat, reading, frame } => self.open(seat, reading, &frame),
            Line::Step { seat } => self.step(seat),
        }
    }

    fn open(&mut self, seat: u32, reading: u32, frame: &[u8]) {
        let number = self.table.open(seat, reading, frame).map_or_else(Refusal::number, |()| 0);
        self.write(format!("o {seat} {number}"));
    }

    fn step(&mut self, seat: u32) {
        let reply = self.table.step(&mut self.image, seat);
        if reply.is_ok_and(Reply::ends) {
            self.ended += 1;
        }
        match reply {
            Ok(reply) => self.write(format!("s {seat} {}", reply.word())),
            Err(refusal) => self.write(format!("s {seat} no {}", refusal.number())),
        }
    }

    fn close(&mut self) {
        for cell in 0..CELLS {
            let value = self.image[cell];
            if value != 0 {
                self.write(format!("c {cell} {value}"));
            }
        }
        self.write(format!("e {}", self.ended));
    }
}

/// The whole listing of a sheet.
pub fn listing(input: &[u8]) -> String {
    let mut run = Run::start();
    if input.len() > MOST_BYTES {
        run.write("bad 0".to_string());
        return run.listing;
    }
    for (i, line) in lines(input).enumerate() {
        let Some(line) = parse_line(line) else {
            run.write(format!("bad {}", i + 1));
            return run.listing;
        };
        run.perform(line);
    }
    run.close();
    run.listing
}
