//! Making of sheets for comparison, the same ones from the same seed.

mod damage;
mod frames;
mod plan;
mod random;

use crate::owners::CELLS;
use crate::sheet::MOST_BYTES;
use crate::table::{State, Table};
use plan::{Plan, Schedule};
use random::Random;

/// The sheet with this index under this seed. It does not depend on the
/// sheets before it, so that a single one can be made again.
pub fn sheet(seed: u64, index: u64) -> Vec<u8> {
    let mut random = Random::new(seed, index);
    let plan = Plan::choose(&mut random);
    Maker::new(plan, random).make()
}

/// A sheet in the making. Its lines are also performed, so that seats are
/// mostly opened when shut and stepped when open.
struct Maker {
    plan: Plan,
    random: Random,
    table: Table,
    image: Vec<u32>,
    text: Vec<u8>,
    /// The seat stepped last, for schedules that go on from it.
    last: u32,
}

impl Maker {
    fn new(plan: Plan, random: Random) -> Maker {
        Maker { plan, random, table: Table::fresh(), image: vec![0; CELLS], text: Vec::new(), last: 0 }
    }

    fn make(mut self) -> Vec<u8> {
        while self.text.len() < self.plan.bytes {
            self.one_line();
        }
        if self.plan.drain {
            self.drain();
        }
        if let Some(size) = self.plan.exact_size {
            self.pad(size);
        }
        if self.plan.damaged {
            self.text = damage::damage_sheet(&mut self.random, &self.text);
        }
        if !self.plan.last_line_feed && self.text.last() == Some(&b'\n') {
            self.text.pop();
        }
        self.text
    }

    fn one_line(&mut self) {
        if self.random.percent(self.plan.refused) {
            return self.refused_call();
        }
        let seat = self.next_seat();
        self.last = seat;
        if self.is_open(seat) {
            self.step(seat);
        } else {
            self.open(seat);
        }
    }

    fn is_open(&self, seat: u32) -> bool {
        self.table.seats.get(seat as usize).is_some_and(|s| s.state == State::Open)
    }

    fn next_seat(&mut self) -> u32 {
        let seats = self.plan.seats;
        match self.plan.schedule {
            Schedule::InTurn => (self.last + 1) % seats,
            Schedule::Bursts if self.random.percent(80) && !self.waits(self.last) => self.last,
            Schedule::Bursts | Schedule::Any => self.random.below(seats),
            Schedule::Lively => self.seat_not_waiting(),
        }
    }

    /// Mostly a seat that waits in no queue; with many seats on few slots
    /// nearly all steps would otherwise be blocked.
    fn seat_not_waiting(&mut self) -> u32 {
        let moving: Vec<u32> = (0..self.plan.seats).filter(|s| !self.waits(*s)).collect();
        if moving.is_empty() || self.random.percent(5) {
            return self.random.below(self.plan.seats);
        }
        *self.random.pick(&moving)
    }

    fn waits(&self, seat: u32) -> bool {
        !self.table.queued_for(seat as usize).is_empty()
    }

    fn open(&mut self, seat: u32) {
        let frame = if self.random.percent(self.plan.hostile) {
            frames::hostile(&mut self.random, &self.plan)
        } else {
            frames::legal(&mut self.random, &self.plan)
        };
        let reading = self.plan.reading(&mut self.random);
        self.write_open(seat, reading, &frame);
    }

    fn write_open(&mut self, seat: u32, reading: u32, frame: &[u8]) {
        let _ = self.table.open(seat, reading, frame);
        let hex: String = frame.iter().map(|byte| format!("{byte:02x}")).collect();
        self.write(format!("o {seat} {reading} {hex}"));
    }

    fn step(&mut self, seat: u32) {
        let _ = self.table.step(&mut self.image, seat);
        self.write(format!("s {seat}"));
    }

    fn write(&mut self, line: String) {
        self.text.extend_from_slice(line.as_bytes());
        self.text.push(b'\n');
    }

    /// Calls that are mostly refused: seats out of range, seats in the wrong
    /// state, and frames that would be refused too.
    fn refused_call(&mut self) {
        let seat = match self.random.below(4) {
            0 => *self.random.pick(&[15, 16, 17, 31, 255, 256, 65_536, 4_294_967_294, 4_294_967_295]),
            _ => self.random.below(16),
        };
        let opening = if seat < 16 { self.is_open(seat) } else { self.random.percent(50) };
        if !opening {
            return self.step(seat);
        }
        self.open(seat);
    }

    /// Steps all seats in turn until all have ended or the sheet is full, so
    /// that the listing ends with what was committed.
    fn drain(&mut self) {
        while (0..16).any(|s| self.is_open(s)) {
            for seat in 0..16 {
                if self.text.len() + 5 > MOST_BYTES {
                    return;
                }
                if self.is_open(seat) && (!self.waits(seat) || self.random.percent(10)) {
                    self.step(seat);
                }
            }
        }
    }

    /// Brings the sheet to exactly `size` bytes, with lines of five bytes
    /// until lines of four fit.
    fn pad(&mut self, size: usize) {
        while self.text.len() < size {
            let left = size - self.text.len();
            self.step(if left % 4 == 0 { 0 } else { 10 });
        }
    }
}
