//! The table of slots and seats, and the calls made on it.

mod seat;
mod sound;
mod step;

use std::collections::VecDeque;

use crate::owners::{Cell, Slot, CELLS, SLOTS};
use crate::refusal::Refusal;
use crate::script::{self, Instruction, REGISTERS};
use crate::slots::SlotSet;

pub use seat::{opening_registers, Outcome, Seat, State};
pub use step::Reply;

pub const SEATS: usize = 16;

/// One slot: its owner, and the seats waiting for it, head first.
#[derive(Clone, PartialEq, Eq, Debug, Default)]
pub struct SlotState {
    pub owner: Option<usize>,
    pub queue: VecDeque<usize>,
}

/// Who holds what is recorded only at the slots, so that the held set of a
/// seat and the owners cannot disagree.
#[derive(Clone, PartialEq, Eq, Debug)]
pub struct Table {
    pub slots: [SlotState; SLOTS],
    pub seats: [Seat; SEATS],
}

/// What an ended seat tells of its transaction.
#[derive(Clone, PartialEq, Eq, Debug)]
pub struct Report {
    pub outcome: Outcome,
    pub script: Vec<Instruction>,
    pub registers: [u32; REGISTERS],
    pub restarts: u32,
    pub working: u32,
    pub slots: u32,
}

/// Owner and queue of a slot, the queue in order.
#[derive(Clone, PartialEq, Eq, Debug)]
pub struct SlotView {
    pub owner: Option<usize>,
    pub queue: Vec<usize>,
}

impl Table {
    /// All slots free, all seats blank.
    pub fn fresh() -> Table {
        Table {
            slots: std::array::from_fn(|_| SlotState::default()),
            seats: std::array::from_fn(|_| Seat::blank()),
        }
    }

    /// Opens a seat; refusals 1, 3, 4, 7, 8, 9.
    pub fn open(&mut self, seat: u32, reading: u32, frame: &[u8]) -> Result<(), Refusal> {
        self.check_sound()?;
        let seat = seat_index(seat)?;
        if self.seats[seat].state == State::Open {
            return Err(Refusal::SeatOpen);
        }
        self.seats[seat] = Seat::opened(script::read(frame)?, reading);
        Ok(())
    }

    /// Steps a seat; refusals 1, 2, 3, 5.
    pub fn step(&mut self, image: &mut [u32], seat: u32) -> Result<Reply, Refusal> {
        self.check_sound()?;
        check_image(image)?;
        let seat = seat_index(seat)?;
        if self.seats[seat].state != State::Open {
            return Err(Refusal::SeatNotOpen);
        }
        let reply = self.advance(image, seat);
        if reply != Reply::Blocked {
            self.seats[seat].working += 1;
        }
        Ok(reply)
    }

    /// The result of an ended seat; refusals 1, 3, 6.
    pub fn result(&self, seat: u32) -> Result<Report, Refusal> {
        self.check_sound()?;
        let seat = &self.seats[seat_index(seat)?];
        let State::Ended(outcome) = seat.state else {
            return Err(Refusal::SeatNotEnded);
        };
        Ok(Report {
            outcome,
            script: seat.script.clone(),
            registers: seat.registers,
            restarts: seat.restarts,
            working: seat.working,
            slots: seat.slots_at_end,
        })
    }

    /// Owner and queue of a slot; refusals 1, 11.
    pub fn slot_view(&self, slot: u32) -> Result<SlotView, Refusal> {
        self.check_sound()?;
        let slot = self.slots.get(slot as usize).ok_or(Refusal::SlotAbove63)?;
        Ok(SlotView { owner: slot.owner, queue: slot.queue.iter().copied().collect() })
    }

    /// The slots a seat owns.
    pub fn held(&self, seat: usize) -> SlotSet {
        self.slots_where(|slot| slot.owner == Some(seat))
    }

    /// The slots a seat stands in the queue of.
    pub fn queued_for(&self, seat: usize) -> SlotSet {
        self.slots_where(|slot| slot.queue.contains(&seat))
    }

    fn slots_where(&self, wanted: impl Fn(&SlotState) -> bool) -> SlotSet {
        (0..SLOTS).filter(|s| wanted(&self.slots[*s])).fold(SlotSet::EMPTY, |set, s| set.with(Slot(s as u8)))
    }

    fn check_sound(&self) -> Result<(), Refusal> {
        match self.broken_rule() {
            None => Ok(()),
            Some(_) => Err(Refusal::TableNotSound),
        }
    }
}

/// Reads a cell of the image; refusals 2, 10.
pub fn read_cell(image: &[u32], cell: Cell) -> Result<u32, Refusal> {
    check_image(image)?;
    if !cell.in_range() {
        return Err(Refusal::CellAbove1023);
    }
    Ok(image[cell.0 as usize])
}

fn check_image(image: &[u32]) -> Result<(), Refusal> {
    if image.len() == CELLS {
        Ok(())
    } else {
        Err(Refusal::ImageSize)
    }
}

fn seat_index(seat: u32) -> Result<usize, Refusal> {
    let seat = seat as usize;
    if seat < SEATS {
        Ok(seat)
    } else {
        Err(Refusal::SeatAbove15)
    }
}
