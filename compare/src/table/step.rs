//! One step of an open seat, under the letters A to D of the description.

use super::{opening_registers, Outcome, Table};
use crate::owners::{owner, Cell, Slot};
use crate::script::Instruction;
use crate::slots::SlotSet;

#[derive(Clone, Copy, PartialEq, Eq, Debug)]
pub enum Reply {
    Got,
    Blocked,
    Queued,
    Committed,
    Ran,
    Failed,
    Restarted,
}

impl Reply {
    pub fn word(self) -> &'static str {
        match self {
            Reply::Got => "got",
            Reply::Blocked => "blocked",
            Reply::Queued => "queued",
            Reply::Committed => "committed",
            Reply::Ran => "ran",
            Reply::Failed => "failed",
            Reply::Restarted => "restarted",
        }
    }

    pub fn ends(self) -> bool {
        matches!(self, Reply::Committed | Reply::Failed)
    }
}

impl Table {
    /// Chooses among A to D. The seat is open and the table sound.
    pub(super) fn advance(&mut self, image: &mut [u32], seat: usize) -> Reply {
        let open = &self.seats[seat];
        if let Some(p) = open.pending.smallest() {
            return self.take_again(seat, p);
        }
        let Some(instruction) = open.instruction() else {
            return self.commit(image, seat);
        };
        match instruction.cell(&open.registers) {
            None => self.compute(seat, instruction),
            Some(cell) => self.reach(image, seat, instruction, cell),
        }
    }

    /// A: the smallest pending slot.
    fn take_again(&mut self, seat: usize, p: Slot) -> Reply {
        let slot = &mut self.slots[usize::from(p.0)];
        // The slot may be the seat's already: handed over by a release.
        if slot.owner.is_some_and(|o| o != seat) {
            return self.wait(seat, p);
        }
        slot.owner = Some(seat);
        self.seats[seat].pending = self.seats[seat].pending.without(p);
        Reply::Got
    }

    /// B: the script is done.
    fn commit(&mut self, image: &mut [u32], seat: usize) -> Reply {
        for (cell, value) in &self.seats[seat].writes {
            image[cell.0 as usize] = *value;
        }
        self.end(seat, Outcome::Committed);
        Reply::Committed
    }

    /// C: ops 1, 6, 7, 8, which touch registers and position only.
    fn compute(&mut self, seat: usize, ins: Instruction) -> Reply {
        let open = &mut self.seats[seat];
        let (a, b) = (usize::from(ins.a), usize::from(ins.b));
        open.position += 1;
        match ins.op {
            1 => open.registers[a] = ins.k16(),
            6 => open.registers[a] = open.registers[a].wrapping_add(open.registers[b]),
            7 => open.registers[a] = open.registers[a].wrapping_sub(open.registers[b]),
            8 => {
                if open.registers[a] < open.registers[b] {
                    open.position += usize::from(ins.c);
                }
            }
            op => unreachable!("op {op} in a sound table"),
        }
        Reply::Ran
    }

    /// D: ops 2 to 5, which need the slot of a cell.
    fn reach(&mut self, image: &[u32], seat: usize, ins: Instruction, cell: Cell) -> Reply {
        let Ok(s) = owner(cell) else {
            self.end(seat, Outcome::Failed);
            return Reply::Failed;
        };
        let slot = &mut self.slots[usize::from(s.0)];
        if slot.owner.is_some_and(|o| o != seat) {
            let above = self.held(seat).above(s);
            return if above.is_empty() { self.wait(seat, s) } else { self.restart(seat, s, above) };
        }
        slot.owner = Some(seat);
        self.access(image, seat, ins, cell);
        Reply::Ran
    }

    /// Reads or writes a cell whose slot is held.
    fn access(&mut self, image: &[u32], seat: usize, ins: Instruction, cell: Cell) {
        let open = &mut self.seats[seat];
        let a = usize::from(ins.a);
        match ins.op {
            2 | 4 => open.registers[a] = open.sees(image, cell),
            _ => open.writes.push((cell, open.registers[a])),
        }
        open.position += 1;
    }

    /// Waits for a slot another seat owns.
    fn wait(&mut self, seat: usize, slot: Slot) -> Reply {
        let queue = &mut self.slots[usize::from(slot.0)].queue;
        if queue.contains(&seat) {
            return Reply::Blocked;
        }
        queue.push_back(seat);
        Reply::Queued
    }

    /// Gives up the held slots above s, to take them again after s.
    fn restart(&mut self, seat: usize, s: Slot, above: SlotSet) -> Reply {
        self.release(above);
        let open = &mut self.seats[seat];
        open.writes.clear();
        open.registers = opening_registers(open.reading);
        open.position = 0;
        open.restarts += 1;
        open.pending = above.with(s);
        Reply::Restarted
    }

    fn end(&mut self, seat: usize, outcome: Outcome) {
        let held = self.held(seat);
        self.release(held);
        self.seats[seat] = self.seats[seat].ended(outcome, held.len());
    }

    /// A released slot goes at once to the head of its queue, if any.
    fn release(&mut self, set: SlotSet) {
        for slot in set.iter() {
            let slot = &mut self.slots[usize::from(slot.0)];
            slot.owner = slot.queue.pop_front();
        }
    }
}
