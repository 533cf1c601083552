//! One seat: blank, open, or ended.

use crate::owners::Cell;
use crate::script::{Instruction, REGISTERS};
use crate::slots::SlotSet;

#[derive(Clone, Copy, PartialEq, Eq, Debug)]
pub enum Outcome {
    Committed,
    Failed,
}

#[derive(Clone, Copy, PartialEq, Eq, Debug)]
pub enum State {
    NeverOpened,
    Open,
    Ended(Outcome),
}

#[derive(Clone, PartialEq, Eq, Debug)]
pub struct Seat {
    pub state: State,
    pub script: Vec<Instruction>,
    pub reading: u32,
    pub registers: [u32; REGISTERS],
    pub position: usize,
    /// Every write since the start of this run, in order; of two to the same
    /// cell both stay and the later wins.
    pub writes: Vec<(Cell, u32)>,
    pub pending: SlotSet,
    pub restarts: u32,
    pub working: u32,
    pub slots_at_end: u32,
}

/// Register 0 is the reading given, the others are zero.
pub fn opening_registers(reading: u32) -> [u32; REGISTERS] {
    let mut registers = [0; REGISTERS];
    registers[0] = reading;
    registers
}

impl Seat {
    pub fn blank() -> Seat {
        Seat {
            state: State::NeverOpened,
            script: Vec::new(),
            reading: 0,
            registers: [0; REGISTERS],
            position: 0,
            writes: Vec::new(),
            pending: SlotSet::EMPTY,
            restarts: 0,
            working: 0,
            slots_at_end: 0,
        }
    }

    pub fn opened(script: Vec<Instruction>, reading: u32) -> Seat {
        Seat { state: State::Open, script, reading, registers: opening_registers(reading), ..Seat::blank() }
    }

    /// The instruction at the position; none at the end of the script.
    pub fn instruction(&self) -> Option<Instruction> {
        self.script.get(self.position).copied()
    }

    /// A cell as this seat sees it: its own latest write, or the image.
    pub fn sees(&self, image: &[u32], cell: Cell) -> u32 {
        let own = self.writes.iter().rev().find(|(c, _)| *c == cell);
        own.map_or(image[cell.0 as usize], |(_, value)| *value)
    }

    /// What is left once the transaction has ended: only the script and the
    /// figures to report.
    pub fn ended(&self, outcome: Outcome, slots_at_end: u32) -> Seat {
        Seat {
            state: State::Ended(outcome),
            script: self.script.clone(),
            registers: self.registers,
            restarts: self.restarts,
            working: self.working,
            slots_at_end,
            ..Seat::blank()
        }
    }
}
