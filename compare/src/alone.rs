//! A script run alone: the rules for registers and cells, without slots.
//! Written apart from the table so that the tests can hold one to the other.

use crate::owners::CELLS;
use crate::script::{Instruction, REGISTERS};
use crate::table::Outcome;

/// Runs a legal script on the image; a failed run changes no cell.
pub fn run(script: &[Instruction], reading: u32, image: &mut [u32; CELLS]) -> (Outcome, [u32; REGISTERS]) {
    let mut registers = [0u32; REGISTERS];
    registers[0] = reading;
    let mut work = *image;
    let mut position = 0;
    while position < script.len() {
        let ins = script[position];
        let (a, b) = (usize::from(ins.a), usize::from(ins.b));
        position += 1;
        if let Some(cell) = ins.cell(&registers) {
            if !cell.in_range() {
                return (Outcome::Failed, registers);
            }
            let cell = cell.0 as usize;
            match ins.op {
                2 | 4 => registers[a] = work[cell],
                _ => work[cell] = registers[a],
            }
            continue;
        }
        match ins.op {
            1 => registers[a] = ins.k16(),
            6 => registers[a] = registers[a].wrapping_add(registers[b]),
            7 => registers[a] = registers[a].wrapping_sub(registers[b]),
            _ if registers[a] < registers[b] => position += usize::from(ins.c),
            _ => {}
        }
    }
    *image = work;
    (Outcome::Committed, registers)
}
