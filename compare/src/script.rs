//! Instructions, their legality, and the frames that carry them.

use crate::owners::{Cell, CELLS};
use crate::refusal::Refusal;

pub const MOST_INSTRUCTIONS: usize = 64;
pub const REGISTERS: usize = 8;
pub const HEADER: usize = 3;
pub const VERSION: u8 = 1;

/// The four bytes of an instruction as they stand in a frame. They may be
/// illegal: the writer has to be able to refuse them.
#[derive(Clone, Copy, PartialEq, Eq, Debug)]
pub struct Instruction {
    pub op: u8,
    pub a: u8,
    pub b: u8,
    pub c: u8,
}

impl Instruction {
    pub fn new(op: u8, a: u8, b: u8, c: u8) -> Instruction {
        Instruction { op, a, b, c }
    }

    pub fn k16(self) -> u32 {
        u32::from(self.b) * 256 + u32::from(self.c)
    }

    pub fn bytes(self) -> [u8; 4] {
        [self.op, self.a, self.b, self.c]
    }

    /// The cell this instruction reads or writes, if it does either. The
    /// instruction must be legal, or `b` may name no register.
    pub fn cell(self, registers: &[u32; REGISTERS]) -> Option<Cell> {
        match self.op {
            2 | 3 => Some(Cell(self.k16())),
            4 | 5 => Some(Cell(registers[usize::from(self.b)])),
            _ => None,
        }
    }

    /// Legality at position `i` of `k` instructions; only op 8 depends on both.
    pub fn legal(self, i: usize, k: usize) -> bool {
        let a = is_register(self.a);
        let b = is_register(self.b);
        match self.op {
            1 => a,
            2 | 3 => a && (self.k16() as usize) < CELLS,
            4..=7 => a && b && self.c == 0,
            8 => a && b && i + 1 + usize::from(self.c) <= k,
            _ => false,
        }
    }
}

fn is_register(number: u8) -> bool {
    usize::from(number) < REGISTERS
}

/// Refusals 8 and 9, which reader, writer and the soundness test share.
pub fn check_instructions(script: &[Instruction]) -> Result<(), Refusal> {
    let k = script.len();
    if k > MOST_INSTRUCTIONS {
        return Err(Refusal::TooManyInstructions);
    }
    let legal = script.iter().enumerate().all(|(i, ins)| ins.legal(i, k));
    if legal {
        Ok(())
    } else {
        Err(Refusal::Instruction)
    }
}

/// Reads a frame; refusals 7, 8, 9.
pub fn read(frame: &[u8]) -> Result<Vec<Instruction>, Refusal> {
    let body = body_of(frame)?;
    let script: Vec<Instruction> =
        body.chunks_exact(4).map(|w| Instruction::new(w[0], w[1], w[2], w[3])).collect();
    check_instructions(&script)?;
    Ok(script)
}

/// The body of a well-shaped frame; refusal 7.
fn body_of(frame: &[u8]) -> Result<&[u8], Refusal> {
    if frame.len() < HEADER || frame[0] != VERSION {
        return Err(Refusal::Frame);
    }
    let length = usize::from(frame[1]) * 256 + usize::from(frame[2]);
    let body = &frame[HEADER..];
    if length != body.len() || length % 4 != 0 {
        return Err(Refusal::Frame);
    }
    Ok(body)
}

/// Writes a frame to the front of `destination` and says how long it is;
/// refusals 8, 9, 14. A refused write changes nothing.
pub fn write(script: &[Instruction], destination: &mut [u8]) -> Result<usize, Refusal> {
    check_instructions(script)?;
    let body = 4 * script.len();
    if destination.len() < HEADER + body {
        return Err(Refusal::DestinationShort);
    }
    destination[..HEADER].copy_from_slice(&[VERSION, (body / 256) as u8, (body % 256) as u8]);
    for (i, instruction) in script.iter().enumerate() {
        let at = HEADER + 4 * i;
        destination[at..at + 4].copy_from_slice(&instruction.bytes());
    }
    Ok(HEADER + body)
}
