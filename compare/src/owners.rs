//! Cells, slots, and the rule for which slot owns a cell.

use crate::refusal::Refusal;

pub const CELLS: usize = 1024;
pub const SLOTS: usize = 64;

/// A cell number. It may be out of range: ops 4 and 5 compute such numbers.
#[derive(Clone, Copy, PartialEq, Eq, PartialOrd, Ord, Debug)]
pub struct Cell(pub u32);

/// A slot number. A type of its own, so it cannot stand where a cell belongs.
#[derive(Clone, Copy, PartialEq, Eq, PartialOrd, Ord, Debug)]
pub struct Slot(pub u8);

impl Cell {
    pub fn in_range(self) -> bool {
        (self.0 as usize) < CELLS
    }
}

/// The owner of a cell: slot (r + 5 × (r div 64)) mod 64 with r = c div 8.
pub fn owner(cell: Cell) -> Result<Slot, Refusal> {
    if !cell.in_range() {
        return Err(Refusal::CellAbove1023);
    }
    let record = cell.0 / 8;
    Ok(Slot(((record + 5 * (record / 64)) % 64) as u8))
}
