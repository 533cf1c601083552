//! The numbers for what is refused.

#[derive(Clone, Copy, PartialEq, Eq, PartialOrd, Ord, Debug)]
pub enum Refusal {
    TableNotSound = 1,
    ImageSize = 2,
    SeatAbove15 = 3,
    SeatOpen = 4,
    SeatNotOpen = 5,
    SeatNotEnded = 6,
    Frame = 7,
    TooManyInstructions = 8,
    Instruction = 9,
    CellAbove1023 = 10,
    SlotAbove63 = 11,
    ShelfDamaged = 12,
    NumberOnNeitherShelf = 13,
    DestinationShort = 14,
}

impl Refusal {
    pub fn number(self) -> u8 {
        self as u8
    }
}
