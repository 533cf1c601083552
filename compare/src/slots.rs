//! Sets of slots, one bit for each of the 64.

use crate::owners::Slot;

#[derive(Clone, Copy, PartialEq, Eq, Debug, Default)]
pub struct SlotSet(pub u64);

impl SlotSet {
    pub const EMPTY: SlotSet = SlotSet(0);

    pub fn with(self, slot: Slot) -> SlotSet {
        SlotSet(self.0 | bit(slot))
    }

    pub fn without(self, slot: Slot) -> SlotSet {
        SlotSet(self.0 & !bit(slot))
    }

    pub fn union(self, other: SlotSet) -> SlotSet {
        SlotSet(self.0 | other.0)
    }

    pub fn contains(self, slot: Slot) -> bool {
        self.0 & bit(slot) != 0
    }

    pub fn is_empty(self) -> bool {
        self.0 == 0
    }

    pub fn len(self) -> u32 {
        self.0.count_ones()
    }

    pub fn smallest(self) -> Option<Slot> {
        (self.0 != 0).then(|| Slot(self.0.trailing_zeros() as u8))
    }

    /// The members strictly above `slot`.
    pub fn above(self, slot: Slot) -> SlotSet {
        // `!(bit - 1)` is `slot` and all above it; taking `slot` out again
        // avoids a shift by 64 when `slot` is 63.
        SlotSet(self.0 & !(bit(slot) - 1)).without(slot)
    }

    /// Whether every member is strictly below `slot`.
    pub fn all_below(self, slot: Slot) -> bool {
        !self.contains(slot) && self.above(slot).is_empty()
    }

    /// The members, rising.
    pub fn iter(self) -> impl Iterator<Item = Slot> {
        let mut left = self;
        std::iter::from_fn(move || {
            let slot = left.smallest()?;
            left = left.without(slot);
            Some(slot)
        })
    }
}

fn bit(slot: Slot) -> u64 {
    1 << slot.0
}
