//! The test of 'A sound table', rule by rule.

use super::{opening_registers, Seat, State, Table, SEATS};
use crate::owners::{owner, Slot};
use crate::script::check_instructions;
use crate::slots::SlotSet;

type Rule = fn(&Table) -> bool;

const MOST_RESTARTS: u32 = 63;
const MOST_SLOTS: u32 = 64;
const MOST_WORKING: u32 = 12_225;

impl Table {
    /// The first rule that does not hold. Later rules rely on earlier ones
    /// (rule 4 indexes registers only in scripts rule 2 found legal), so the
    /// order matters for more than the number.
    pub fn broken_rule(&self) -> Option<u8> {
        let rules: [(u8, Rule); 6] = [
            (1, Table::rule_1),
            (2, |t| t.of_open_seats(Table::rule_2)),
            (3, |t| t.of_open_seats(Table::rule_3)),
            (4, |t| t.of_open_seats(Table::rule_4)),
            (5, |t| t.of_open_seats(Table::rule_5)),
            (6, |t| (0..SEATS).all(|seat| t.rule_6(seat))),
        ];
        rules.iter().find(|(_, holds)| !holds(self)).map(|(number, _)| *number)
    }

    fn of_open_seats(&self, rule: fn(&Table, usize) -> bool) -> bool {
        (0..SEATS).filter(|s| self.is_open(*s)).all(|s| rule(self, s))
    }

    fn is_open(&self, seat: usize) -> bool {
        self.seats.get(seat).is_some_and(|s| s.state == State::Open)
    }

    /// Owners and queues.
    fn rule_1(&self) -> bool {
        let owners_open = self.slots.iter().all(|s| s.owner.is_none_or(|o| self.is_open(o)));
        let queued: Vec<usize> = self.slots.iter().flat_map(|s| s.queue.iter().copied()).collect();
        let queued_open = queued.iter().all(|q| self.is_open(*q));
        // Over all queues together, so this is "at most once" and "in one
        // queue only" at the same time.
        let queued_once = (0..SEATS).all(|seat| queued.iter().filter(|q| **q == seat).count() <= 1);
        let queues_owned = self.slots.iter().all(|s| match s.owner {
            None => s.queue.is_empty(),
            Some(owner) => !s.queue.contains(&owner),
        });
        owners_open && queued_open && queued_once && queues_owned
    }

    /// Position, script and kept writes.
    fn rule_2(&self, seat: usize) -> bool {
        let open = &self.seats[seat];
        let held = self.held(seat);
        open.position <= open.script.len()
            && check_instructions(&open.script).is_ok()
            && open.writes.len() <= open.position
            && open.writes.iter().all(|(cell, _)| owner(*cell).is_ok_and(|s| held.contains(s)))
    }

    /// A seat taking slots again after a restart.
    fn rule_3(&self, seat: usize) -> bool {
        let open = &self.seats[seat];
        let Some(smallest) = open.pending.smallest() else {
            return true;
        };
        let held = self.held(seat).without(smallest);
        let others = open.pending.without(smallest);
        open.position == 0
            && open.writes.is_empty()
            && open.registers == opening_registers(open.reading)
            && held.all_below(smallest)
            && others.iter().all(|s| !held.contains(s))
    }

    /// A queued seat waits for the right slot and holds only lower ones.
    fn rule_4(&self, seat: usize) -> bool {
        let held = self.held(seat);
        let wanted = wanted_slot(&self.seats[seat]);
        self.queued_for(seat).iter().all(|s| wanted == Some(s) && held.all_below(s))
    }

    /// Restarts and working count against their bounds.
    fn rule_5(&self, seat: usize) -> bool {
        let open = &self.seats[seat];
        let claimed = self.held(seat).union(self.queued_for(seat));
        let k = open.script.len() as u64;
        let w = u64::from(open.working);
        let r = u64::from(open.restarts);
        let p = u64::from(open.pending.len());
        let l = u64::from(claimed.union(open.pending).len());
        let q = u64::from(smallest_is_in(open.pending, claimed));
        (r == 0 || r < l) && w + 2 * p <= r * k + open.position as u64 + l + 2 * r * l + q
    }

    /// Seats not open.
    fn rule_6(&self, seat: usize) -> bool {
        let it = &self.seats[seat];
        match it.state {
            State::Open => true,
            State::NeverOpened => *it == Seat::blank() && self.has_no_claim(seat),
            State::Ended(_) => {
                self.has_no_claim(seat)
                    && it.restarts <= MOST_RESTARTS
                    && it.slots_at_end <= MOST_SLOTS
                    && it.working <= MOST_WORKING
            }
        }
    }

    /// Holds, wants and keeps nothing.
    fn has_no_claim(&self, seat: usize) -> bool {
        self.held(seat).is_empty()
            && self.queued_for(seat).is_empty()
            && self.seats[seat].pending.is_empty()
            && self.seats[seat].writes.is_empty()
    }
}

/// The slot an open seat may queue for: its smallest pending one or, with
/// none, that of the in-range cell its instruction accesses.
fn wanted_slot(open: &Seat) -> Option<Slot> {
    if let Some(smallest) = open.pending.smallest() {
        return Some(smallest);
    }
    let cell = open.instruction()?.cell(&open.registers)?;
    owner(cell).ok()
}

fn smallest_is_in(pending: SlotSet, claimed: SlotSet) -> bool {
    pending.smallest().is_some_and(|s| claimed.contains(s))
}
