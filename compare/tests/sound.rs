//! 'A sound table': single fields damaged, one rule at a time.

use compare::owners::Cell;
use compare::refusal::Refusal;
use compare::script::Instruction;
use compare::slots::SlotSet;
use compare::table::{Outcome, Reply, State, Table};

fn image() -> Vec<u32> {
    vec![0; 1024]
}

fn frame(body: &[u8]) -> Vec<u8> {
    let mut frame = vec![1, 0, body.len() as u8];
    frame.extend_from_slice(body);
    frame
}

/// Opens a seat with reading 5 and the body given, and steps it.
fn run(table: &mut Table, seat: u32, body: &[u8], replies: &[Reply]) {
    if table.seats[seat as usize].state != State::Open {
        table.open(seat, 5, &frame(body)).unwrap();
    }
    for reply in replies {
        assert_eq!(table.step(&mut image(), seat), Ok(*reply));
    }
}

/// Seat 0 owns slot 1 with a kept write, seat 1 waits for it and owns slot 0,
/// seat 2 has committed, seat 3 has failed, the others are blank.
fn busy() -> Table {
    let mut table = Table::fresh();
    run(&mut table, 0, &[3, 0, 0, 8, 3, 0, 0, 16], &[Reply::Ran]);
    run(&mut table, 1, &[3, 0, 0, 0, 3, 0, 0, 8], &[Reply::Ran, Reply::Queued]);
    run(&mut table, 2, &[], &[Reply::Committed]);
    run(&mut table, 3, &[1, 1, 4, 0, 4, 0, 1, 0], &[Reply::Ran, Reply::Failed]);
    table
}

/// Seat 0 has restarted: it wants slots 1 (owned by seat 1) and 3, holds 0.
fn restarted() -> Table {
    let mut table = Table::fresh();
    let body = [2, 1, 0, 0, 3, 0, 0, 24, 3, 0, 0, 8];
    run(&mut table, 0, &body, &[Reply::Ran, Reply::Ran]);
    run(&mut table, 1, &[3, 0, 0, 8, 3, 0, 0, 24], &[Reply::Ran]);
    run(&mut table, 0, &body, &[Reply::Restarted]);
    table
}

fn broken(mut table: Table, damage: impl Fn(&mut Table)) -> Option<u8> {
    assert_eq!(table.broken_rule(), None);
    damage(&mut table);
    let rule = table.broken_rule();
    // Every call that checks 1 gives it before anything else.
    let refused = rule.map_or(Ok(()), |_| Err(Refusal::TableNotSound));
    assert_eq!(table.slot_view(0).map(|_| ()), refused);
    if rule.is_some() {
        assert_eq!(table.clone().open(99, 0, &[]), Err(Refusal::TableNotSound));
        assert_eq!(table.clone().step(&mut [], 99), Err(Refusal::TableNotSound));
        assert_eq!(table.result(99), Err(Refusal::TableNotSound));
        assert_eq!(table.slot_view(99), Err(Refusal::TableNotSound));
    }
    rule
}

#[test]
fn rule_1_owners_and_queues() {
    assert_eq!(broken(busy(), |t| t.slots[9].owner = Some(2)), Some(1));
    assert_eq!(broken(busy(), |t| t.slots[9].owner = Some(4)), Some(1));
    assert_eq!(broken(busy(), |t| t.slots[9].owner = Some(16)), Some(1));
    assert_eq!(broken(busy(), |t| t.slots[9].owner = Some(0)), None);
    assert_eq!(broken(busy(), |t| t.slots[1].queue.push_back(1)), Some(1));
    assert_eq!(broken(busy(), |t| t.slots[1].queue.push_back(0)), Some(1));
    assert_eq!(broken(busy(), |t| t.slots[1].queue.push_back(4)), Some(1));
    assert_eq!(broken(busy(), |t| t.slots[1].queue.push_back(99)), Some(1));
    assert_eq!(broken(busy(), |t| t.slots[0].queue.push_back(1)), Some(1));
    assert_eq!(broken(busy(), |t| t.slots[1].owner = None), Some(1));
}

#[test]
fn rule_1_one_queue_only() {
    // Seat 1 in the queues of slots 1 and 9, both owned by seat 0.
    let damage = |t: &mut Table| {
        t.slots[9].owner = Some(0);
        t.slots[9].queue.push_back(1);
    };
    assert_eq!(broken(busy(), damage), Some(1));
}

#[test]
fn rule_2_position_script_and_writes() {
    assert_eq!(broken(busy(), |t| t.seats[0].position = 3), Some(2));
    assert_eq!(broken(busy(), |t| t.seats[0].position = usize::MAX), Some(2));
    assert_eq!(broken(busy(), |t| t.seats[0].position = 0), Some(2));
    assert_eq!(broken(busy(), |t| t.seats[0].script[1].a = 8), Some(2));
    assert_eq!(broken(busy(), |t| t.seats[0].script = vec![Instruction::new(1, 0, 0, 0); 65]), Some(2));
    assert_eq!(broken(busy(), |t| t.seats[0].writes[0].0 = Cell(1024)), Some(2));
    assert_eq!(broken(busy(), |t| t.seats[0].writes[0].0 = Cell(16)), Some(2));
    assert_eq!(broken(busy(), |t| t.seats[0].writes[0].0 = Cell(15)), None);
    assert_eq!(broken(busy(), |t| t.seats[0].writes.clear()), None);
}

#[test]
fn rule_3_pending() {
    assert_eq!(broken(restarted(), |t| t.seats[0].position = 1), Some(3));
    assert_eq!(broken(restarted(), |t| t.seats[0].registers[0] = 0), Some(3));
    assert_eq!(broken(restarted(), |t| t.seats[0].registers[7] = 1), Some(3));
    assert_eq!(broken(restarted(), |t| t.seats[0].reading = 6), Some(3));
    assert_eq!(broken(restarted(), |t| t.slots[2].owner = Some(0)), Some(3));
    assert_eq!(broken(restarted(), |t| t.slots[3].owner = Some(0)), Some(3));
    // A smallest pending slot that is held has been handed over: sound.
    let handed = |t: &mut Table| t.seats[0].pending = SlotSet(0b1001);
    assert_eq!(broken(restarted(), handed), None);
}

#[test]
fn rule_4_queued_seats() {
    assert_eq!(broken(busy(), |t| t.seats[1].position = 2), Some(4));
    assert_eq!(broken(busy(), |t| t.seats[1].script[1].c = 16), Some(4));
    assert_eq!(broken(busy(), |t| t.seats[1].script[1] = Instruction::new(1, 0, 0, 8)), Some(4));
    // Seat 1 waits for slot 1 and must hold nothing above it.
    assert_eq!(broken(busy(), |t| t.slots[2].owner = Some(1)), Some(4));
    let computed = |t: &mut Table| t.seats[1].script[1] = Instruction::new(4, 1, 0, 0);
    assert_eq!(broken(busy(), computed), Some(4));
    let in_range = |t: &mut Table| {
        computed(t);
        t.seats[1].registers[0] = 8;
    };
    assert_eq!(broken(busy(), in_range), None);
    let out_of_range = |t: &mut Table| {
        computed(t);
        t.seats[1].registers[0] = 1024;
    };
    assert_eq!(broken(busy(), out_of_range), Some(4));
}

#[test]
fn rule_4_queued_seats_with_pending() {
    let mut table = restarted();
    assert_eq!(table.step(&mut image(), 0), Ok(Reply::Queued));
    assert_eq!(broken(table.clone(), |t| t.seats[0].pending = SlotSet(0b1100)), Some(4));
    assert_eq!(broken(table, |t| t.seats[0].pending = SlotSet(0b1010)), None);
}

#[test]
fn rule_5_restarts() {
    // l is 3: slots 0, 1 and 3.
    assert_eq!(broken(restarted(), |t| t.seats[0].restarts = 2), None);
    assert_eq!(broken(restarted(), |t| t.seats[0].restarts = 3), Some(5));
    assert_eq!(broken(restarted(), |t| t.seats[0].restarts = u32::MAX), Some(5));
    assert_eq!(broken(busy(), |t| t.seats[0].restarts = 1), Some(5));
}

#[test]
fn rule_5_working_count() {
    // 1 × 3 + 0 + 3 + 2 × 1 × 3 + 0 − 2 × 2
    assert_eq!(broken(restarted(), |t| t.seats[0].working = 8), None);
    assert_eq!(broken(restarted(), |t| t.seats[0].working = 9), Some(5));
    assert_eq!(broken(restarted(), |t| t.seats[0].working = u32::MAX), Some(5));
    // Queued for the smallest pending slot: q is 1.
    let mut queued = restarted();
    queued.step(&mut image(), 0).unwrap();
    assert_eq!(broken(queued.clone(), |t| t.seats[0].working = 9), None);
    assert_eq!(broken(queued, |t| t.seats[0].working = 10), Some(5));
    // No restarts: position 1 and slots 0 and 1.
    assert_eq!(broken(busy(), |t| t.seats[1].working = 3), None);
    assert_eq!(broken(busy(), |t| t.seats[1].working = 4), Some(5));
}

#[test]
fn rule_6_ended_seats() {
    assert_eq!(broken(busy(), |t| t.seats[2].restarts = 63), None);
    assert_eq!(broken(busy(), |t| t.seats[2].restarts = 64), Some(6));
    assert_eq!(broken(busy(), |t| t.seats[2].slots_at_end = 64), None);
    assert_eq!(broken(busy(), |t| t.seats[2].slots_at_end = 65), Some(6));
    assert_eq!(broken(busy(), |t| t.seats[3].working = 12_225), None);
    assert_eq!(broken(busy(), |t| t.seats[3].working = 12_226), Some(6));
    assert_eq!(broken(busy(), |t| t.seats[3].pending = SlotSet(1)), Some(6));
    assert_eq!(broken(busy(), |t| t.seats[3].writes.push((Cell(0), 0))), Some(6));
    assert_eq!(broken(busy(), |t| t.seats[2].registers[1] = 1), None);
}

#[test]
fn rule_6_blank_seats() {
    assert_eq!(broken(busy(), |t| t.seats[4].reading = 1), Some(6));
    assert_eq!(broken(busy(), |t| t.seats[4].registers[7] = 1), Some(6));
    assert_eq!(broken(busy(), |t| t.seats[4].working = 1), Some(6));
    assert_eq!(broken(busy(), |t| t.seats[4].pending = SlotSet(1 << 63)), Some(6));
    assert_eq!(broken(busy(), |t| t.seats[4].state = State::Ended(Outcome::Failed)), None);
}
