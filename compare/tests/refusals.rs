//! Edge cases of each refusal; number 1 has a file of its own.

use compare::owners::Cell;
use compare::refusal::Refusal;
use compare::script::{self, Instruction};
use compare::shelf::{lookup, Found};
use compare::table::{read_cell, Reply, Table};

const EMPTY: [u8; 3] = [1, 0, 0];

fn image() -> Vec<u32> {
    vec![0; 1024]
}

fn read_one(bytes: [u8; 4]) -> Result<Vec<Instruction>, Refusal> {
    let [op, a, b, c] = bytes;
    script::read(&[1, 0, 4, op, a, b, c])
}

#[test]
fn numbers_are_those_of_the_table() {
    assert_eq!(Refusal::TableNotSound.number(), 1);
    assert_eq!(Refusal::Frame.number(), 7);
    assert_eq!(Refusal::DestinationShort.number(), 14);
}

#[test]
fn image_of_another_size() {
    let mut table = Table::fresh();
    for size in [0, 1023, 1025] {
        // 2 is below 3 and 5, so a wrong seat does not hide it.
        assert_eq!(table.step(&mut vec![0; size], 99), Err(Refusal::ImageSize));
        assert_eq!(read_cell(&vec![0; size], Cell(5000)), Err(Refusal::ImageSize));
    }
}

#[test]
fn seats_above_15() {
    let mut table = Table::fresh();
    for seat in [16, u32::MAX] {
        assert_eq!(table.open(seat, 0, &[]), Err(Refusal::SeatAbove15));
        assert_eq!(table.step(&mut image(), seat), Err(Refusal::SeatAbove15));
        assert_eq!(table.result(seat), Err(Refusal::SeatAbove15));
    }
    assert_eq!(table.open(15, 0, &EMPTY), Ok(()));
}

#[test]
fn seats_in_the_wrong_state() {
    let mut table = Table::fresh();
    assert_eq!(table.step(&mut image(), 0), Err(Refusal::SeatNotOpen));
    assert_eq!(table.result(0), Err(Refusal::SeatNotEnded));
    table.open(0, 0, &EMPTY).unwrap();
    assert_eq!(table.open(0, 0, &[9]), Err(Refusal::SeatOpen));
    assert_eq!(table.result(0), Err(Refusal::SeatNotEnded));
    assert_eq!(table.step(&mut image(), 0), Ok(Reply::Committed));
    assert_eq!(table.step(&mut image(), 0), Err(Refusal::SeatNotOpen));
    assert_eq!(table.open(0, 0, &EMPTY), Ok(()));
}

#[test]
fn refused_calls_change_nothing() {
    let mut table = Table::fresh();
    table.open(0, 4, &[1, 0, 4, 3, 0, 0, 0]).unwrap();
    let before = table.clone();
    assert!(table.open(0, 0, &EMPTY).is_err());
    assert!(table.open(1, 0, &[1, 0, 4, 9, 0, 0, 0]).is_err());
    assert!(table.step(&mut [0; 3], 0).is_err());
    assert!(table.step(&mut image(), 1).is_err());
    assert_eq!(table, before);
}

#[test]
fn frames_of_another_shape() {
    let frames: [&[u8]; 8] =
        [&[], &[1], &[1, 0], &[0, 0, 0], &[2, 0, 0], &[1, 0, 4], &[1, 0, 0, 0], &[1, 0, 2, 1, 0]];
    for frame in frames {
        assert_eq!(script::read(frame), Err(Refusal::Frame), "{frame:?}");
    }
    // Length low byte first would be 1024 bytes.
    assert_eq!(script::read(&[1, 4, 0, 1, 0, 0, 0]), Err(Refusal::Frame));
}

#[test]
fn number_8_comes_before_9() {
    let mut frame = vec![1, 1, 4];
    frame.extend([0xff; 260]);
    assert_eq!(script::read(&frame), Err(Refusal::TooManyInstructions));
}

#[test]
fn instructions_not_legal() {
    for op in (9..=255).chain([0]) {
        assert_eq!(read_one([op, 0, 0, 0]), Err(Refusal::Instruction), "op {op}");
    }
    for op in 1..=8 {
        assert!(read_one([op, 7, 0, 0]).is_ok(), "op {op}");
        assert_eq!(read_one([op, 8, 0, 0]), Err(Refusal::Instruction), "op {op}");
    }
    for op in 4..=8 {
        assert!(read_one([op, 0, 7, 0]).is_ok(), "op {op}");
        assert_eq!(read_one([op, 0, 8, 0]), Err(Refusal::Instruction), "op {op}");
        assert_eq!(read_one([op, 0, 0, 1]), Err(Refusal::Instruction), "op {op}");
    }
    assert!(read_one([1, 0, 255, 255]).is_ok());
    for op in 2..=3 {
        assert!(read_one([op, 0, 3, 255]).is_ok());
        assert_eq!(read_one([op, 0, 4, 0]), Err(Refusal::Instruction));
    }
}

#[test]
fn the_writer() {
    let good = [Instruction::new(1, 2, 3, 4), Instruction::new(8, 0, 1, 0)];
    let mut destination = [7; 13];
    assert_eq!(script::write(&good, &mut destination), Ok(11));
    assert_eq!(destination, [1, 0, 8, 1, 2, 3, 4, 8, 0, 1, 0, 7, 7]);
    assert_eq!(script::read(&destination[..11]), Ok(good.to_vec()));

    let mut short = [7; 10];
    assert_eq!(script::write(&good, &mut short), Err(Refusal::DestinationShort));
    assert_eq!(short, [7; 10]);
    let bad = [Instruction::new(8, 0, 1, 1)];
    assert_eq!(script::write(&bad, &mut short[..2]), Err(Refusal::Instruction));
    assert_eq!(script::write(&[bad[0]; 65], &mut short), Err(Refusal::TooManyInstructions));
    assert_eq!(script::write(&[good[0]; 64], &mut [0; 259]), Ok(259));
}

#[test]
fn cells_and_slots_out_of_range() {
    assert_eq!(read_cell(&image(), Cell(1023)), Ok(0));
    assert_eq!(read_cell(&image(), Cell(1024)), Err(Refusal::CellAbove1023));
    let table = Table::fresh();
    assert!(table.slot_view(63).is_ok());
    assert_eq!(table.slot_view(64), Err(Refusal::SlotAbove63));
}

#[test]
fn slot_views_give_the_queue_in_order() {
    let mut table = Table::fresh();
    for seat in [4, 9, 2] {
        table.open(seat, 1, &[1, 0, 4, 3, 0, 0, 16]).unwrap();
        table.step(&mut image(), seat).unwrap();
    }
    let view = table.slot_view(2).unwrap();
    assert_eq!((view.owner, view.queue), (Some(4), vec![9, 2]));
    assert_eq!(table.step(&mut image(), 9), Ok(Reply::Blocked));
    assert_eq!(table.step(&mut image(), 4), Ok(Reply::Committed));
    let view = table.slot_view(2).unwrap();
    assert_eq!((view.owner, view.queue), (Some(9), vec![2]));
}

fn refused(refusal: Refusal) -> Found<'static> {
    Found { frame: &[], refusal: Some(refusal) }
}

#[test]
fn lookups() {
    let site = [0, 5, 1, 0, 1, 0xaa, 0, 5, 1, 0, 0];
    let works = [0, 5, 1, 0, 1, 0xbb, 1, 0, 1, 0, 0];
    assert_eq!(lookup(&site, &works, 5).frame, [1, 0, 1, 0xaa]);
    assert_eq!(lookup(&[], &works, 5).frame, [1, 0, 1, 0xbb]);
    assert_eq!(lookup(&site, &works, 256), Found { frame: &[1, 0, 0], refusal: None });
    assert_eq!(lookup(&site, &works, 6), refused(Refusal::NumberOnNeitherShelf));
    assert_eq!(lookup(&[], &[], 0), refused(Refusal::NumberOnNeitherShelf));
}

#[test]
fn lookups_hand_out_a_part_of_the_lent_shelf() {
    let site = [0, 5, 1, 0, 1, 0xaa];
    assert_eq!(lookup(&site, &[], 5).frame.as_ptr(), site[2..].as_ptr());
}

#[test]
fn damaged_shelves() {
    let sound = [0, 5, 1, 0, 0];
    let damaged: [&[u8]; 5] = [&[0], &[0, 5, 1, 0], &[0, 5, 2, 0, 0], &[0, 6, 1, 0, 1], &[0, 5, 1, 0, 0, 9]];
    for shelf in damaged {
        assert_eq!(lookup(&sound, shelf, 5), refused(Refusal::ShelfDamaged), "{shelf:?}");
        assert_eq!(lookup(shelf, &sound, 5), refused(Refusal::ShelfDamaged), "{shelf:?}");
    }
}
