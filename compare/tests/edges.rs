//! The 'Figures at the edges'.

use compare::owners::{owner, Cell, Slot};
use compare::refusal::Refusal;
use compare::script::{read, Instruction};
use compare::table::{Reply, Table};

#[test]
fn owners_at_the_edges() {
    let figures = [(0, 0), (7, 0), (8, 1), (511, 63), (512, 5), (983, 63), (984, 0), (1023, 4)];
    for (cell, slot) in figures {
        assert_eq!(owner(Cell(cell)), Ok(Slot(slot)), "cell {cell}");
    }
    assert_eq!(owner(Cell(1024)), Err(Refusal::CellAbove1023));
    assert_eq!(owner(Cell(u32::MAX)), Err(Refusal::CellAbove1023));
}

#[test]
fn each_slot_owns_sixteen_cells() {
    let mut owned = [0; 64];
    for cell in 0..1024 {
        owned[usize::from(owner(Cell(cell)).unwrap().0)] += 1;
    }
    assert_eq!(owned, [16; 64]);
}

/// Runs one script alone in seat 3 and gives its registers at the end.
fn registers_after(body: &[u8], reading: u32) -> [u32; 8] {
    let mut frame = vec![1, 0, body.len() as u8];
    frame.extend_from_slice(body);
    let mut table = Table::fresh();
    let mut image = vec![0; 1024];
    table.open(3, reading, &frame).unwrap();
    while !table.step(&mut image, 3).unwrap().ends() {}
    table.result(3).unwrap().registers
}

#[test]
fn ops_6_and_7_go_round() {
    let add = [1, 1, 0, 1, 6, 0, 1, 0];
    assert_eq!(registers_after(&add, u32::MAX)[0], 0);
    let subtract = [1, 1, 0, 1, 7, 0, 1, 0];
    assert_eq!(registers_after(&subtract, 0)[0], u32::MAX);
}

#[test]
fn op_8_compares_as_unsigned() {
    // Skips only if 1 < reading, so register 2 stays 0 for a large reading.
    let body = [1, 1, 0, 1, 8, 1, 0, 1, 1, 2, 0, 9];
    assert_eq!(registers_after(&body, u32::MAX)[2], 0);
    assert_eq!(registers_after(&body, 1)[2], 9);
}

#[test]
fn the_empty_script_commits_in_one_step_without_slots() {
    let mut table = Table::fresh();
    let mut image = vec![0; 1024];
    table.open(0, 9, &[1, 0, 0]).unwrap();
    assert_eq!(table.step(&mut image, 0), Ok(Reply::Committed));
    let report = table.result(0).unwrap();
    assert_eq!((report.slots, report.working, report.restarts), (0, 1, 0));
    assert_eq!(image, vec![0; 1024]);
}

#[test]
fn lengths_at_the_edges() {
    assert_eq!(read(&[1, 0, 1, 0]), Err(Refusal::Frame));
    assert_eq!(read(&framed(64)).map(|s| s.len()), Ok(64));
    assert_eq!(read(&framed(65)), Err(Refusal::TooManyInstructions));
}

/// A frame of `k` instructions of op 1.
fn framed(k: usize) -> Vec<u8> {
    let mut frame = vec![1, (4 * k / 256) as u8, (4 * k % 256) as u8];
    frame.extend([1, 0, 0, 0].repeat(k));
    frame
}

#[test]
fn skips_at_the_edges() {
    assert_eq!(read(&[1, 0, 4, 8, 0, 0, 0]), Ok(vec![Instruction::new(8, 0, 0, 0)]));
    assert_eq!(read(&[1, 0, 4, 8, 0, 0, 1]), Err(Refusal::Instruction));
    assert!(read(&[1, 0, 8, 8, 0, 0, 1, 1, 0, 0, 0]).is_ok());
    assert_eq!(read(&[1, 0, 8, 8, 0, 0, 2, 1, 0, 0, 0]), Err(Refusal::Instruction));
}
