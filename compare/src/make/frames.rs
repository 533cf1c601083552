//! Frames for openings, legal and hostile.

use super::plan::Plan;
use super::random::Random;
use crate::owners::{owner, Cell};
use crate::script::{Instruction, MOST_INSTRUCTIONS, VERSION};

/// The frame of a legal script.
pub fn legal(random: &mut Random, plan: &Plan) -> Vec<u8> {
    let script = script(random, plan);
    frame(&script)
}

/// A frame around any instructions, legal or not.
fn frame(script: &[Instruction]) -> Vec<u8> {
    let length = 4 * script.len();
    let mut frame = vec![VERSION, (length / 256) as u8, (length % 256) as u8];
    frame.extend(script.iter().flat_map(|ins| ins.bytes()));
    frame
}

fn script(random: &mut Random, plan: &Plan) -> Vec<Instruction> {
    let length = match random.below(12) {
        0 => plan.longest,
        1 => 0,
        _ => random.between(1, plan.longest),
    };
    let mut script = Vec::new();
    while script.len() < length as usize {
        chunk(random, plan, &mut script);
    }
    script.truncate(length as usize);
    if random.percent(plan.falling) {
        order_by_falling_slot(&mut script);
    }
    fit_skips(random, &mut script);
    script
}

/// A few instructions that belong together.
fn chunk(random: &mut Random, plan: &Plan, script: &mut Vec<Instruction>) {
    if random.percent(plan.computed) {
        return computed_chunk(random, plan, script);
    }
    let a = register(random);
    let b = register(random);
    if random.percent(plan.skips) {
        return script.push(Instruction::new(8, a, b, 0));
    }
    let cell = *random.pick(&plan.cells);
    match random.below(10) {
        0..=2 => script.push(with_k16(2, a, cell)),
        3..=5 => script.push(with_k16(3, a, cell)),
        6 => count_in(script, a, b, cell),
        7 => script.push(with_k16(1, a, plan.cell_number(random))),
        8 => script.push(Instruction::new(6, a, b, 0)),
        _ => script.push(Instruction::new(7, a, b, 0)),
    }
}

/// An access to a cell whose number stands in a register: put there just
/// before, read from another cell, the reading, or whatever is there.
fn computed_chunk(random: &mut Random, plan: &Plan, script: &mut Vec<Instruction>) {
    let a = register(random);
    let b = register(random);
    let op = random.between(4, 5) as u8;
    let number = plan.cell_number(random);
    match random.below(if plan.wild > 0 { 10 } else { 9 }) {
        0..=4 => script.extend([with_k16(1, b, number), Instruction::new(op, a, b, 0)]),
        5..=6 => script.extend([with_k16(2, b, *random.pick(&plan.cells)), Instruction::new(op, a, b, 0)]),
        7..=8 => script.push(Instruction::new(op, a, 0, 0)),
        _ => script.push(Instruction::new(op, a, b, 0)),
    }
}

/// Adds one to a cell: what is lost if two seats do it at once shows.
fn count_in(script: &mut Vec<Instruction>, a: u8, b: u8, cell: u32) {
    script.extend([
        with_k16(2, a, cell),
        with_k16(1, b, 1),
        Instruction::new(6, a, b, 0),
        with_k16(3, a, cell),
    ]);
}

fn register(random: &mut Random) -> u8 {
    random.below(8) as u8
}

fn with_k16(op: u8, a: u8, k16: u32) -> Instruction {
    Instruction::new(op, a, (k16 / 256) as u8, (k16 % 256) as u8)
}

/// Falling slots are against the order of the locks and cause restarts.
fn order_by_falling_slot(script: &mut [Instruction]) {
    script.sort_by_key(|ins| match ins.op {
        2 | 3 => std::cmp::Reverse(owner(Cell(ins.k16())).map_or(0, |s| s.0)),
        _ => std::cmp::Reverse(0),
    });
}

/// Gives each skip a legal length now that the script is complete, the
/// longest one fairly often.
fn fit_skips(random: &mut Random, script: &mut [Instruction]) {
    let k = script.len();
    for (i, ins) in script.iter_mut().enumerate().filter(|(_, ins)| ins.op == 8) {
        let most = (k - i - 1) as u32;
        ins.c = if random.percent(25) { most } else { random.below(most.min(4) + 1) } as u8;
    }
}

/// A frame that is refused, or just not.
pub fn hostile(random: &mut Random, plan: &Plan) -> Vec<u8> {
    match random.below(3) {
        0 => misshapen(random, plan),
        1 => frame(&long_script(random)),
        _ => frame(&with_illegal_instruction(random, plan)),
    }
}

fn misshapen(random: &mut Random, plan: &Plan) -> Vec<u8> {
    let mut frame = legal(random, plan);
    match random.below(9) {
        0 => frame[0] = *random.pick(&[0, 2, 3, 16, 255]),
        1 => frame[2] = frame[2].wrapping_add(*random.pick(&[1, 2, 3, 4, 252, 255])),
        2 => frame[1] = frame[1].wrapping_add(*random.pick(&[1, 255])),
        3 => frame.swap(1, 2),
        4 => frame.truncate(random.between(1, 3) as usize),
        5 => drop(frame.pop().filter(|_| frame.len() > 1)),
        6 => frame.extend(vec![0; random.between(1, 4) as usize]),
        7 => ragged(random, &mut frame),
        _ => frame = vec![*random.pick(&[0, 1, 2, 255])],
    }
    frame
}

/// Adds one to three bytes and counts them in the length.
fn ragged(random: &mut Random, frame: &mut Vec<u8>) {
    frame.extend(vec![1; random.between(1, 3) as usize]);
    let length = frame.len() - 3;
    frame[1] = (length / 256) as u8;
    frame[2] = (length % 256) as u8;
}

/// About as many instructions as are allowed, some of them illegal.
fn long_script(random: &mut Random) -> Vec<Instruction> {
    let length = *random.pick(&[63, MOST_INSTRUCTIONS, MOST_INSTRUCTIONS, 65, 65, 66, 128]);
    let mut script = vec![with_k16(1, 0, 1); length];
    if random.percent(30) {
        let i = random.below(length as u32) as usize;
        script[i].op = *random.pick(&[0, 9, 255]);
    }
    script
}

/// A legal script with one instruction put out of bounds, or just within.
fn with_illegal_instruction(random: &mut Random, plan: &Plan) -> Vec<Instruction> {
    let mut script = script(random, plan);
    if script.is_empty() {
        script.push(with_k16(1, 0, 0));
    }
    let k = script.len();
    let i = random.below(k as u32) as usize;
    let r = register(random);
    let past_end = (k - i) as u8;
    script[i] = match random.below(8) {
        0 => Instruction::new(*random.pick(&[0, 9, 10, 16, 128, 255]), r, 0, 0),
        1 => Instruction::new(random.between(1, 8) as u8, *random.pick(&[8, 9, 255]), 0, 0),
        2 => Instruction::new(random.between(4, 8) as u8, r, *random.pick(&[8, 9, 255]), 0),
        3 => Instruction::new(random.between(4, 7) as u8, r, r, *random.pick(&[1, 2, 255])),
        4 => with_k16(random.between(2, 3) as u8, r, *random.pick(&[1023, 1024, 1025, 65_535])),
        5 => Instruction::new(8, r, 0, past_end),
        6 => Instruction::new(8, r, 0, past_end - 1),
        _ => Instruction::new(8, r, 0, *random.pick(&[past_end.wrapping_add(1), 64, 128, 255])),
    };
    script
}
