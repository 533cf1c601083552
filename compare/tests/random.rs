//! Random runs: the table stays sound, transactions act as if run alone at
//! the moment they end, and some open seat can always move.

use compare::alone;
use compare::owners::CELLS;
use compare::script::{check_instructions, write, Instruction};
use compare::table::{Outcome, Reply, State, Table};

/// xorshift64*
struct Random(u64);

impl Random {
    fn below(&mut self, n: u64) -> u64 {
        self.0 ^= self.0 >> 12;
        self.0 ^= self.0 << 25;
        self.0 ^= self.0 >> 27;
        (self.0.wrapping_mul(0x2545_F491_4F6C_DD1D) >> 32) % n
    }

    fn script(&mut self) -> Vec<Instruction> {
        let k = self.below(13) as usize;
        (0..k).map(|i| self.instruction(i, k)).collect()
    }

    fn instruction(&mut self, i: usize, k: usize) -> Instruction {
        let op = 1 + self.below(8) as u8;
        let a = self.below(4) as u8;
        let b = self.below(4) as u8;
        let cell = (8 * self.below(6)) as u8;
        match op {
            1..=3 => Instruction::new(op, a, 0, cell),
            8 => Instruction::new(op, a, b, self.below((k - i) as u64) as u8),
            _ => Instruction::new(op, a, b, 0),
        }
    }

    fn frame(&mut self) -> Vec<u8> {
        let script = self.script();
        check_instructions(&script).unwrap();
        let mut frame = vec![0; 3 + 4 * script.len()];
        write(&script, &mut frame).unwrap();
        frame
    }
}

struct Run {
    table: Table,
    image: [u32; CELLS],
    restarts: u32,
    ended: u32,
}

impl Run {
    fn step(&mut self, seat: usize) -> Reply {
        let before = self.table.seats[seat].clone();
        let mut model = self.image;
        let reply = self.table.step(&mut self.image, seat as u32).unwrap();
        assert_eq!(self.table.broken_rule(), None, "after {reply:?}");
        if reply.ends() {
            let expected = alone::run(&before.script, before.reading, &mut model);
            let report = self.table.result(seat as u32).unwrap();
            assert_eq!((report.outcome, report.registers), expected);
            assert_eq!(reply == Reply::Failed, report.outcome == Outcome::Failed);
            self.restarts += report.restarts;
            self.ended += 1;
        }
        assert_eq!(self.image, model);
        reply
    }

    fn open_seats(&self) -> Vec<usize> {
        (0..16).filter(|s| self.table.seats[*s].state == State::Open).collect()
    }

    /// At least one open seat is not blocked; found on copies.
    fn assert_some_seat_can_move(&self) {
        let open = self.open_seats();
        let movable = open.iter().any(|s| {
            let (mut table, mut image) = (self.table.clone(), self.image);
            table.step(&mut image, *s as u32) != Ok(Reply::Blocked)
        });
        assert!(movable || open.is_empty());
    }
}

#[test]
fn random_runs_keep_the_promises() {
    let mut restarts = 0;
    let mut ended = 0;
    for seed in 1..=60u64 {
        let mut random = Random(0x9E37_79B9_7F4A_7C15u64.wrapping_mul(seed));
        let mut run = Run { table: Table::fresh(), image: [0; CELLS], restarts: 0, ended: 0 };
        let seats = 2 + random.below(15) as usize;
        for turn in 0..5000 {
            let seat = random.below(seats as u64) as usize;
            if run.table.seats[seat].state == State::Open {
                run.step(seat);
            } else {
                let reading = 8 * random.below(6) as u32;
                run.table.open(seat as u32, reading, &random.frame()).unwrap();
            }
            // On copies of the whole table, so not at every turn.
            if turn % 16 == 0 {
                run.assert_some_seat_can_move();
            }
        }
        restarts += run.restarts;
        ended += run.ended;
    }
    // Guards against a driver so tame that nothing is shown.
    assert!(restarts > 1000 && ended > 5000, "{restarts} restarts, {ended} ended");
}
