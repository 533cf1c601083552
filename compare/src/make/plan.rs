//! What kind of sheet to make.

use super::random::Random;
use crate::owners::{owner, Cell};

pub enum Schedule {
    Any,
    InTurn,
    Bursts,
    Lively,
}

/// Percentages unless said otherwise.
pub struct Plan {
    /// About how long the sheet is, in bytes.
    pub bytes: usize,
    /// Made exactly this long by padding.
    pub exact_size: Option<usize>,
    pub seats: u32,
    pub schedule: Schedule,
    /// The cells scripts name; few of them make contention.
    pub cells: Vec<u32>,
    /// The most instructions in a script.
    pub longest: u32,
    /// Chunks of a script that compute the cell they access.
    pub computed: u32,
    /// Numbers meant as cells that are out of range.
    pub wild: u32,
    /// Chunks of a script that are skips.
    pub skips: u32,
    /// Scripts whose accesses go from high slots to low ones.
    pub falling: u32,
    pub hostile: u32,
    pub refused: u32,
    pub damaged: bool,
    pub drain: bool,
    pub last_line_feed: bool,
}

impl Plan {
    pub fn choose(random: &mut Random) -> Plan {
        let mut plan = Plan::plain(random);
        match random.below(30) {
            0..=1 => plan.bytes = random.below(120) as usize,
            2..=5 => plan.hot(random),
            6..=8 => plan.crowded(random),
            9..=11 => plan.computing(random),
            12..=13 => plan.skipping(),
            14..=15 => plan.hostile = random.between(20, 90),
            16 => plan.refused = random.between(20, 60),
            17..=24 => plan.damaged(random),
            25 => plan.long(random),
            26 => plan.at_the_limit(random),
            _ => plan.mixed(random),
        }
        plan
    }

    fn plain(random: &mut Random) -> Plan {
        Plan {
            bytes: random.between(100, 6000) as usize,
            exact_size: None,
            seats: random.between(1, 16),
            schedule: schedule(random),
            cells: cells(random),
            longest: *random.pick(&[2, 4, 8, 16, 64]),
            computed: random.below(20),
            wild: random.below(8),
            skips: random.below(15),
            falling: *random.pick(&[0, 20, 50, 100]),
            hostile: random.below(6),
            refused: random.below(4),
            damaged: false,
            drain: random.percent(50),
            last_line_feed: random.percent(80),
        }
    }

    fn hot(&mut self, random: &mut Random) {
        let slots = random.between(1, 5);
        self.cells = cells_of_slots(random, slots);
        self.seats = random.between(2, 16);
        self.schedule = Schedule::Lively;
        self.falling = 50;
    }

    /// Long scripts over many slots in falling order: many restarts.
    fn crowded(&mut self, random: &mut Random) {
        let slots = random.between(8, 40);
        self.cells = cells_of_slots(random, slots);
        self.seats = random.between(4, 16);
        self.schedule = Schedule::Lively;
        self.longest = 64;
        self.falling = 70;
        self.bytes = random.between(4000, 20_000) as usize;
    }

    fn computing(&mut self, random: &mut Random) {
        self.computed = 70;
        self.wild = *random.pick(&[0, 2, 10, 40]);
        self.longest = self.longest.max(8);
    }

    fn skipping(&mut self) {
        self.skips = 50;
        self.longest = self.longest.max(8);
    }

    fn damaged(&mut self, random: &mut Random) {
        self.damaged = true;
        self.bytes = random.between(1, 1500) as usize;
    }

    fn long(&mut self, random: &mut Random) {
        // Room for one long opening, so that the sheet stays within bounds.
        self.bytes = random.between(50_000, 64_000) as usize;
    }

    fn at_the_limit(&mut self, random: &mut Random) {
        self.bytes = 64_000;
        self.drain = false;
        self.last_line_feed = true;
        self.damaged = random.percent(10);
        self.exact_size =
            Some(*random.pick(&[65_534, 65_535, 65_536, 65_536, 65_537, 65_537, 65_538, 66_000, 131_072]));
    }

    fn mixed(&mut self, random: &mut Random) {
        self.computed = random.below(50);
        self.wild = random.below(20);
        self.skips = random.below(40);
        self.hostile = random.below(40);
        self.refused = random.below(20);
        self.damaged = random.percent(15);
    }

    /// A number meant as a cell, now and then out of range.
    pub fn cell_number(&self, random: &mut Random) -> u32 {
        if random.percent(self.wild) {
            *random.pick(&[1024, 1025, 1100, 2047, 4096, 65_535])
        } else {
            *random.pick(&self.cells)
        }
    }

    /// Readings are mostly cell numbers too, as scripts may use them so.
    pub fn reading(&self, random: &mut Random) -> u32 {
        match random.below(20) {
            0 => *random.pick(&[0, 1, 1023, 4_294_967_294, 4_294_967_295]),
            1 if self.wild > 0 => random.any(),
            _ => self.cell_number(random),
        }
    }
}

fn schedule(random: &mut Random) -> Schedule {
    match random.below(6) {
        0 => Schedule::InTurn,
        1 => Schedule::Bursts,
        2 => Schedule::Any,
        _ => Schedule::Lively,
    }
}

fn cells(random: &mut Random) -> Vec<u32> {
    match random.below(4) {
        0 => (0..1024).collect(),
        1 => vec![0, 7, 8, 511, 512, 983, 984, 1023],
        _ => {
            let slots = random.between(2, 12);
            cells_of_slots(random, slots)
        }
    }
}

/// Some cells of a few slots: different cells with the same owner contend too.
fn cells_of_slots(random: &mut Random, slots: u32) -> Vec<u32> {
    let hot: Vec<u32> = (0..slots).map(|_| random.below(64)).collect();
    let all: Vec<u32> =
        (0..1024).filter(|c| owner(Cell(*c)).is_ok_and(|s| hot.contains(&u32::from(s.0)))).collect();
    let count = random.between(slots, 3 * slots);
    (0..count).map(|_| *random.pick(&all)).collect()
}
