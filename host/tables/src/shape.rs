//! What the state and the calls of one trial are like: drawn once for each, so that some are calm and some crowded.

use model::{is_member, sizes, Write};
use trial::random::Random;

/// Numbers at the ends of ranges, and past them.
#[rustfmt::skip]
pub const EXTREMES: &[u32] = &[
    0, 1, 2, 7, 8, 9, 31, 32, 33, 63, 64, 65, 255, 256, 1_023, 1_024, 65_535, 65_536,
    1 << 31, sizes::DELIVERIES - 1, sizes::DELIVERIES, sizes::DELIVERIES + 1, u32::MAX - 31, u32::MAX,
];

/// Chances are per mille.
pub struct Shape {
    pub partitions: u32,
    pub own: u32,
    /// Keys are drawn from these: few make many clashes.
    pub keys: Vec<u32>,
    pub most_keys_of_one: u64,
    pub global: u64,
    /// Votes that are stored in the state.
    pub heard: u64,
    pub no_votes: u64,
    /// Thresholds that have come.
    pub come: u64,
    /// Arguments that the desk refuses, or that stand at a limit.
    pub odd: u64,
}

impl Shape {
    pub fn draw(random: &mut Random) -> Self {
        let partitions = random.one_of(&[1, 2, 2, 3, 5, 8, 8]);
        Shape {
            partitions,
            own: random.below(partitions.into()) as u32,
            keys: draw_keys(random),
            most_keys_of_one: random.one_of(&[1, 2, 4, 8]),
            global: random.one_of(&[100, 500, 900, 1_000]),
            heard: random.one_of(&[0, 300, 900, 1_000]),
            no_votes: random.one_of(&[0, 100, 500]),
            come: random.one_of(&[0, 500, 1_000]),
            odd: random.one_of(&[0, 30, 100, 300]),
        }
    }

    /// "strictly ascending", and of eight at times.
    pub fn some_keys(&self, random: &mut Random) -> Vec<u32> {
        let count = if random.chance(100) { sizes::KEYS_OF_ONE as u64 } else { random.below(self.most_keys_of_one + 1) };
        let mut keys: Vec<u32> = (0..count).map(|_| random.one_of(&self.keys)).collect();
        keys.sort_unstable();
        keys.dedup();
        keys
    }

    pub fn some_writes(&self, random: &mut Random) -> Vec<Write> {
        self.some_keys(random).into_iter().map(|key| (key, amount(random))).collect()
    }

    /// Our own and none beyond the number opened.
    pub fn partition_set(&self, random: &mut Random) -> u32 {
        let others = if random.chance(self.global) { random.below(1 << self.partitions) as u32 } else { 0 };
        others | 1 << self.own
    }

    /// The partitions of a set whose votes are asked.
    pub fn others(&self, set: u32) -> Vec<u32> {
        (0..self.partitions).filter(|&partition| partition != self.own && is_member(set, partition)).collect()
    }
}

/// Some at the low end, some at the high one, some anywhere.
fn draw_keys(random: &mut Random) -> Vec<u32> {
    let count = random.one_of(&[3, 8, 16, 40, sizes::KEYS]);
    match random.below(3) {
        0 => (0..count).collect(),
        1 => (sizes::KEYS - count..sizes::KEYS).collect(),
        _ => (0..count).map(|_| random.below(sizes::KEYS.into()) as u32).chain([0, sizes::KEYS - 1]).collect(),
    }
}

/// "values: signed 64-bit"
pub fn amount(random: &mut Random) -> i64 {
    match random.below(8) {
        0 => random.one_of(&[i64::MIN, i64::MAX, -1, 0]),
        1 => random.number() as i64,
        _ => random.below(2_001) as i64 - 1_000,
    }
}

/// "1 to 4,294,967,295"
pub fn identity(random: &mut Random) -> u32 {
    match random.below(4) {
        0 => random.one_of(&[1, 2, u32::MAX - 1, u32::MAX]),
        1 => 1 + random.below(40) as u32,
        _ => any_number(random).max(1),
    }
}

pub fn any_number(random: &mut Random) -> u32 {
    if random.chance(300) {
        return random.one_of(EXTREMES);
    }
    random.number() as u32
}
