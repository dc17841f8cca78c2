//! What a log is like: drawn once for each, so that some are calm and some crowded.

use crate::random::Random;

/// Chances are per mille.
pub struct Shape {
    pub lines: u64,
    pub partitions: u64,
    pub own: u64,
    /// Keys are drawn below this: few keys make many clashes.
    pub keys: u64,
    pub most_keys_of_one: u64,
    pub most_threshold: u64,
    /// Snapshots lie less than this behind SC.
    pub snapshot_age: u64,
    pub global: u64,
    pub votes: u64,
    pub no_votes: u64,
    /// Lines damaged byte by byte.
    pub damaged: u64,
    /// Fields that the desk refuses, or that stand at a limit.
    pub odd: u64,
}

impl Shape {
    pub fn draw(random: &mut Random) -> Self {
        let partitions = random.one_of(&[1, 2, 2, 2, 3, 8]);
        Shape {
            lines: 300 + random.below(2_700),
            partitions,
            own: random.below(partitions),
            keys: random.one_of(&[6, 12, 40, 200, 1_024]),
            most_keys_of_one: random.one_of(&[1, 2, 4, 8]),
            most_threshold: random.one_of(&[0, 2, 7, 31]),
            snapshot_age: random.one_of(&[1, 2, 5, 70]),
            global: random.one_of(&[100, 300, 500, 900]),
            votes: random.one_of(&[100, 300, 500]),
            no_votes: random.one_of(&[0, 100, 500]),
            damaged: random.one_of(&[0, 0, 5, 50]),
            odd: 10,
        }
    }
}
