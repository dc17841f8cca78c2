//! What the operations answer.

/// "Yes or no": a vote heard, or a vote to send.
#[derive(Clone, Copy, Debug, PartialEq, Eq)]
pub enum Ballot {
    /// For the commit.
    Yes,
    /// Against it.
    No,
}

/// Why a delivery is aborted.
#[derive(Clone, Copy, Debug, PartialEq, Eq)]
pub enum Reason {
    /// It clashes with a commit after its snapshot.
    Commit = 1,
    /// A global one clashes with a waiting entry.
    Waiting = 2,
    /// A local one finds no lawful place.
    NoPlace = 3,
}

impl Reason {
    /// The number that the log gives, 1 to 3.
    pub fn number(self) -> u32 {
        self as u32
    }
}

/// What becomes of a delivery that is taken.
#[derive(Clone, Copy, Debug, PartialEq, Eq)]
pub enum Fate {
    /// It waits. "The place is the one before closing": it may be among the finishes already.
    Waits {
        /// From 0, the head of the list.
        place: u32,
    },
    /// "An aborted delivery still counts in DC."
    Aborted {
        /// The first of the three tests that it fails.
        reason: Reason,
    },
}

/// The answer to a delivery that is taken.
#[derive(Clone, Copy, Debug, PartialEq, Eq)]
pub struct Delivered {
    /// DC, which it raised by 1.
    pub dc: u32,
    /// It waits or is aborted.
    pub fate: Fate,
    /// "For a global one, the answer also tells the host which vote to send."
    pub send: Option<Ballot>,
    /// How many entries of the finish list were written.
    pub finishes: u32,
}

/// "The value of the newest version that is at most st."
#[derive(Clone, Copy, Debug, PartialEq, Eq)]
pub struct Reading {
    /// A balance below zero is an ordinary value.
    pub value: i64,
    /// The st that it was read at; SC where none was named.
    pub version: u32,
}

/// How a log stands between two chunks. A log begins with both no, which is the default.
#[derive(Clone, Copy, Debug, Default, PartialEq, Eq)]
pub struct Standing {
    /// An engine is opened.
    pub opened: bool,
    /// The text stands inside a line that is too long.
    pub skipping: bool,
}

/// How far a chunk of a log was taken.
#[derive(Clone, Copy, Debug, PartialEq, Eq)]
pub struct Fed {
    /// So many bytes of the chunk. The others are to be given again, in front of what comes next.
    pub taken: usize,
    /// So many bytes of answers.
    pub wrote: usize,
    /// It stopped for want of room for more answers. With fewer than [`ANSWERS`](crate::ANSWERS) bytes of room in all it stays so: no line is ever answered.
    pub full: bool,
    /// How the log then stands.
    pub standing: Standing,
}
