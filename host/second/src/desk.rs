//! What an engine is asked, and what it answers.

use crate::refusal::Refusal;
use crate::store::Write;

/// The five operations of an engine, and its two counters: all that the program asks of one. [`crate::Engine`] is one, and the program takes any other.
pub trait Desk: Sized {
    /// "13: opening: sizes outside the table"
    fn open(partitions: u8, own: u8, k: u16) -> Result<Self, Refusal>;

    fn dc(&self) -> u32;

    fn sc(&self) -> u32;

    /// "DC rises by 1. The transaction gets rt = DC + k, with the k then in force." Finishes are added to the list.
    fn deliver(&mut self, delivery: &Delivery, finishes: &mut Vec<Finish>) -> Result<Outcome, Refusal>;

    /// "Yes or no, from another partition of a waiting global transaction. It is stored."
    fn vote(&mut self, identity: u32, partition: u8, yes: bool, finishes: &mut Vec<Finish>) -> Result<(), Refusal>;

    /// "The new k holds for later deliveries only."
    fn change(&mut self, k: u16, finishes: &mut Vec<Finish>) -> Result<(), Refusal>;

    /// "Read of a key at st: the value of the newest version that is at most st. It changes nothing."
    fn read(&self, key: u16, st: u32) -> Result<i64, Refusal>;
}

/// "A transaction has an identity, a set of partitions (one bit each), a snapshot st, keys read, and writes (key and value)."
#[derive(Clone, Copy, Debug)]
pub struct Delivery<'a> {
    pub identity: u32,
    pub partitions: u8,
    pub st: u32,
    pub reads: &'a [u16],
    pub writes: &'a [Write],
}

/// What becomes of an accepted delivery, before the closing that it brings. "For a global one, the answer also tells the host which vote to send": yes
/// where it waits, no where it was aborted.
#[derive(Clone, Copy, Debug, PartialEq, Eq)]
pub enum Outcome {
    Waits { place: usize },
    Aborted { reason: Reason },
}

/// Why a delivery was aborted.
#[derive(Clone, Copy, Debug, PartialEq, Eq)]
pub enum Reason {
    /// It clashes with a commit after its snapshot.
    Commit = 1,
    /// A global one clashes with a waiting entry.
    WaitingEntry = 2,
    /// There is no place for a local one.
    NoPlace = 3,
}

/// "C identity, version; or B identity"
#[derive(Clone, Copy, Debug, PartialEq, Eq)]
pub enum Finish {
    Committed { identity: u32, version: u32 },
    Aborted { identity: u32 },
}
