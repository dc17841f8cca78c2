//! What there is: transactions, what waits, what is kept, and the state that holds them.

use crate::sizes::KEPT;

/// A key and the value that it takes.
pub type Write = (u32, i64);

/// "A transaction has an identity, a set of partitions (one bit each), a snapshot st, keys read, and writes (key and value)."
#[derive(Clone, Debug, Default, PartialEq, Eq)]
pub struct Transaction {
    pub identity: u32,
    pub set: u32,
    pub st: u32,
    pub reads: Vec<u32>,
    pub writes: Vec<Write>,
}

/// A waiting transaction, with its threshold and with who said yes and who no: one bit each.
#[derive(Clone, Debug, Default, PartialEq, Eq)]
pub struct Entry {
    pub transaction: Transaction,
    pub rt: u32,
    pub ayes: u32,
    pub nays: u32,
}

/// "The commit's reads and writes are kept", and its identity.
#[derive(Clone, Debug, Default, PartialEq, Eq)]
pub struct Commit {
    pub identity: u32,
    pub reads: Vec<u32>,
    pub writes: Vec<Write>,
}

/// "States are equal when counters, k, waiting entries with their votes, kept commits and values are."
#[derive(Clone, Debug, PartialEq, Eq)]
pub struct State {
    pub partitions: u32,
    pub own: u32,
    pub sc: u32,
    pub dc: u32,
    pub k: u32,
    pub waiting: Vec<Entry>,
    /// The oldest first: the commits of version floor + 1 to SC.
    pub kept: Vec<Commit>,
    /// At the floor, by key.
    pub values: Vec<i64>,
}

impl State {
    /// "floor = SC - 64, or 0 if SC is smaller"
    pub fn floor(&self) -> u32 {
        self.sc.saturating_sub(KEPT)
    }

    /// The kept commits with their versions, the oldest first.
    pub fn versions(&self) -> impl DoubleEndedIterator<Item = (u32, &Commit)> {
        let oldest = self.floor() + 1;
        self.kept.iter().enumerate().map(move |(place, commit)| (oldest + place as u32, commit))
    }

    pub fn waits(&self, identity: u32) -> bool {
        self.waiting.iter().any(|entry| entry.transaction.identity == identity)
    }
}

/// The members of a set with one bit each.
pub fn members(set: u32) -> Vec<u32> {
    (0..u32::BITS).filter(|&partition| is_member(set, partition)).collect()
}

pub fn is_member(set: u32, partition: u32) -> bool {
    partition < u32::BITS && set >> partition & 1 == 1
}

pub fn keys_of(writes: &[Write]) -> Vec<u32> {
    writes.iter().map(|&(key, _)| key).collect()
}

/// Where writes set the key, the value that they give it.
pub fn value_written(writes: &[Write], key: u32) -> Option<i64> {
    writes.iter().find(|write| write.0 == key).map(|write| write.1)
}
