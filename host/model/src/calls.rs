//! Calls on lent tables, what is lent for one, and what it answers.

use crate::state::Write;

#[derive(Clone, Debug, PartialEq, Eq)]
pub enum Call {
    Open {
        partitions: u32,
        own: u32,
        k: u32,
    },
    Deliver(Delivery),
    Vote {
        identity: u32,
        partition: u32,
        yes: bool,
    },
    Change {
        k: u32,
    },
    /// Without an st, at SC.
    Read {
        key: u32,
        st: Option<u32>,
    },
}

/// A delivered transaction, as it is lent: keys written and their amounts in two lists.
#[derive(Clone, Debug, PartialEq, Eq)]
pub struct Delivery {
    pub identity: u32,
    pub set: u32,
    pub st: u32,
    pub reads: Vec<u32>,
    pub keys: Vec<u32>,
    pub amounts: Vec<i64>,
}

impl Delivery {
    pub fn writes(&self) -> Vec<Write> {
        self.keys.iter().copied().zip(self.amounts.iter().copied()).collect()
    }
}

/// The tables and the finish list that are lent to a call.
#[derive(Clone, Debug, PartialEq, Eq)]
pub struct Lent {
    pub book: Vec<u32>,
    pub sums: Vec<i64>,
    pub finishes: Vec<u32>,
}

#[derive(Clone, Copy, Debug, PartialEq, Eq)]
pub enum Answer {
    Opened,
    /// `send` is "which vote to send", yes or no, for a global one; `finishes` is how many there are.
    Delivered {
        dc: u32,
        fate: Fate,
        send: Option<bool>,
        finishes: u32,
    },
    /// A vote or a change that was taken.
    Settled {
        finishes: u32,
    },
    /// The version is the one that was asked for, SC where none was.
    Value {
        value: i64,
        version: u32,
    },
    Refused(u32),
}

#[derive(Clone, Copy, Debug, PartialEq, Eq)]
pub enum Fate {
    /// "The place is the one before closing."
    Waits {
        place: u32,
    },
    Aborted {
        reason: u32,
    },
}
