//! A transaction that is delivered to an engine, and what is answered.

use crate::answers::{Ballot, Fate};
use crate::finishes::Finishes;
use crate::transaction::Transaction;

/// "A transaction has an identity, a set of partitions (one bit each), a snapshot st, keys read, and writes (key and value)."
#[derive(Clone, Copy, Debug, PartialEq, Eq)]
pub struct Delivery<'a> {
    /// "1 to 4,294,967,295"
    pub identity: u32,
    /// Bit p for partition p.
    pub set: u32,
    /// The version at which it read.
    pub st: u32,
    /// The keys read, "0 to 8 [..], strictly ascending".
    pub reads: &'a [u32],
    /// A key and its value each; the keys "0 to 8 [..], strictly ascending".
    pub writes: &'a [(u32, i64)],
}

/// The answer to a delivery that is taken.
#[derive(Clone, Debug, PartialEq, Eq)]
pub struct Outcome<'a> {
    /// DC, which it raised by 1.
    pub dc: u32,
    /// It waits or is aborted.
    pub fate: Fate,
    /// "For a global one, the answer also tells the host which vote to send."
    pub send: Option<Ballot>,
    /// What finished after it.
    pub finishes: Finishes<'a>,
}

/// One more than a transaction may write. More are too many whatever they are, so nobody looks at those behind.
const WRITES: usize = 9;

/// Keys and amounts side by side, as the library is lent them.
pub struct Sides {
    keys: [u32; WRITES],
    amounts: [i64; WRITES],
    count: usize,
}

impl Sides {
    pub fn of(writes: &[(u32, i64)]) -> Self {
        let mut sides = Sides { keys: [0; WRITES], amounts: [0; WRITES], count: writes.len().min(WRITES) };
        for (at, (key, amount)) in writes.iter().take(WRITES).enumerate() {
            sides.keys[at] = *key;
            sides.amounts[at] = *amount;
        }
        sides
    }

    pub fn transaction<'a>(&'a self, delivery: &Delivery<'a>) -> Transaction<'a> {
        Transaction {
            identity: delivery.identity,
            set: delivery.set,
            st: delivery.st,
            reads: delivery.reads,
            keys: &self.keys[..self.count],
            amounts: &self.amounts[..self.count],
        }
    }
}
