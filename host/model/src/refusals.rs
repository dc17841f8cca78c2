//! "Numbers the desk hands back": a function for each row's conditions, and their order.

use crate::calls::{Call, Delivery, Lent};
use crate::layout::{BOOK, SUMS};
use crate::sizes::{DELIVERIES, FINISHES, KEYS, KEYS_OF_ONE, PARTITIONS, THRESHOLD, WAITING};
use crate::soundness::{holds_own_and_none_beyond, is_ascending};
use crate::state::{is_member, State};

/// A number, and whether its condition holds.
pub type Line = (u32, bool);

/// The rows are functions that a test can replace, one at a time, to see that the trial notices it.
pub trait Refusals {
    /// A refusal "is given only when its condition holds and no earlier check applies".
    fn first(&self, lines: &[Line]) -> Option<u32> {
        lines.iter().find(|line| line.1).map(|line| line.0)
    }

    /// "Then come 15 and 13, in that order": what is asked of all that is lent.
    fn lent_lines(&self, call: &Call, lent: &Lent, sound: bool) -> Vec<Line> {
        let short = lent.book.len() < BOOK || lent.sums.len() < SUMS;
        // Two words an entry.
        let few = lent.finishes.len() / 2 < FINISHES;
        match call {
            Call::Open { .. } => vec![(13, short)],
            Call::Read { .. } => vec![(13, !sound)],
            Call::Deliver(Delivery { keys, amounts, .. }) => vec![(15, few), (13, !sound || keys.len() != amounts.len())],
            Call::Vote { .. } | Call::Change { .. } => vec![(15, few), (13, !sound)],
        }
    }

    /// "13: opening: sizes outside the table"
    fn opening_lines(&self, partitions: u32, own: u32, k: u32) -> Vec<Line> {
        vec![(13, !(1..=PARTITIONS).contains(&partitions) || own >= partitions || k > THRESHOLD)]
    }

    fn lines(&self, state: &State, call: &Call) -> Vec<Line> {
        match call {
            Call::Open { partitions, own, k } => self.opening_lines(*partitions, *own, *k),
            Call::Deliver(delivery) => self.delivery_lines(state, delivery),
            Call::Vote { identity, partition, .. } => self.vote_lines(state, *identity, *partition),
            Call::Change { k } => self.change_lines(*k),
            Call::Read { key, st } => self.read_lines(state, *key, st.unwrap_or(state.sc)),
        }
    }

    fn delivery_lines(&self, state: &State, delivery: &Delivery) -> Vec<Line> {
        let Delivery { identity, set, st, reads, keys, .. } = delivery;
        vec![
            // "partition set lacks our own, or names one beyond the number opened"
            (1, !holds_own_and_none_beyond(*set, state)),
            // "more than 8 keys read or more than 8 written"
            (2, reads.len() > KEYS_OF_ONE || keys.len() > KEYS_OF_ONE),
            // "a key over 1,023; delivery: keys not strictly ascending"
            (3, [reads, keys].iter().any(|keys| keys.iter().any(|&key| key >= KEYS) || !is_ascending(keys))),
            // "identity 0, or an identity now waiting"
            (4, *identity == 0 || state.waits(*identity)),
            // "st > SC"
            (5, *st > state.sc),
            // "st < floor"
            (6, *st < state.floor()),
            // "32 already waiting"
            (7, state.waiting.len() >= WAITING),
            // "DC is 4,000,000,000"
            (8, state.dc == DELIVERIES),
        ]
    }

    fn vote_lines(&self, state: &State, identity: u32, partition: u32) -> Vec<Line> {
        let Some(entry) = state.waiting.iter().find(|entry| entry.transaction.identity == identity) else {
            // "identity not waiting"
            return vec![(9, true)];
        };
        vec![
            // "from our own partition, or one not involved"
            (10, partition == state.own || !is_member(entry.transaction.set, partition)),
            // "that partition has voted on it"
            (11, is_member(entry.ayes | entry.nays, partition)),
        ]
    }

    /// "k over 31"
    fn change_lines(&self, k: u32) -> Vec<Line> {
        vec![(12, k > THRESHOLD)]
    }

    fn read_lines(&self, state: &State, key: u32, st: u32) -> Vec<Line> {
        vec![(3, key >= KEYS), (5, st > state.sc), (6, st < state.floor())]
    }
}
