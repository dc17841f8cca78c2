//! How often each thing occurred.

use std::collections::BTreeMap;
use std::fmt;

use model::{sizes, Answer, Call, Delivery, Fate, Outcome, State};

use crate::grounds::Kind;
use crate::spoils::SPOILS;

#[derive(Clone, Copy, Debug, PartialEq, Eq, PartialOrd, Ord)]
pub enum Thing {
    Tables(Kind),
    Refused(u32),
    /// Taken, with an argument or a state for which one more would have been refused by this number.
    LastTaken(u32),
    Opened,
    WaitsAtHead,
    WaitsBetween,
    WaitsAtEnd,
    Aborted(u32),
    Voted,
    Changed,
    Read,
    Commit,
    Abort,
    Fold,
}

impl Thing {
    fn heading(self) -> &'static str {
        match self {
            Thing::Tables(_) => "tables",
            Thing::Refused(_) => "refused, by number",
            Thing::LastTaken(_) => "taken just at the line of a number",
            _ => "taken",
        }
    }
}

impl fmt::Display for Thing {
    fn fmt(&self, formatter: &mut fmt::Formatter) -> fmt::Result {
        match self {
            Thing::Tables(Kind::Spoilt(name)) => formatter.write_str(name),
            Thing::Tables(kind) => write!(formatter, "{}", format!("{kind:?}").to_lowercase()),
            Thing::Refused(number) | Thing::LastTaken(number) => write!(formatter, "{number}"),
            Thing::Opened => formatter.write_str("openings"),
            Thing::WaitsAtHead => formatter.write_str("deliveries that wait at the head"),
            Thing::WaitsBetween => formatter.write_str("between others"),
            Thing::WaitsAtEnd => formatter.write_str("at the end"),
            Thing::Aborted(reason) => write!(formatter, "aborted for reason {reason}"),
            Thing::Voted => formatter.write_str("votes"),
            Thing::Changed => formatter.write_str("changes"),
            Thing::Read => formatter.write_str("reads"),
            Thing::Commit => formatter.write_str("commits"),
            Thing::Abort => formatter.write_str("aborts"),
            Thing::Fold => formatter.write_str("folds"),
        }
    }
}

/// What a run of a hundred thousand calls has to bring, beside each kind of tables.
const REACHED: &[Thing] = &[
    Thing::Opened,
    Thing::WaitsAtHead,
    Thing::WaitsBetween,
    Thing::WaitsAtEnd,
    Thing::Aborted(1),
    Thing::Aborted(2),
    Thing::Aborted(3),
    Thing::Voted,
    Thing::Changed,
    Thing::Read,
    Thing::Commit,
    Thing::Abort,
    Thing::Fold,
];

#[derive(Default)]
pub struct Tally {
    counts: BTreeMap<Thing, u64>,
}

impl Tally {
    pub fn add(&mut self, thing: Thing) {
        *self.counts.entry(thing).or_default() += 1;
    }

    /// A call on tables that hold this state, and what the model says of it.
    pub fn add_call(&mut self, call: &Call, state: &State, wanted: &Result<Outcome, u32>) {
        match wanted {
            Err(number) => self.add(Thing::Refused(*number)),
            Ok(outcome) => {
                self.add(taken(call, state, outcome));
                last_taken(call, state).into_iter().for_each(|number| self.add(Thing::LastTaken(number)));
                self.add_finishes(outcome);
            }
        }
    }

    fn add_finishes(&mut self, outcome: &Outcome) {
        for &(_, version) in &outcome.finishes {
            self.add(if version == 0 { Thing::Abort } else { Thing::Commit });
            if version > sizes::KEPT {
                self.add(Thing::Fold);
            }
        }
    }

    /// The things that never occurred.
    pub fn missing(&self) -> Vec<Thing> {
        let kinds = [Kind::Sound, Kind::Short, Kind::Garbage, Kind::Ones, Kind::Zeros].into_iter();
        let kinds = kinds.chain(SPOILS.iter().map(|spoil| Kind::Spoilt(spoil.0))).map(Thing::Tables);
        let refused = (1..=13).chain([15]).map(Thing::Refused);
        let last_taken = LINES.iter().map(|&number| Thing::LastTaken(number));
        kinds.chain(refused).chain(last_taken).chain(REACHED.iter().copied()).filter(|thing| !self.counts.contains_key(thing)).collect()
    }
}

/// A line for each heading.
impl fmt::Display for Tally {
    fn fmt(&self, formatter: &mut fmt::Formatter) -> fmt::Result {
        let mut heading = "";
        for (thing, count) in &self.counts {
            if thing.heading() == heading {
                write!(formatter, ", {thing}: {count}")?;
            } else {
                heading = thing.heading();
                write!(formatter, "\n{heading}: {thing}: {count}")?;
            }
        }
        Ok(())
    }
}

fn taken(call: &Call, state: &State, outcome: &Outcome) -> Thing {
    match (call, outcome.answer) {
        (Call::Open { .. }, _) => Thing::Opened,
        (Call::Vote { .. }, _) => Thing::Voted,
        (Call::Change { .. }, _) => Thing::Changed,
        (Call::Read { .. }, _) => Thing::Read,
        (_, Answer::Delivered { fate: Fate::Aborted { reason }, .. }) => Thing::Aborted(reason),
        (_, Answer::Delivered { fate: Fate::Waits { place }, .. }) if place as usize == state.waiting.len() => Thing::WaitsAtEnd,
        (_, Answer::Delivered { fate: Fate::Waits { place: 0 }, .. }) => Thing::WaitsAtHead,
        _ => Thing::WaitsBetween,
    }
}

/// The numbers whose line can be stood at.
const LINES: &[u32] = &[1, 2, 3, 4, 5, 6, 7, 8, 10, 12, 13];

/// The numbers at whose lines a call stands that was taken.
fn last_taken(call: &Call, state: &State) -> Vec<u32> {
    let last_key = sizes::KEYS - 1;
    let lines: &[(u32, bool)] = match call {
        Call::Deliver(Delivery { identity, set, st, reads, keys, .. }) => &[
            (1, set.count_ones() == state.partitions),
            (2, reads.len() == sizes::KEYS_OF_ONE || keys.len() == sizes::KEYS_OF_ONE),
            (3, reads.last() == Some(&last_key) || keys.last() == Some(&last_key)),
            (4, *identity == 1),
            (5, *st == state.sc),
            (6, *st == state.floor() && *st > 0),
            (7, state.waiting.len() == sizes::WAITING - 1),
            (8, state.dc == sizes::DELIVERIES - 1),
        ],
        Call::Read { key, st: Some(st) } => &[(3, *key == last_key), (5, *st == state.sc), (6, *st == state.floor() && *st > 0)],
        Call::Vote { partition, .. } => &[(10, *partition == state.partitions - 1)],
        Call::Change { k } => &[(12, *k == sizes::THRESHOLD)],
        Call::Open { partitions, own, k } => &[(13, *partitions == sizes::PARTITIONS && *own == partitions - 1 && *k == sizes::THRESHOLD)],
        _ => &[],
    };
    lines.iter().filter(|line| line.1).map(|line| line.0).collect()
}
