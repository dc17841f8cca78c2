//! A whole call: the numbers that refuse it, or what it does, on a state and in what is lent.

use crate::calls::{Answer, Call, Delivery, Fate, Lent};
use crate::layout::{decode, encode};
use crate::refusals::Refusals;
use crate::rules::{is_local, Finish, Rules};
use crate::sizes::KEYS;
use crate::soundness::Soundness;
use crate::state::{State, Transaction};

/// What a call that isn't refused leaves.
#[derive(Clone, Debug, PartialEq, Eq)]
pub struct Outcome {
    pub answer: Answer,
    pub finishes: Vec<Finish>,
    pub state: State,
}

/// What decides. A test puts something else in one of the three places.
pub struct Desk<'a> {
    pub soundness: &'a dyn Soundness,
    pub rules: &'a dyn Rules,
    pub refusals: &'a dyn Refusals,
}

/// The document as it stands.
pub struct Letter;

impl Soundness for Letter {}
impl Rules for Letter {}
impl Refusals for Letter {}

pub const BY_THE_LETTER: Desk = Desk { soundness: &Letter, rules: &Letter, refusals: &Letter };

impl Desk<'_> {
    /// What the call does on these tables, or the number that refuses it.
    pub fn outcome(&self, call: &Call, lent: &Lent) -> Result<Outcome, u32> {
        let state = decode(&lent.book, &lent.sums).filter(|state| self.soundness.is_sound(state));
        match self.refusals.first(&self.refusals.lent_lines(call, lent, state.is_some())) {
            Some(number) => Err(number),
            None => self.step(call, state),
        }
    }

    /// The same in place, as the library does it: "Finishes fill the finish list from its start; entries past their number keep what they held."
    pub fn answer(&self, call: &Call, lent: &mut Lent) -> Answer {
        match self.outcome(call, lent) {
            Err(number) => Answer::Refused(number),
            Ok(outcome) => {
                encode(&outcome.state, &mut lent.book, &mut lent.sums);
                fill(&outcome.finishes, &mut lent.finishes);
                outcome.answer
            }
        }
    }

    /// The event's own part. Opening alone needs no state.
    fn step(&self, call: &Call, state: Option<State>) -> Result<Outcome, u32> {
        let mut state = match (call, state) {
            (Call::Open { partitions, own, k }, _) => opening_state(*partitions, *own, *k),
            (_, state) => state.expect("an unsound state is refused before"),
        };
        if let Some(number) = self.refusals.first(&self.refusals.lines(&state, call)) {
            return Err(number);
        }
        let (mut answer, closes) = self.take(call, &mut state);
        // "After every accepted delivery, vote or change"
        let finishes = if closes { self.rules.close(&mut state) } else { Vec::new() };
        if let Answer::Delivered { finishes: count, .. } | Answer::Settled { finishes: count } = &mut answer {
            *count = finishes.len() as u32;
        }
        Ok(Outcome { answer, finishes, state })
    }

    /// What the event does before closing, and whether closing follows.
    fn take(&self, call: &Call, state: &mut State) -> (Answer, bool) {
        match call {
            Call::Open { .. } => (Answer::Opened, false),
            Call::Deliver(delivery) => (self.take_delivery(state, delivery), true),
            Call::Vote { identity, partition, yes } => {
                let entry = state.waiting.iter_mut().find(|entry| entry.transaction.identity == *identity);
                self.rules.vote(entry.expect("it waits"), *partition, *yes);
                (Answer::Settled { finishes: 0 }, true)
            }
            Call::Change { k } => {
                self.rules.change(state, *k);
                (Answer::Settled { finishes: 0 }, true)
            }
            Call::Read { key, st } => {
                let version = st.unwrap_or(state.sc);
                (Answer::Value { value: self.rules.value(state, *key, version), version }, false)
            }
        }
    }

    /// "For a global one, the answer also tells the host which vote to send."
    fn take_delivery(&self, state: &mut State, delivery: &Delivery) -> Answer {
        let Delivery { identity, set, st, reads, .. } = delivery;
        let newcomer = Transaction { identity: *identity, set: *set, st: *st, reads: reads.clone(), writes: delivery.writes() };
        let fate = match self.rules.deliver(state, &newcomer) {
            Ok(place) => Fate::Waits { place },
            Err(reason) => Fate::Aborted { reason },
        };
        let send = (!is_local(state, &newcomer)).then_some(matches!(fate, Fate::Waits { .. }));
        Answer::Delivered { dc: state.dc, fate, send, finishes: 0 }
    }
}

pub fn fill(finishes: &[Finish], words: &mut [u32]) {
    for (entry, &(identity, version)) in words.chunks_exact_mut(2).zip(finishes) {
        entry.copy_from_slice(&[identity, version]);
    }
}

/// "Keys 0 to 1,023, all holding 0 at opening"
pub fn opening_state(partitions: u32, own: u32, k: u32) -> State {
    State { partitions, own, sc: 0, dc: 0, k, waiting: Vec::new(), kept: Vec::new(), values: vec![0; KEYS as usize] }
}
