//! The numbers in another order, and with their lines drawn elsewhere.

use model::{decode, Answer, Call, Delivery, Desk, Lent, Letter, Line, Refusals, State, BY_THE_LETTER};

use super::{are_refusals_caught, by_model, is_caught};
use crate::tally::Tally;
use crate::trials::compare_calls;

/// Where both numbers' conditions hold, the later one is given.
struct Turned(u32, u32);

impl Refusals for Turned {
    fn first(&self, lines: &[Line]) -> Option<u32> {
        let holds = |number: u32| lines.contains(&(number, true));
        match Letter.first(lines) {
            Some(number) if number == self.0 && holds(self.1) => Some(self.1),
            first => first,
        }
    }
}

#[test]
fn numbers_in_another_order_are_caught() {
    let delivery = [(1, 2), (2, 3), (3, 4), (4, 5), (4, 6), (5, 7), (6, 7), (7, 8)];
    let lent = [(15, 13)];
    let read = [(3, 5), (3, 6)];
    for (earlier, later) in delivery.into_iter().chain(lent).chain(read) {
        assert!(are_refusals_caught(&Turned(earlier, later)), "{later} before {earlier}");
    }
}

/// The event's own numbers are looked at before 13, where the tables hold anything.
fn soundness_last(call: &Call, lent: &mut Lent) -> Answer {
    let answer = by_model(call, lent);
    let state = decode(&lent.book, &lent.sums);
    match (answer, state) {
        (Answer::Refused(13), Some(state)) => Answer::Refused(Letter.first(&Letter.lines(&state, call)).unwrap_or(13)),
        _ => answer,
    }
}

/// "identity not waiting" after "from our own partition".
struct VoterFirst;

impl Refusals for VoterFirst {
    fn vote_lines(&self, state: &State, identity: u32, partition: u32) -> Vec<Line> {
        [vec![(10, partition == state.own)], Letter.vote_lines(state, identity, partition)].concat()
    }
}

#[test]
fn an_order_across_kinds_is_caught() {
    assert!(is_caught(&soundness_last));
    assert!(are_refusals_caught(&VoterFirst));
}

/// A number with a condition of its own.
struct Redrawn(u32, fn(&State, &Call) -> bool);

impl Refusals for Redrawn {
    fn lines(&self, state: &State, call: &Call) -> Vec<Line> {
        let redrawn = |(number, holds)| (number, if number == self.0 { self.1(state, call) } else { holds });
        Letter.lines(state, call).into_iter().map(redrawn).collect()
    }
}

/// A delivery's condition, which is no line of other calls.
fn of_delivery(call: &Call, condition: impl Fn(&Delivery) -> bool) -> bool {
    matches!(call, Call::Deliver(delivery) if condition(delivery))
}

fn named_st(call: &Call) -> Option<u32> {
    match call {
        Call::Deliver(Delivery { st, .. }) | Call::Read { st: Some(st), .. } => Some(*st),
        _ => None,
    }
}

fn key_from(call: &Call, limit: u32) -> bool {
    let ascending = |keys: &[u32]| keys.windows(2).all(|pair| pair[0] < pair[1]);
    match call {
        Call::Deliver(Delivery { reads, keys, .. }) => [reads, keys].iter().any(|keys| keys.iter().any(|&key| key >= limit) || !ascending(keys)),
        Call::Read { key, .. } => *key >= limit,
        _ => false,
    }
}

const REDRAWN: &[Redrawn] = &[
    Redrawn(1, |state, call| of_delivery(call, |delivery| delivery.set >> state.own & 1 == 0)),
    Redrawn(1, |state, call| of_delivery(call, |delivery| delivery.set >> state.partitions != 0)),
    Redrawn(1, |state, call| {
        of_delivery(call, |delivery| (delivery.set as u8) >> state.own & 1 == 0 || u32::from(delivery.set as u8) >> state.partitions != 0)
    }),
    Redrawn(2, |_, call| of_delivery(call, |delivery| delivery.reads.len() > 7 || delivery.keys.len() > 8)),
    Redrawn(2, |_, call| of_delivery(call, |delivery| delivery.reads.len() > 8 || delivery.keys.len() > 7)),
    Redrawn(2, |_, call| of_delivery(call, |delivery| delivery.reads.len() > 9 || delivery.keys.len() > 8)),
    Redrawn(3, |_, call| key_from(call, 1_023)),
    Redrawn(3, |_, call| of_delivery(call, |delivery| key_from(&Call::Deliver(Delivery { keys: vec![], ..delivery.clone() }), 1_024))),
    Redrawn(4, |state, call| of_delivery(call, |delivery| state.waits(delivery.identity))),
    Redrawn(4, |_, call| of_delivery(call, |delivery| delivery.identity == 0)),
    Redrawn(5, |state, call| named_st(call).is_some_and(|st| st >= state.sc)),
    Redrawn(5, |state, call| named_st(call).is_some_and(|st| st > state.sc + 1)),
    Redrawn(6, |state, call| named_st(call).is_some_and(|st| st > 0 && st <= state.floor())),
    Redrawn(6, |state, call| named_st(call).is_some_and(|st| st + 1 < state.floor())),
    Redrawn(7, |state, call| of_delivery(call, |_| state.waiting.len() > 30)),
    Redrawn(8, |state, call| of_delivery(call, |_| state.dc >= 3_999_999_999)),
    Redrawn(10, |state, call| matches!(call, Call::Vote { partition, .. } if *partition == state.own)),
    Redrawn(10, |state, call| matches!(call, Call::Vote { partition, .. } if *partition >= state.partitions || *partition == state.own)),
    Redrawn(11, |_, _| false),
    Redrawn(12, |_, call| matches!(call, Call::Change { k } if *k > 30)),
    Redrawn(13, |_, call| matches!(call, Call::Open { partitions, own, .. } if *partitions == 0 || *partitions > 8 || own >= partitions)),
    Redrawn(13, |_, call| matches!(call, Call::Open { partitions, k, .. } if *partitions == 0 || *partitions > 8 || *k > 31)),
    Redrawn(13, |_, call| matches!(call, Call::Open { partitions, own, k } if *partitions > 7 || own >= partitions || *k > 31)),
];

#[test]
fn lines_drawn_elsewhere_are_caught() {
    for (place, redrawn) in REDRAWN.iter().enumerate() {
        assert!(are_refusals_caught(redrawn), "{} at {place}", redrawn.0);
    }
}

/// What is lent, judged by another length.
struct Lengths {
    finish_words: usize,
    keys_counted: bool,
}

impl Refusals for Lengths {
    fn lent_lines(&self, call: &Call, lent: &Lent, sound: bool) -> Vec<Line> {
        let mut lines = Letter.lent_lines(call, lent, sound);
        for line in &mut lines {
            match (line.0, call) {
                (15, _) => line.1 = lent.finishes.len() < self.finish_words,
                (13, Call::Deliver(delivery)) => line.1 = !sound || (self.keys_counted && delivery.keys.len() != delivery.amounts.len()),
                _ => {}
            }
        }
        lines
    }
}

#[test]
fn other_lengths_are_caught() {
    for (finish_words, keys_counted) in [(62, true), (63, true), (65, true), (0, true), (64, false)] {
        assert!(are_refusals_caught(&Lengths { finish_words, keys_counted }), "{finish_words} {keys_counted}");
    }
    // And with the lengths of the document it is the model.
    let by_lengths = |call: &Call, lent: &mut Lent| Desk { refusals: &Lengths { finish_words: 64, keys_counted: true }, ..BY_THE_LETTER }.answer(call, lent);
    assert!(compare_calls(&by_lengths, 10_000, 1, &mut Tally::default()).1.is_none());
}
