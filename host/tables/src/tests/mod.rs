//! A wrong library is caught: here it is the model, with one of its rules replaced.

mod numbers;
mod pieces;
mod rules;
mod soundness;
mod words;

use model::{Answer, Call, Desk, Lent, Refusals, Rules, Soundness, BY_THE_LETTER};

use crate::grounds::{Ground, Kind};
use crate::library::Library;
use crate::spoils::SPOILS;
use crate::tally::Tally;
use crate::trials::{compare_calls, Differing};
use trial::random::Random;

/// So many calls are made within a few seconds.
const SOON: u64 = 50_000;

fn first_difference(library: Library) -> Option<Differing> {
    compare_calls(library, SOON, 1, &mut Tally::default()).1
}

fn is_caught(library: Library) -> bool {
    first_difference(library).is_some()
}

fn is_rule_caught(rules: &dyn Rules) -> bool {
    is_caught(&|call, lent| Desk { rules, ..BY_THE_LETTER }.answer(call, lent))
}

fn is_soundness_caught(soundness: &dyn Soundness) -> bool {
    is_caught(&|call, lent| Desk { soundness, ..BY_THE_LETTER }.answer(call, lent))
}

fn are_refusals_caught(refusals: &dyn Refusals) -> bool {
    is_caught(&|call, lent| Desk { refusals, ..BY_THE_LETTER }.answer(call, lent))
}

fn by_model(call: &Call, lent: &mut Lent) -> Answer {
    BY_THE_LETTER.answer(call, lent)
}

#[test]
fn the_model_is_like_itself() {
    let mut tally = Tally::default();
    let (calls, differing) = compare_calls(&by_model, SOON, 1, &mut tally);
    assert!(calls >= SOON && differing.is_none());
    assert_eq!(tally.missing(), []);
}

/// Each spoil makes the state unsound.
#[test]
fn what_is_spoilt_is_refused() {
    let mut random = Random::new(1);
    for &(name, _) in SPOILS {
        for _ in 0..100 {
            let Ground { kind, mut lent, .. } = Ground::spoilt(name, &mut random);
            assert_eq!(kind, Kind::Spoilt(name));
            lent.finishes = vec![0; 64];
            assert_eq!(by_model(&Call::Change { k: 0 }, &mut lent), Answer::Refused(13), "{name}");
        }
    }
}
