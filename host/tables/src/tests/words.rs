//! A library that answers rightly and leaves other words.

use model::{Answer, Call, Lent, BOOK, SUMS};

use super::{by_model, is_caught};

/// The model, and then a word altered where the answer is of a kind.
fn altering(kind: impl Fn(&Call, Answer) -> bool, alter: impl Fn(&mut Lent)) -> impl Fn(&Call, &mut Lent) -> Answer {
    move |call, lent| {
        let answer = by_model(call, lent);
        if kind(call, answer) {
            alter(lent);
        }
        answer
    }
}

fn raise(word: Option<&mut u32>) {
    if let Some(word) = word {
        *word = word.wrapping_add(1);
    }
}

#[test]
fn words_changed_by_a_refusal_are_caught() {
    for number in (1..=13).chain([15]) {
        let refused = |_: &Call, answer: Answer| answer == Answer::Refused(number);
        assert!(is_caught(&altering(refused, |lent| raise(lent.book.last_mut()))), "a book by {number}");
        assert!(is_caught(&altering(refused, |lent| lent.sums.iter_mut().take(1).for_each(|sum| *sum = sum.wrapping_add(1)))), "sums by {number}");
        assert!(is_caught(&altering(refused, |lent| raise(lent.finishes.first_mut()))), "a finish list by {number}");
    }
}

#[test]
fn words_changed_by_a_read_are_caught() {
    let reads = |call: &Call, answer: Answer| matches!((call, answer), (Call::Read { .. }, Answer::Value { .. }));
    assert!(is_caught(&altering(reads, |lent| raise(lent.book.get_mut(BOOK - 1)))));
}

#[test]
fn an_excess_touched_is_caught() {
    let taken = |_: &Call, answer: Answer| !matches!(answer, Answer::Refused(_));
    assert!(is_caught(&altering(taken, |lent| raise(lent.book.get_mut(BOOK)))));
    assert!(is_caught(&altering(taken, |lent| lent.sums.iter_mut().skip(SUMS).take(1).for_each(|sum| *sum ^= 1))));
}

#[test]
fn a_finish_list_written_otherwise_is_caught() {
    let finishes = |answer: Answer| match answer {
        Answer::Delivered { finishes, .. } | Answer::Settled { finishes } => Some(finishes),
        _ => None,
    };
    let settled = |_: &Call, answer: Answer| finishes(answer).is_some();
    // An entry behind the finishes, as if the list were cleared.
    assert!(is_caught(&altering(settled, |lent| lent.finishes[63] = 0)));
    assert!(is_caught(&altering(settled, |lent| raise(lent.finishes.get_mut(64)))));
    let some = |_: &Call, answer: Answer| finishes(answer).is_some_and(|finishes| finishes > 0);
    assert!(is_caught(&altering(some, |lent| raise(lent.finishes.get_mut(1)))));
    assert!(is_caught(&altering(some, |lent| raise(lent.finishes.get_mut(0)))));
}

#[test]
fn an_answer_told_otherwise_is_caught() {
    let told = |alter: fn(&mut Answer)| {
        move |call: &Call, lent: &mut Lent| {
            let mut answer = by_model(call, lent);
            alter(&mut answer);
            answer
        }
    };
    assert!(is_caught(&told(|answer| {
        if let Answer::Delivered { dc, .. } = answer {
            *dc -= 1;
        }
    })));
    assert!(is_caught(&told(|answer| {
        if let Answer::Delivered { send: send @ Some(false), .. } = answer {
            *send = Some(true);
        }
    })));
    assert!(is_caught(&told(|answer| {
        if let Answer::Delivered { send: send @ None, .. } = answer {
            *send = Some(true);
        }
    })));
    assert!(is_caught(&told(|answer| {
        if let Answer::Delivered { finishes, .. } | Answer::Settled { finishes } = answer {
            *finishes = (*finishes).min(31);
        }
    })));
    assert!(is_caught(&told(|answer| {
        if let Answer::Value { version, .. } = answer {
            *version = version.wrapping_add(1);
        }
    })));
    assert!(is_caught(&told(|answer| {
        if *answer == Answer::Refused(9) {
            *answer = Answer::Settled { finishes: 0 };
        }
    })));
}
