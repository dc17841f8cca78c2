//! One call on what is lent, by the model and by the library: the answer, and every word that it leaves.

use model::{decode, fill, show_state, Answer, Call, Lent, Outcome, BOOK, BY_THE_LETTER, SUMS};

use crate::library::Library;

pub struct Compared {
    /// What the model has to say of it.
    pub wanted: Result<Outcome, u32>,
    pub after: Lent,
    pub difference: Option<String>,
}

pub fn compare(library: Library, call: &Call, before: &Lent) -> Compared {
    let wanted = BY_THE_LETTER.outcome(call, before);
    let mut after = before.clone();
    let answer = library(call, &mut after);
    let difference = difference(call, &wanted, answer, before, &after);
    Compared { wanted, after, difference }
}

fn difference(call: &Call, wanted: &Result<Outcome, u32>, answer: Answer, before: &Lent, after: &Lent) -> Option<String> {
    let wanted_answer = wanted.as_ref().map_or_else(|&number| Answer::Refused(number), |outcome| outcome.answer);
    if answer != wanted_answer {
        return Some(format!("the model answers {wanted_answer:?}\nthe library answers {answer:?}"));
    }
    match wanted {
        // "finishes nothing, leaves [..] all lent memory untouched"
        Err(_) => changed("after a refusal", before, after),
        // "It changes nothing."
        Ok(_) if matches!(call, Call::Read { .. }) => changed("after a read", before, after),
        Ok(outcome) => left_otherwise(outcome, before, after).map(|left| format!("both answer {answer:?}\n{left}")),
    }
}

fn changed(when: &str, before: &Lent, after: &Lent) -> Option<String> {
    let tables = [differing(&before.book, &after.book), differing(&before.sums, &after.sums), differing(&before.finishes, &after.finishes)];
    let [book, sums, finishes] = tables;
    (before != after).then(|| format!("{when} words are changed: of the book {book:?}, of the sums {sums:?}, of the finish list {finishes:?}"))
}

fn differing<T: PartialEq>(one: &[T], other: &[T]) -> Vec<usize> {
    one.iter().zip(other).enumerate().filter(|(_, (one, other))| one != other).map(|(place, _)| place).collect()
}

/// "Finishes fill the finish list from its start; entries past their number keep what they held." "A longer lent table is taken and its excess never
/// touched." What no state names may change.
fn left_otherwise(outcome: &Outcome, before: &Lent, after: &Lent) -> Option<String> {
    let mut finishes = before.finishes.clone();
    fill(&outcome.finishes, &mut finishes);
    if after.finishes != finishes {
        return Some(format!("the model's finish list is  {finishes:?}\nthe library's finish list is {:?}", after.finishes));
    }
    if before.book[BOOK..] != after.book[BOOK..] || before.sums[SUMS..] != after.sums[SUMS..] {
        return Some("the excess of a longer table is touched".to_string());
    }
    let state = decode(&after.book, &after.sums);
    if state.as_ref() == Some(&outcome.state) {
        return None;
    }
    let left = state.map_or("words that hold no state".to_string(), |state| show_state(&state));
    Some(format!("the model leaves\n{}\nthe library leaves\n{left}", show_state(&outcome.state)))
}
