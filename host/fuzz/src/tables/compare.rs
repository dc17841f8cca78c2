//! A call by the library and by the model, and what differs: the answer, or what is left in the memory that is lent.

use model::{decode, fill, show_state, Answer, Call, Fate, Lent, Outcome, BOOK, BY_THE_LETTER, SUMS};
use telvrang::lent::{Fed, Standing};
use telvrang::FINISHES;

use super::lent::Memory;
use super::lines::answer_lines;
use crate::counters::count_seen;

pub fn compare(call: &Call, memory: &mut Memory) -> Result<(), String> {
    let before = memory.copy();
    let wanted = BY_THE_LETTER.outcome(call, &before);
    let answer = memory.answer(call);
    let after = memory.copy();
    count(call, answer, &after);
    let wanted_answer = wanted.as_ref().map_or_else(|&number| Answer::Refused(number), |outcome| outcome.answer);
    if answer != wanted_answer {
        return Err(format!("wanted {wanted_answer:?}\ngiven  {answer:?}"));
    }
    // "Finishes fill the finish list from its start; entries past their number keep what they held."
    let mut finishes = before.finishes.clone();
    fill(wanted.as_ref().map_or(&[], |outcome| &outcome.finishes), &mut finishes);
    if after.finishes != finishes {
        return Err(format!("wanted the finish list {finishes:?}\ngiven  {:?}", after.finishes));
    }
    compare_left(call, &wanted, before, after, memory)
}

/// The call as a line of a log, which has a finish list of its own.
pub fn compare_line(call: &Call, line: &str, memory: &mut Memory) -> Result<(), String> {
    let before = memory.copy();
    let wanted = BY_THE_LETTER.outcome(call, &Lent { finishes: vec![0; FINISHES], ..before.clone() });
    let opens = matches!(call, Call::Open { .. });
    let wanted_text = answer_lines(call, &wanted);
    let standing = Standing { opened: !opens || wanted.is_ok(), skipping: false };
    let wanted_fed = Fed { taken: line.len(), wrote: wanted_text.len(), full: false, standing };
    let (fed, text) = memory.answer_line(line, !opens);
    if fed != wanted_fed || text != wanted_text.as_bytes() {
        return Err(format!("wanted {wanted_fed:?} and {wanted_text:?}\ngiven  {fed:?} and \"{}\"", text.escape_ascii()));
    }
    compare_left(call, &wanted, before, memory.copy(), memory)
}

/// "leaves DC and all lent memory untouched", of a refusal. Of a read: "It changes nothing." "A longer lent table is taken and its excess never touched."
fn compare_left(call: &Call, wanted: &Result<Outcome, u32>, before: Lent, after: Lent, memory: &Memory) -> Result<(), String> {
    if !memory.patterns_stand() {
        return Err("memory beside what is lent was written".to_string());
    }
    let tables = (&after.book, &after.sums);
    let unchanged = tables == (&before.book, &before.sums);
    let outcome = match wanted {
        Ok(outcome) if !matches!(call, Call::Read { .. }) => outcome,
        _ if unchanged => return Ok(()),
        _ => return Err("a refusal or a read changed the tables".to_string()),
    };
    if after.book[BOOK..] != before.book[BOOK..] || after.sums[SUMS..] != before.sums[SUMS..] {
        return Err("the excess of longer tables was written".to_string());
    }
    let state = decode(&after.book, &after.sums);
    if state.as_ref() == Some(&outcome.state) {
        return Ok(());
    }
    let left = state.map_or("no state".to_string(), |state| show_state(&state));
    Err(format!("wanted this to be left:\n{}\nleft:\n{left}", show_state(&outcome.state)))
}

/// Kinds of what is counted.
const ANSWER: u32 = 16;
const FINISHED: u32 = 32;
const PLACE: u32 = 48;
const WAITING: u32 = 49;

/// Which calls are answered how, how many finish at once, and which places are taken among how many that wait.
fn count(call: &Call, answer: Answer, after: &Lent) {
    let kind = match call {
        Call::Open { .. } => 0,
        Call::Deliver(_) => 1,
        Call::Vote { .. } => 2,
        Call::Change { .. } => 3,
        Call::Read { .. } => 4,
    };
    let waiting = after.book.get(5).map_or(255, |&waiting| waiting.min(255));
    let (detail, finishes) = match answer {
        Answer::Refused(number) => (number, 0),
        Answer::Opened | Answer::Value { .. } => (16, 0),
        Answer::Settled { finishes } => (17, finishes),
        Answer::Delivered { fate: Fate::Aborted { reason }, send, finishes, .. } => (18 + reason + if send.is_some() { 4 } else { 0 }, finishes),
        Answer::Delivered { fate: Fate::Waits { place }, finishes, .. } => {
            count_seen(PLACE, place << 8 | waiting);
            (26, finishes)
        }
    };
    count_seen(ANSWER + kind, detail);
    count_seen(FINISHED + kind, finishes);
    count_seen(WAITING, waiting);
}
