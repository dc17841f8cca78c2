//! The engine against the second one, on random logs.

use second::Program;
use trial::compare::{by_second, text};
use trial::maker::Maker;
use trial::tally::Tally;

use crate::Engine;

/// Some 250,000 lines, which bring every answer that a log can bring.
const LOGS: u64 = 150;

fn by_plain(log: &[u8]) -> Vec<u8> {
    let mut answers = Vec::new();
    Program::<Engine>::default().answer_log(&mut &log[..], &mut answers).expect("memory can be read and written");
    answers
}

#[test]
fn it_answers_as_the_second_program_does() {
    let mut tally = Tally::default();
    for seed in 1..=LOGS {
        let log = text(&Maker::new(seed).log());
        let answers = by_second(&log);
        tally.add(&answers);
        assert!(by_plain(&log) == answers, "the answers differ on the log of seed {seed}: `trial` shows where, with plain as its program and this seed");
    }
    assert!(tally.missing().is_empty(), "never occurred: {:?}", tally.missing());
}
