//! Compares a program with the second one: seeded random logs, answered by both, byte for byte.

#![forbid(unsafe_code)]

#[cfg(test)]
mod tests;

use std::env;
use std::process::ExitCode;

use trial::{compare, maker, moved, tally};

use compare::{by_program, by_second, shrink, text, Answering};
use maker::Maker;
use moved::moved_votes_differ;
use tally::Tally;

const HELP: &str = "usage: trial PROGRAM [LINES] [SEED]\n\nCompares PROGRAM with the second program on LINES lines or more (200000) of random logs.";
/// So many lines bring every answer.
const LINES: u64 = 200_000;

/// Pairs of logs with votes moved.
const PAIRS: u64 = 200;

fn main() -> ExitCode {
    let arguments: Vec<String> = env::args().skip(1).collect();
    let Some((program, lines, seed)) = read_arguments(&arguments) else {
        eprintln!("{HELP}");
        return ExitCode::FAILURE;
    };
    let answering = |log: &[u8]| by_program(program, log);
    let moved = compare_moved_votes(&answering, seed);
    let (logs, differ) = compare_logs(&answering, lines, seed);
    println!("{logs} logs compared, {} differ", differ + moved);
    if differ + moved > 0 {
        return ExitCode::FAILURE;
    }
    ExitCode::SUCCESS
}

fn read_arguments(arguments: &[String]) -> Option<(&str, u64, u64)> {
    match arguments {
        [program] => Some((program, LINES, 1)),
        [program, lines] => Some((program, lines.parse().ok()?, 1)),
        [program, lines, seed] => Some((program, lines.parse().ok()?, seed.parse().ok()?)),
        _ => None,
    }
}

/// How many logs were compared, and how many differ: none, or the last one. Log by log the seed rises by 1, so that any log is the first of its own seed.
fn compare_logs(answering: Answering, lines: u64, seed: u64) -> (u64, u64) {
    let mut tally = Tally::default();
    let (mut logs, mut compared, mut differ) = (0, 0, 0);
    while compared < lines && differ == 0 {
        let seed = seed.wrapping_add(logs);
        let log = Maker::new(seed).log();
        let log_text = text(&log);
        let answers = by_second(&log_text);
        tally.add(&answers);
        logs += 1;
        compared += log_text.split_inclusive(|&byte| byte == b'\n').count() as u64;
        if answering(&log_text) != answers {
            show_difference(answering, log, seed);
            differ = 1;
        }
    }
    println!("{compared} lines in {logs} logs: {tally}");
    assert!(differ > 0 || lines < LINES || tally.missing().is_empty(), "never occurred: {:?}", tally.missing());
    (logs, differ)
}

fn show_difference(answering: Answering, log: Vec<Vec<u8>>, seed: u64) {
    let least = text(&shrink(log, |lines| answering(&text(lines)) != by_second(&text(lines))));
    println!("seed {seed}: the answers differ on this log:\n{}", String::from_utf8_lossy(&least));
    println!("the second program answers:\n{}", String::from_utf8_lossy(&by_second(&least)));
    println!("the program answers:\n{}", String::from_utf8_lossy(&answering(&least)));
}

/// How many pairs differ: none, or the last one.
fn compare_moved_votes(answering: Answering, seed: u64) -> u64 {
    for pair in 0..PAIRS {
        let seed = seed.wrapping_add(pair);
        if let Some(difference) = moved_votes_differ(answering, seed) {
            println!("seed {seed}: with votes moved in their windows the answers differ: {}", difference.answers);
            let [one, other] = difference.logs.map(|log| String::from_utf8_lossy(&text(&log)).into_owned());
            println!("one log:\n{one}\nthe other:\n{other}");
            return 1;
        }
    }
    println!("{PAIRS} pairs of logs with votes moved in their windows, 0 differ");
    0
}
