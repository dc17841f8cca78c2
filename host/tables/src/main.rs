//! Compares the library's calls on random lent tables with the rules by the letter, word for word, and a log fed in pieces with the second program.

#![forbid(unsafe_code)]

mod library;
mod shape;

mod states;

mod spoils;

mod grounds;

mod calls;

mod compare;
mod shrink;
mod tally;

mod trials;

mod pieces;

#[cfg(test)]
mod tests;

use std::env;
use std::process::ExitCode;

use model::{decode, show_state};
use telvrang::lent;
use trial::compare::{shrink as shrink_log, text};
use trial::maker::Maker;

use compare::compare;
use library::{by_library, Library};
use pieces::{Feeding, Log, BEGINNINGS};
use shrink::shrink;
use tally::Tally;
use trials::{compare_calls, Differing};

const HELP: &str = "usage: tables [CALLS] [SEED]\n
Compares CALLS calls or more (200000) of the library on random lent tables with the rules by the letter, and logs fed in pieces with the second program.";

/// So many bring every answer and every kind of tables.
const CALLS: u64 = 200_000;

/// A log is fed in pieces for so many calls.
const CALLS_A_LOG: u64 = 4_000;

fn main() -> ExitCode {
    let arguments: Vec<String> = env::args().skip(1).collect();
    let Some((calls, seed)) = read_arguments(&arguments) else {
        eprintln!("{HELP}");
        return ExitCode::FAILURE;
    };
    let (compared, differ) = compare_on_tables(&by_library, calls, seed);
    let (fed, differ_fed) = compare_in_pieces(&lent::feed, calls.div_ceil(CALLS_A_LOG), seed);
    println!("{} calls compared, {} differ", compared + fed, differ + differ_fed);
    if differ + differ_fed > 0 {
        return ExitCode::FAILURE;
    }
    ExitCode::SUCCESS
}

fn read_arguments(arguments: &[String]) -> Option<(u64, u64)> {
    match arguments {
        [] => Some((CALLS, 1)),
        [calls] => Some((calls.parse().ok()?, 1)),
        [calls, seed] => Some((calls.parse().ok()?, seed.parse().ok()?)),
        _ => None,
    }
}

/// How many calls were compared, and how many differ: none, or the last one.
fn compare_on_tables(library: Library, calls: u64, seed: u64) -> (u64, u64) {
    let mut tally = Tally::default();
    let (compared, differing) = compare_calls(library, calls, seed, &mut tally);
    println!("{compared} calls on lent tables{tally}");
    match differing {
        Some(differing) => {
            show_difference(library, differing);
            (compared, 1)
        }
        None => {
            let missing = tally.missing();
            assert!(calls < CALLS || missing.is_empty(), "never occurred: {missing:?}");
            (compared, 0)
        }
    }
}

fn show_difference(library: Library, differing: Differing) {
    let Differing { seed, kind, call, before } = differing;
    let (call, before) = shrink(library, call, before);
    println!("seed {seed}: a call differs on tables of the kind {kind:?}: {call:?}");
    println!("{} words of a book, {} amounts, {} words of a finish list", before.book.len(), before.sums.len(), before.finishes.len());
    match decode(&before.book, &before.sums) {
        Some(state) => println!("they hold\n{}", show_state(&state)),
        None => println!("they hold no state; the book begins with {:?}", &before.book[..before.book.len().min(6)]),
    }
    let difference = compare(library, &call, &before).difference;
    println!("{}", difference.expect("what is shrunk differs"));
}

/// How many pieces were fed, and how many logs differ: none, or the last one.
fn compare_in_pieces(feeding: Feeding, logs: u64, seed: u64) -> (u64, u64) {
    let (mut pieces, mut stopped) = (0, 0);
    for seed in (0..logs).map(|log| seed.wrapping_add(log)) {
        let lines = Maker::new(seed).log();
        let beginning = BEGINNINGS[(seed % BEGINNINGS.len() as u64) as usize];
        let fed = |lines: &[Vec<u8>]| Log::new(text(lines), beginning).feed(feeding, seed);
        match fed(&lines) {
            Ok((more, full)) => (pieces, stopped) = (pieces + more, stopped + full),
            Err(_) => {
                let least = shrink_log(lines, |lines| fed(lines).is_err());
                println!("seed {seed}: a log fed in pieces differs, on tables that are {beginning:?}:\n{}", String::from_utf8_lossy(&text(&least)));
                println!("{}", fed(&least).expect_err("what is shrunk differs"));
                return (pieces, 1);
            }
        }
    }
    println!("{logs} logs fed in {pieces} pieces, {stopped} of them stopped for want of room");
    (pieces, 0)
}
