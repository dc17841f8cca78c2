//! A wrong engine is caught: here it is the second program, with its answers or its log altered.

use trial::compare::{by_second, shrink, text};
use trial::maker::Maker;
use trial::moved::moved_votes_differ;

use crate::{compare_logs, compare_moved_votes, LINES};

/// A slip: a clash with a waiting entry is answered as one with a commit.
fn wrong_reason(log: &[u8]) -> Vec<u8> {
    altered(&by_second(log), |answer| match answer.strip_suffix("\t2") {
        Some(start) if answer.starts_with('A') => format!("{start}\t1"),
        _ => answer.to_string(),
    })
}

/// A slip: k is taken for 0, so that a transaction finishes as soon as its votes are in.
fn no_threshold(log: &[u8]) -> Vec<u8> {
    let log = altered(log, |line| match line.rsplit_once('\t') {
        Some((start, _)) if line.starts_with(['O', 'K']) => format!("{start}\t0"),
        _ => line.to_string(),
    });
    by_second(&log)
}

fn altered(text: &[u8], alter: impl Fn(&str) -> String) -> Vec<u8> {
    String::from_utf8_lossy(text).lines().map(|line| alter(line) + "\n").collect::<String>().into_bytes()
}

#[test]
fn the_second_program_is_like_itself() {
    assert_eq!(compare_logs(&by_second, LINES, 1).1, 0);
    assert_eq!(compare_moved_votes(&by_second, 1), 0);
}

#[test]
fn a_slip_is_found_and_shrunk() {
    assert_eq!(compare_logs(&wrong_reason, LINES, 1).1, 1);
    let differs = |lines: &[Vec<u8>]| wrong_reason(&text(lines)) != by_second(&text(lines));
    let log = (1..).map(|seed| Maker::new(seed).log()).find(|log| differs(log)).expect("logs without end");
    let least = shrink(log, differs);
    assert!(differs(&least) && least.len() < 40, "{}", String::from_utf8_lossy(&text(&least)));
    for spared in 0..least.len() {
        assert!(!differs(&[&least[..spared], &least[spared + 1..]].concat()));
    }
}

#[test]
fn a_threshold_that_is_passed_over_shows_when_votes_move() {
    assert_eq!(compare_moved_votes(&no_threshold, 1), 1);
    assert!(moved_votes_differ(&by_second, 1).is_none());
}

/// A transaction that waits for a vote, one that would pass it or clash with it, and the vote before or behind that one.
#[test]
fn a_pair_with_moved_votes_is_shrunk() {
    let difference = (1..).find_map(|seed| moved_votes_differ(&no_threshold, seed)).expect("seeds without end");
    let [mut one, mut other] = difference.logs;
    assert_ne!(one, other);
    assert!(one.len() < 8, "{}", String::from_utf8_lossy(&text(&one)));
    assert_ne!(no_threshold(&text(&one)), no_threshold(&text(&other)));
    one.sort();
    other.sort();
    assert_eq!(one, other);
}

#[test]
fn shrinking_leaves_what_is_sought() {
    let lines: Vec<Vec<u8>> = (0..100).map(|line| vec![line]).collect();
    let least = shrink(lines, |lines| lines.contains(&vec![3]) && lines.contains(&vec![70]));
    assert_eq!(least, [[3], [70]]);
}
