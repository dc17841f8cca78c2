//! States and their words.

use crate::layout::{kept_row, waiting_row, Row};
use crate::{decode, encode, opening_state, Commit, Entry, State, Transaction, BOOK, SUMS};

/// The document's delivery 10 waits, behind a commit that wrote key 9.
fn small_state() -> State {
    let mut state = opening_state(2, 0, 1);
    (state.sc, state.dc) = (1, 2);
    state.kept.push(Commit { identity: 5, reads: vec![], writes: vec![(9, -1)] });
    let transaction = Transaction { identity: 10, set: 3, st: 1, reads: vec![7, 8], writes: vec![(7, 500)] };
    state.waiting.push(Entry { transaction, rt: 3, ayes: 2, nays: 0 });
    state.values[1_023] = i64::MIN;
    state
}

fn long_state() -> State {
    let mut state = small_state();
    (state.sc, state.dc) = (70, 4_000_000_000);
    state.kept =
        (7..=70).map(|version| Commit { identity: version, reads: vec![version], writes: (0..8).map(|key| (key, version.into())).collect() }).collect();
    let entry = state.waiting[0].clone();
    state.waiting = (1..=32).map(|identity| Entry { rt: identity, ..entry.clone() }).collect();
    state
}

#[test]
fn the_lengths_are_just_what_the_sizes_need() {
    assert_eq!((BOOK, SUMS), (2_310, 1_792));
    let Row { words, amounts } = waiting_row(31);
    assert_eq!((words + 24, amounts + 8), (kept_row(0).words, kept_row(0).amounts));
    let Row { words, amounts } = kept_row(63);
    assert_eq!((words + 24, amounts + 8), (BOOK, SUMS));
    assert_eq!(kept_row(4_000_000_000).words, kept_row(0).words);
}

#[test]
fn the_words_of_a_state() {
    let (mut book, mut sums) = (vec![77; BOOK], vec![-77; SUMS]);
    encode(&small_state(), &mut book, &mut sums);
    assert_eq!(book[..6], [2, 0, 1, 2, 1, 1]);
    assert_eq!(book[6..30], [10, 3, 1, 3, 2, 0, 2, 1, 7, 8, 77, 77, 77, 77, 77, 77, 7, 77, 77, 77, 77, 77, 77, 77]);
    assert_eq!(sums[1_024..1_026], [500, -77]);
    assert_eq!(book[798..822], [5, 77, 77, 77, 77, 77, 0, 1, 77, 77, 77, 77, 77, 77, 77, 77, 9, 77, 77, 77, 77, 77, 77, 77]);
    assert_eq!(sums[1_288..1_290], [-1, -77]);
    assert_eq!(sums[1_022..1_024], [0, i64::MIN]);
}

#[test]
fn a_state_is_read_back() {
    for state in [small_state(), long_state(), opening_state(8, 7, 31)] {
        let (mut book, mut sums) = (vec![u32::MAX; BOOK + 3], vec![7; SUMS + 3]);
        encode(&state, &mut book, &mut sums);
        assert_eq!(decode(&book, &sums), Some(state));
        assert_eq!((&book[BOOK..], &sums[SUMS..]), (&[u32::MAX; 3][..], &[7; 3][..]));
    }
}

#[test]
fn words_that_hold_no_state() {
    let (mut book, mut sums) = (vec![0; BOOK], vec![0; SUMS]);
    encode(&long_state(), &mut book, &mut sums);
    assert_eq!(decode(&book[1..], &sums), None);
    assert_eq!(decode(&book, &sums[1..]), None);
    for (word, least) in [(5, 33), (6 + 6, 9), (6 + 31 * 24 + 7, 9), (774 + 6, 9), (774 + 63 * 24 + 7, 9)] {
        let mut spoilt = book.clone();
        spoilt[word] = least;
        assert_eq!(decode(&spoilt, &sums), None);
        spoilt[word] = u32::MAX;
        assert_eq!(decode(&spoilt, &sums), None);
    }
}
