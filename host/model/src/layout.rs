//! How the words of the lent tables hold a state: the book of counters and rows, and the sums, which are values and amounts.

use crate::sizes::{KEPT, KEYS, KEYS_OF_ONE, WAITING};
use crate::state::{keys_of, Commit, Entry, State, Transaction, Write};

/// Words of a book: 6 counters, then a row for each of 32 that wait, then a row for each of 64 kept commits.
pub const BOOK: usize = KEPT_ROWS + KEPT as usize * ROW;
/// Amounts of its sums: 1,024 values at the floor, then 8 for each waiting row, then 8 for each kept row.
pub const SUMS: usize = KEPT_AMOUNTS + KEPT as usize * KEYS_OF_ONE;

pub const PARTITIONS_AT: usize = 0;
pub const OWN_AT: usize = 1;
pub const SC_AT: usize = 2;
pub const DC_AT: usize = 3;
pub const K_AT: usize = 4;
pub const WAITING_AT: usize = 5;

/// Words of a row: identity, partition set, st, rt, ayes, nays, how many keys are read, how many written; then 8 keys read and 8 written.
pub const ROW: usize = 24;
pub const SET_IN: usize = 1;
pub const ST_IN: usize = 2;
pub const RT_IN: usize = 3;
pub const AYES_IN: usize = 4;
pub const NAYS_IN: usize = 5;
pub const READ_COUNT_IN: usize = 6;
pub const WRITTEN_COUNT_IN: usize = 7;
pub const READS_IN: usize = 8;
pub const WRITTEN_IN: usize = 16;

const WAITING_ROWS: usize = 6;
const KEPT_ROWS: usize = WAITING_ROWS + WAITING * ROW;
const WAITING_AMOUNTS: usize = KEYS as usize;
const KEPT_AMOUNTS: usize = WAITING_AMOUNTS + WAITING * KEYS_OF_ONE;

/// Where a row's words and its amounts begin.
#[derive(Clone, Copy)]
pub struct Row {
    pub words: usize,
    pub amounts: usize,
}

/// Row by place in the list.
pub fn waiting_row(place: usize) -> Row {
    Row { words: WAITING_ROWS + place * ROW, amounts: WAITING_AMOUNTS + place * KEYS_OF_ONE }
}

/// "the commit of version v at row v % 64"
pub fn kept_row(version: u32) -> Row {
    let row = (version % KEPT) as usize;
    Row { words: KEPT_ROWS + row * ROW, amounts: KEPT_AMOUNTS + row * KEYS_OF_ONE }
}

/// The state that the tables hold, sound or not; none where they are too short, more than 32 wait, or a row says that it has more than 8 keys.
pub fn decode(book: &[u32], sums: &[i64]) -> Option<State> {
    if book.len() < BOOK || sums.len() < SUMS || book[WAITING_AT] as usize > WAITING {
        return None;
    }
    let sc = book[SC_AT];
    let waiting = (0..book[WAITING_AT] as usize).map(|place| read_entry(waiting_row(place), book, sums));
    let kept = (sc.saturating_sub(KEPT) + 1..=sc).map(|version| read_commit(kept_row(version), book, sums));
    Some(State {
        partitions: book[PARTITIONS_AT],
        own: book[OWN_AT],
        sc,
        dc: book[DC_AT],
        k: book[K_AT],
        waiting: waiting.collect::<Option<_>>()?,
        kept: kept.collect::<Option<_>>()?,
        values: sums[..KEYS as usize].to_vec(),
    })
}

fn read_entry(row: Row, book: &[u32], sums: &[i64]) -> Option<Entry> {
    let Commit { identity, reads, writes } = read_commit(row, book, sums)?;
    let word = |within: usize| book[row.words + within];
    let transaction = Transaction { identity, set: word(SET_IN), st: word(ST_IN), reads, writes };
    Some(Entry { transaction, rt: word(RT_IN), ayes: word(AYES_IN), nays: word(NAYS_IN) })
}

/// Of a kept row, the other words say nothing.
fn read_commit(row: Row, book: &[u32], sums: &[i64]) -> Option<Commit> {
    let reads = read_keys(&book[row.words + READS_IN..], book[row.words + READ_COUNT_IN])?;
    let written = read_keys(&book[row.words + WRITTEN_IN..], book[row.words + WRITTEN_COUNT_IN])?;
    let writes: Vec<Write> = written.into_iter().zip(sums[row.amounts..].iter().copied()).collect();
    Some(Commit { identity: book[row.words], reads, writes })
}

fn read_keys(words: &[u32], count: u32) -> Option<Vec<u32>> {
    let count = count as usize;
    (count <= KEYS_OF_ONE).then(|| words[..count].to_vec())
}

/// Puts a state into tables that are long enough. The words that it says nothing of keep what they hold.
pub fn encode(state: &State, book: &mut [u32], sums: &mut [i64]) {
    book[PARTITIONS_AT] = state.partitions;
    book[OWN_AT] = state.own;
    book[SC_AT] = state.sc;
    book[DC_AT] = state.dc;
    book[K_AT] = state.k;
    book[WAITING_AT] = state.waiting.len() as u32;
    for (place, entry) in state.waiting.iter().enumerate() {
        write_entry(entry, waiting_row(place), book, sums);
    }
    for (version, commit) in state.versions() {
        write_row(commit.identity, &commit.reads, &commit.writes, kept_row(version), book, sums);
    }
    sums[..state.values.len()].copy_from_slice(&state.values);
}

fn write_entry(entry: &Entry, row: Row, book: &mut [u32], sums: &mut [i64]) {
    let Transaction { identity, set, st, reads, writes } = &entry.transaction;
    write_row(*identity, reads, writes, row, book, sums);
    let words = [(SET_IN, *set), (ST_IN, *st), (RT_IN, entry.rt), (AYES_IN, entry.ayes), (NAYS_IN, entry.nays)];
    for (within, word) in words {
        book[row.words + within] = word;
    }
}

fn write_row(identity: u32, reads: &[u32], writes: &[Write], row: Row, book: &mut [u32], sums: &mut [i64]) {
    book[row.words] = identity;
    write_keys(reads, READ_COUNT_IN, READS_IN, row, book);
    write_keys(&keys_of(writes), WRITTEN_COUNT_IN, WRITTEN_IN, row, book);
    for (place, write) in writes.iter().enumerate() {
        sums[row.amounts + place] = write.1;
    }
}

fn write_keys(keys: &[u32], count_in: usize, keys_in: usize, row: Row, book: &mut [u32]) {
    book[row.words + count_in] = keys.len() as u32;
    book[row.words + keys_in..][..keys.len()].copy_from_slice(keys);
}
