//! What is lent at first: how much of each table, beside which page, and what it holds.

use model::{encode, opening_state, Lent, BOOK, SUMS};
use telvrang::FINISHES;

use super::lent::Memory;
use super::sound::sound_state;
use crate::bytes::Bytes;
use crate::pages::Neighbour;

pub fn start(bytes: &mut Bytes, memory: &mut Memory) {
    let neighbour = bytes.one_of(&[Neighbour::Upper, Neighbour::Lower]);
    let (words, amounts, finish_words) = (length(BOOK, bytes), length(SUMS, bytes), length(FINISHES, bytes));
    let fill = bytes.byte();
    let mut lent = Lent { book: vec![repeated(fill); words], sums: vec![i64::from(fill as i8); amounts], finishes: vec![repeated(fill); finish_words] };
    let state = match bytes.below(8) {
        0 => None,
        1 => Some(opening_state(1 + bytes.below(8), 0, bytes.below(32))),
        _ => Some(sound_state(bytes)),
    };
    match state {
        Some(state) => hold_state(&mut lent, |book, sums| encode(&state, book, sums)),
        None => any_words(&mut lent, bytes),
    }
    memory.hold(&lent, neighbour);
}

fn repeated(fill: u8) -> u32 {
    u32::from_le_bytes([fill; 4])
}

/// Just what is needed for the most part; else more, or less.
fn length(needed: usize, bytes: &mut Bytes) -> usize {
    match bytes.byte() {
        0..=191 => needed,
        more @ 192..=223 => needed + usize::from(more - 191),
        254 => needed - 1 - usize::from(bytes.byte()) % needed,
        255 => 0,
        less => needed - usize::from(less - 223),
    }
}

/// As much of a state as goes into tables that may be too short.
fn hold_state(lent: &mut Lent, encode: impl Fn(&mut [u32], &mut [i64])) {
    let (mut book, mut sums) = (lent.book.clone(), lent.sums.clone());
    book.resize(book.len().max(BOOK), 0);
    sums.resize(sums.len().max(SUMS), 0);
    encode(&mut book, &mut sums);
    book.truncate(lent.book.len());
    sums.truncate(lent.sums.len());
    (lent.book, lent.sums) = (book, sums);
}

/// Runs of words, each a number and how often it comes.
fn any_words(lent: &mut Lent, bytes: &mut Bytes) {
    let mut at = 0;
    for _ in 0..bytes.below(64) {
        let (number, often) = (bytes.number(), 1 + usize::from(bytes.byte()));
        lent.book.iter_mut().skip(at).take(often).for_each(|word| *word = number);
        at += often;
    }
}
