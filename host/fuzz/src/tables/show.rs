//! What is lent and what is called, for whoever has to look at it.

use model::{decode, show_state, Call, Lent, Letter, Soundness as _};

use super::spoil::Spoilt;

pub fn show_lent(lent: &Lent) {
    eprintln!("lent: {} words of a book, {} amounts, {} words for finishes; they hold", lent.book.len(), lent.sums.len(), lent.finishes.len());
    match decode(&lent.book, &lent.sums) {
        Some(state) => eprintln!("{}, {}", show_state(&state), if Letter.is_sound(&state) { "which is sound" } else { "which isn't sound" }),
        None => eprintln!("no state"),
    }
}

pub fn show_call(spoilt: Option<Spoilt>, call: &Call) {
    if let Some(Spoilt { word, before, after }) = spoilt {
        eprintln!("word {word} of the book: {after} instead of {before}");
    }
    eprintln!("{call:?}");
}
