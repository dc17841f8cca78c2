//! A word of a book that another takes the place of.

use model::layout::{kept_row, waiting_row, ROW, SC_AT, WAITING_AT};

use crate::bytes::Bytes;

#[derive(Clone, Copy, Debug)]
pub struct Spoilt {
    pub word: usize,
    pub before: u32,
    pub after: u32,
}

/// A counter, a word of a row near those that count, or any word, and in its place a number near it, or any. None where no book is lent.
pub fn spoil(book: &mut [u32], bytes: &mut Bytes) -> Option<Spoilt> {
    let counter = |at: usize| book.get(at).copied().unwrap_or(0);
    let word = match bytes.below(4) {
        0 => bytes.below(6) as usize,
        1 => waiting_row((bytes.below(33) % (counter(WAITING_AT) % 33 + 1)).min(31) as usize).words + bytes.below(ROW as u32) as usize,
        2 => kept_row(counter(SC_AT).wrapping_sub(bytes.below(65))).words + bytes.below(ROW as u32) as usize,
        _ => bytes.word() as usize % book.len().max(1),
    };
    let before = *book.get(word)?;
    let after = match bytes.below(4) {
        0 => bytes.number(),
        1 => before.wrapping_add(1),
        2 => before.wrapping_sub(1),
        _ => before ^ 1 << bytes.below(32),
    };
    book[word] = after;
    Some(Spoilt { word, before, after })
}

impl Spoilt {
    /// The word stands again for the next call, unless the call was taken and wrote it, or some bytes say otherwise.
    pub fn put_back(self, book: &mut [u32], bytes: &mut Bytes) {
        if book[self.word] == self.after && bytes.below(4) > 0 {
            book[self.word] = self.before;
        }
    }
}
