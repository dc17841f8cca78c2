//! What an event finished, as the finish list says it.

use std::fmt::{self, Debug, Formatter};
use std::iter::FusedIterator;

/// A transaction taken off the waiting list.
#[derive(Clone, Copy, Debug, PartialEq, Eq)]
pub enum Finish {
    /// "A commit raises SC by 1, and that is its version."
    Committed {
        /// Whose.
        identity: u32,
        /// 1 or more.
        version: u32,
    },
    /// "Otherwise it aborts and writes nothing."
    Aborted {
        /// Whose.
        identity: u32,
    },
}

/// The finishes of one event in their order, at most 32, read off the words of a finish list.
///
/// ```
/// use telvrang::{Finish, Finishes};
///
/// let mut finishes = Finishes::of(&[11, 1, 10, 0, 7, 7], 2);
/// assert_eq!(finishes.len(), 2);
/// assert_eq!(finishes.next(), Some(Finish::Committed { identity: 11, version: 1 }));
/// assert_eq!(finishes.next(), Some(Finish::Aborted { identity: 10 }));
/// assert_eq!(finishes.next(), None);
/// ```
#[derive(Clone, PartialEq, Eq)]
pub struct Finishes<'a> {
    words: &'a [u32],
}

impl<'a> Finishes<'a> {
    /// The first `count` entries of a finish list, as an operation of [`lent`](crate::lent) told their number; no more than it holds. An entry has two
    /// words, the identity, and the version or 0 for an abort.
    pub fn of(list: &'a [u32], count: u32) -> Self {
        let entries = (list.len() / 2).min(count as usize);
        Finishes { words: &list[..2 * entries] }
    }
}

impl Iterator for Finishes<'_> {
    type Item = Finish;

    fn next(&mut self) -> Option<Finish> {
        let [identity, version, rest @ ..] = self.words else {
            return None;
        };
        self.words = rest;
        Some(match version {
            0 => Finish::Aborted { identity: *identity },
            _ => Finish::Committed { identity: *identity, version: *version },
        })
    }

    fn size_hint(&self) -> (usize, Option<usize>) {
        let count = self.words.len() / 2;
        (count, Some(count))
    }
}

impl ExactSizeIterator for Finishes<'_> {}

impl FusedIterator for Finishes<'_> {}

impl Debug for Finishes<'_> {
    fn fmt(&self, f: &mut Formatter<'_>) -> fmt::Result {
        f.debug_list().entries(self.clone()).finish()
    }
}
