//! The two tables of a ledger, owned.

use crate::sizes::{BOOK, SUMS};

/// A copy of the tables is a copy of the ledger: it has no other memory.
#[derive(Clone)]
pub struct Tables {
    pub book: Box<[u32; BOOK]>,
    pub sums: Box<[i64; SUMS]>,
}

impl Tables {
    /// Before an opening they may hold anything.
    pub fn unopened() -> Self {
        Tables { book: Box::new([0; BOOK]), sums: Box::new([0; SUMS]) }
    }

    pub fn partitions(&self) -> u32 {
        self.book[0]
    }

    pub fn own(&self) -> u32 {
        self.book[1]
    }

    pub fn sc(&self) -> u32 {
        self.book[2]
    }

    pub fn dc(&self) -> u32 {
        self.book[3]
    }

    pub fn k(&self) -> u32 {
        self.book[4]
    }

    pub fn waiting(&self) -> u32 {
        self.book[5]
    }
}
