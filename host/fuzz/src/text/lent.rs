//! What is lent to `feed`, and what the tables hold before.

use telvrang::{BOOK, SUMS};

use super::ledger::ledger;
use super::plan::{Held, Plan};
use crate::pages::Pages;

pub struct Lent {
    pub input: Pages<u8>,
    pub book: Pages<u32>,
    pub sums: Pages<i64>,
    pub out: Pages<u8>,
}

impl Lent {
    pub fn new() -> Self {
        Lent { input: Pages::new(), book: Pages::new(), sums: Pages::new(), out: Pages::new() }
    }

    /// Nothing beside a row was written.
    pub fn patterns_stand(&self) -> bool {
        self.input.pattern_stands() && self.book.pattern_stands() && self.sums.pattern_stands() && self.out.pattern_stands()
    }
}

pub fn tables(plan: &Plan) -> (Vec<u32>, Vec<i64>) {
    let (words, amounts) = plan.lengths_of(BOOK, SUMS);
    let mut garbage = Garbage(plan.seed.into());
    let (mut book, mut sums) = match plan.held {
        Held::Zeros => (vec![0; words], vec![0; amounts]),
        Held::Ones => (vec![u32::MAX; words], vec![-1; amounts]),
        Held::Garbage | Held::Ledger => ((0..words).map(|_| garbage.word()).collect(), (0..amounts).map(|_| i64::from(garbage.word()) << 31).collect()),
    };
    if plan.held == Held::Ledger {
        let (words, amounts) = (words.min(BOOK), amounts.min(SUMS));
        book[..words].copy_from_slice(&ledger().book[..words]);
        sums[..amounts].copy_from_slice(&ledger().sums[..amounts]);
    }
    (book, sums)
}

/// A row of words that its first number settles.
struct Garbage(u64);

impl Garbage {
    fn word(&mut self) -> u32 {
        self.0 = self.0.wrapping_mul(6_364_136_223_846_793_005).wrapping_add(1_442_695_040_888_963_407);
        (self.0 >> 32) as u32
    }
}
