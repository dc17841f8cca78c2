//! Two ledgers for the same events: an engine with tables of its own, and lent tables that are longer than they need be.

use telvrang::lent::{self, Transaction};
use telvrang::{Ballot, Delivery, Engine, Fate, Finish, Finishes, Reading, Refusal, Sizes, BOOK, FINISHES, SUMS};

/// The answer to a delivery that is taken.
#[derive(Clone, Debug, PartialEq, Eq)]
pub struct Told {
    pub dc: u32,
    pub fate: Fate,
    pub send: Option<Ballot>,
    pub finishes: Vec<Finish>,
}

pub trait Ledger {
    fn deliver(&mut self, delivery: &Delivery) -> Result<Told, Refusal>;
    fn vote(&mut self, identity: u32, partition: u32, ballot: Ballot) -> Result<Vec<Finish>, Refusal>;
    fn change(&mut self, k: u32) -> Result<Vec<Finish>, Refusal>;
    fn read(&self, key: u32, st: Option<u32>) -> Result<Reading, Refusal>;
    /// Partitions, own, SC, DC, k, how many wait.
    fn counters(&self) -> [u32; 6];
}

/// How a ledger is opened.
pub type Opening = fn(Sizes) -> Result<Box<dyn Ledger>, Refusal>;

pub const OPENINGS: [Opening; 2] = [|sizes| Ok(Box::new(Owned { engine: Engine::open(sizes)?, sizes })), |sizes| Ok(Box::new(Lent::open(sizes)?))];

/// Both ledgers, opened alike.
pub fn both(sizes: Sizes) -> [Box<dyn Ledger>; 2] {
    OPENINGS.map(|open| open(sizes).expect("the sizes are in the table"))
}

struct Owned {
    engine: Engine,
    sizes: Sizes,
}

impl Ledger for Owned {
    fn deliver(&mut self, delivery: &Delivery) -> Result<Told, Refusal> {
        let outcome = self.engine.deliver(delivery)?;
        Ok(Told { dc: outcome.dc, fate: outcome.fate, send: outcome.send, finishes: outcome.finishes.collect() })
    }

    fn vote(&mut self, identity: u32, partition: u32, ballot: Ballot) -> Result<Vec<Finish>, Refusal> {
        self.engine.vote(identity, partition, ballot).map(Iterator::collect)
    }

    fn change(&mut self, k: u32) -> Result<Vec<Finish>, Refusal> {
        self.engine.change(k).map(Iterator::collect)
    }

    fn read(&self, key: u32, st: Option<u32>) -> Result<Reading, Refusal> {
        match st {
            Some(st) => self.engine.read(key, st),
            None => self.engine.read_newest(key),
        }
    }

    fn counters(&self) -> [u32; 6] {
        [self.sizes.partitions, self.sizes.own, self.engine.sc(), self.engine.dc(), self.engine.k(), self.engine.waiting()]
    }
}

/// Lent tables with some words behind them, "its excess never touched".
#[derive(Clone, PartialEq, Eq)]
pub struct Lent {
    pub book: Vec<u32>,
    pub sums: Vec<i64>,
    pub list: Vec<u32>,
}

impl Lent {
    /// Every word holds something.
    pub fn garbage() -> Self {
        Lent { book: vec![7; BOOK + 2], sums: vec![-7; SUMS + 2], list: vec![7; FINISHES + 4] }
    }

    pub fn open(sizes: Sizes) -> Result<Self, Refusal> {
        let mut tables = Lent::garbage();
        tables.change_lent(|book, sums, _| lent::open(sizes, book, sums))?;
        Ok(tables)
    }

    /// A refusal must leave every word as it was; whatever is answered, what stands behind the tables and behind the list.
    pub fn change_lent<T>(&mut self, operation: impl FnOnce(&mut [u32], &mut [i64], &mut [u32]) -> Result<T, Refusal>) -> Result<T, Refusal> {
        let before = self.clone();
        let answer = operation(&mut self.book, &mut self.sums, &mut self.list);
        assert!(answer.is_ok() || *self == before, "a refusal changed what was lent");
        assert_eq!(self.book[BOOK..], before.book[BOOK..]);
        assert_eq!(self.sums[SUMS..], before.sums[SUMS..]);
        assert_eq!(self.list[FINISHES..], before.list[FINISHES..]);
        answer
    }

    /// The finishes that were told; the entries past their number must have what they had.
    fn finishes(&mut self, operation: impl FnOnce(&mut [u32], &mut [i64], &mut [u32]) -> Result<u32, Refusal>) -> Result<Vec<Finish>, Refusal> {
        let before = self.list.clone();
        let count = self.change_lent(operation)?;
        let words = 2 * count as usize;
        assert_eq!(self.list[words..], before[words..]);
        Ok(Finishes::of(&self.list, count).collect())
    }
}

impl Ledger for Lent {
    fn deliver(&mut self, delivery: &Delivery) -> Result<Told, Refusal> {
        let (keys, amounts): (Vec<u32>, Vec<i64>) = delivery.writes.iter().copied().unzip();
        let t = Transaction { identity: delivery.identity, set: delivery.set, st: delivery.st, reads: delivery.reads, keys: &keys, amounts: &amounts };
        let mut told = None;
        let finishes = self.finishes(|book, sums, list| {
            let delivered = lent::deliver(&t, book, sums, list)?;
            told = Some(delivered);
            Ok(delivered.finishes)
        })?;
        let delivered = told.expect("what isn't refused is told");
        Ok(Told { dc: delivered.dc, fate: delivered.fate, send: delivered.send, finishes })
    }

    fn vote(&mut self, identity: u32, partition: u32, ballot: Ballot) -> Result<Vec<Finish>, Refusal> {
        self.finishes(|book, sums, list| lent::vote(identity, partition, ballot, book, sums, list))
    }

    fn change(&mut self, k: u32) -> Result<Vec<Finish>, Refusal> {
        self.finishes(|book, sums, list| lent::change(k, book, sums, list))
    }

    fn read(&self, key: u32, st: Option<u32>) -> Result<Reading, Refusal> {
        lent::read(key, st, &self.book, &self.sums)
    }

    fn counters(&self) -> [u32; 6] {
        std::array::from_fn(|i| self.book[i])
    }
}
