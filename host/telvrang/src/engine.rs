//! An engine with tables of its own.

use std::fmt::{self, Debug, Formatter};

use crate::answers::{Ballot, Reading};
use crate::delivery::{Delivery, Outcome, Sides};
use crate::finishes::Finishes;
use crate::lent;
use crate::refusal::Refusal;
use crate::sizes::{Sizes, FINISHES};
use crate::tables::Tables;

/// An engine for one partition, with memory of its own (some 24 KB); after opening it needs no more. "It takes events in log order and keeps a waiting
/// list, a store with versions, a snapshot counter SC and a delivery counter DC." A clone goes on from the same state. What an event finished is borrowed
/// from the engine until the next one.
///
/// Opening is refused by [`Refusal::Unusable`] alone, an event by 1 to 12 alone: the tables are long enough, and no one else writes to them.
///
/// To store an engine, or to go on from a stored one, keep the two tables yourself and use [`lent`]: a copy of them is a copy of the engine.
///
/// ```
/// use telvrang::{Ballot, Delivery, Engine, Fate, Finish, Refusal, Sizes};
///
/// fn main() -> Result<(), Refusal> {
///     let mut engine = Engine::open(Sizes { partitions: 2, own: 0, k: 1 })?;
///
///     let outcome = engine.deliver(&Delivery { identity: 10, set: 3, st: 0, reads: &[7], writes: &[(7, 500)] })?;
///     assert_eq!((outcome.dc, outcome.fate, outcome.send), (1, Fate::Waits { place: 0 }, Some(Ballot::Yes)));
///     assert_eq!(outcome.finishes.len(), 0);
///     assert_eq!((engine.sc(), engine.dc(), engine.k(), engine.waiting()), (0, 1, 1, 1));
///
///     for finish in engine.vote(10, 1, Ballot::Yes)? {
///         println!("{finish:?}"); // none yet: 10 waits for its threshold
///     }
///     let outcome = engine.deliver(&Delivery { identity: 11, set: 1, st: 0, reads: &[], writes: &[(8, -40)] })?;
///     assert!(outcome.finishes.eq([Finish::Committed { identity: 11, version: 1 }, Finish::Committed { identity: 10, version: 2 }]));
///     assert_eq!(engine.read_newest(7)?.value, 500);
///     Ok(())
/// }
/// ```
#[derive(Clone)]
pub struct Engine {
    tables: Tables,
    finishes: Box<[u32; FINISHES]>,
}

impl Engine {
    /// Opens an engine: so many partitions, our own one of them, the threshold k.
    ///
    /// ```
    /// use telvrang::{Engine, Refusal, Sizes};
    ///
    /// assert!(Engine::open(Sizes { partitions: 8, own: 7, k: 31 }).is_ok());
    /// assert_eq!(Engine::open(Sizes { partitions: 8, own: 8, k: 31 }).unwrap_err(), Refusal::Unusable);
    /// ```
    pub fn open(sizes: Sizes) -> Result<Engine, Refusal> {
        let mut tables = Tables::unopened();
        lent::open(sizes, &mut *tables.book, &mut *tables.sums)?;
        Ok(Engine::of(tables))
    }

    /// Of tables in which an engine was opened.
    pub(crate) fn of(tables: Tables) -> Engine {
        Engine { tables, finishes: Box::new([0; FINISHES]) }
    }

    /// "Delivery. DC rises by 1."
    ///
    /// ```
    /// use telvrang::{Delivery, Engine, Fate, Finish, Refusal, Sizes};
    ///
    /// let mut engine = Engine::open(Sizes { partitions: 2, own: 0, k: 1 })?;
    /// let local = Delivery { identity: 1, set: 1, st: 0, reads: &[3], writes: &[(3, -1), (4, 1)] };
    /// let outcome = engine.deliver(&local)?;
    /// assert_eq!((outcome.dc, outcome.fate, outcome.send), (1, Fate::Waits { place: 0 }, None));
    /// assert!(outcome.finishes.eq([Finish::Committed { identity: 1, version: 1 }]));
    /// assert_eq!(engine.deliver(&Delivery { identity: 0, ..local }), Err(Refusal::Identity));
    /// # Ok::<(), Refusal>(())
    /// ```
    pub fn deliver(&mut self, delivery: &Delivery<'_>) -> Result<Outcome<'_>, Refusal> {
        let sides = Sides::of(delivery.writes);
        let t = sides.transaction(delivery);
        let answer = lent::deliver(&t, &mut *self.tables.book, &mut *self.tables.sums, &mut *self.finishes)?;
        Ok(Outcome { dc: answer.dc, fate: answer.fate, send: answer.send, finishes: self.finished(answer.finishes) })
    }

    /// "Vote. Yes or no, from another partition of a waiting global transaction." What finished after it.
    ///
    /// ```
    /// use telvrang::{Ballot, Delivery, Engine, Finish, Refusal, Sizes};
    ///
    /// let mut engine = Engine::open(Sizes { partitions: 2, own: 0, k: 0 })?;
    /// engine.deliver(&Delivery { identity: 10, set: 3, st: 0, reads: &[], writes: &[(7, 500)] })?;
    /// assert!(engine.vote(10, 1, Ballot::No)?.eq([Finish::Aborted { identity: 10 }]));
    /// assert_eq!(engine.vote(10, 1, Ballot::No), Err(Refusal::NotWaiting));
    /// # Ok::<(), Refusal>(())
    /// ```
    pub fn vote(&mut self, identity: u32, partition: u32, ballot: Ballot) -> Result<Finishes<'_>, Refusal> {
        let count = lent::vote(identity, partition, ballot, &mut *self.tables.book, &mut *self.tables.sums, &mut *self.finishes)?;
        Ok(self.finished(count))
    }

    /// "Threshold change. The new k holds for later deliveries only." What finished after it.
    ///
    /// ```
    /// use telvrang::{Engine, Refusal, Sizes};
    ///
    /// let mut engine = Engine::open(Sizes { partitions: 2, own: 0, k: 1 })?;
    /// assert_eq!(engine.change(31)?.len(), 0);
    /// assert_eq!(engine.change(32), Err(Refusal::Threshold));
    /// assert_eq!(engine.k(), 31);
    /// # Ok::<(), Refusal>(())
    /// ```
    pub fn change(&mut self, k: u32) -> Result<Finishes<'_>, Refusal> {
        let count = lent::change(k, &mut *self.tables.book, &mut *self.tables.sums, &mut *self.finishes)?;
        Ok(self.finished(count))
    }

    /// "Read of a key at st: the value of the newest version that is at most st. It changes nothing."
    ///
    /// ```
    /// use telvrang::{Delivery, Engine, Reading, Refusal, Sizes};
    ///
    /// let mut engine = Engine::open(Sizes { partitions: 1, own: 0, k: 0 })?;
    /// engine.deliver(&Delivery { identity: 1, set: 1, st: 0, reads: &[], writes: &[(3, -1)] })?;
    /// assert_eq!(engine.read(3, 0), Ok(Reading { value: 0, version: 0 }));
    /// assert_eq!(engine.read(3, 1), Ok(Reading { value: -1, version: 1 }));
    /// assert_eq!(engine.read(3, 2), Err(Refusal::SnapshotAhead));
    /// # Ok::<(), Refusal>(())
    /// ```
    pub fn read(&self, key: u32, st: u32) -> Result<Reading, Refusal> {
        lent::read(key, Some(st), &*self.tables.book, &*self.tables.sums)
    }

    /// A read at SC.
    ///
    /// ```
    /// use telvrang::{Delivery, Engine, Reading, Refusal, Sizes};
    ///
    /// let mut engine = Engine::open(Sizes { partitions: 1, own: 0, k: 0 })?;
    /// engine.deliver(&Delivery { identity: 1, set: 1, st: 0, reads: &[], writes: &[(3, -1)] })?;
    /// assert_eq!(engine.read_newest(3), Ok(Reading { value: -1, version: 1 }));
    /// # Ok::<(), Refusal>(())
    /// ```
    pub fn read_newest(&self, key: u32) -> Result<Reading, Refusal> {
        lent::read(key, None, &*self.tables.book, &*self.tables.sums)
    }

    /// The snapshot counter SC, the version of the newest commit: a word of the book.
    pub fn sc(&self) -> u32 {
        self.tables.sc()
    }

    /// The delivery counter DC: a word of the book.
    pub fn dc(&self) -> u32 {
        self.tables.dc()
    }

    /// The threshold k in force: a word of the book.
    pub fn k(&self) -> u32 {
        self.tables.k()
    }

    /// How many wait: a word of the book.
    pub fn waiting(&self) -> u32 {
        self.tables.waiting()
    }

    /// The finish list is one for all events, so its entries are lent until the next.
    fn finished(&self, count: u32) -> Finishes<'_> {
        Finishes::of(&*self.finishes, count)
    }
}

#[cfg(test)]
impl Engine {
    /// Every word that it has.
    pub(crate) fn words(&self) -> (&[u32], &[i64], &[u32]) {
        (&*self.tables.book, &*self.tables.sums, &*self.finishes)
    }

    /// No log gets there.
    pub(crate) fn set_dc(&mut self, dc: u32) {
        self.tables.book[3] = dc;
    }
}

/// Its six counters, by their names.
impl Debug for Engine {
    fn fmt(&self, f: &mut Formatter<'_>) -> fmt::Result {
        f.debug_struct("Engine")
            .field("partitions", &self.tables.partitions())
            .field("own", &self.tables.own())
            .field("k", &self.k())
            .field("sc", &self.sc())
            .field("dc", &self.dc())
            .field("waiting", &self.waiting())
            .finish()
    }
}
