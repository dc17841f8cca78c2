//! What is lent to a call, and what the library answers it, in the model's words.

use model::{Answer, Call, Delivery, Fate, Lent};
use telvrang::lent::{self, Ballot, Delivered, Fed, Reading, Refusal, Sizes, Standing, Transaction};
use telvrang::ANSWERS;

use crate::pages::{Neighbour, Pages};

pub struct Memory {
    pub neighbour: Neighbour,
    pub book: Pages<u32>,
    pub sums: Pages<i64>,
    pub finishes: Pages<u32>,
    reads: Pages<u32>,
    keys: Pages<u32>,
    amounts: Pages<i64>,
    line: Pages<u8>,
    out: Pages<u8>,
}

impl Memory {
    pub fn new() -> Self {
        Memory {
            neighbour: Neighbour::Upper,
            book: Pages::new(),
            sums: Pages::new(),
            finishes: Pages::new(),
            reads: Pages::new(),
            keys: Pages::new(),
            amounts: Pages::new(),
            line: Pages::new(),
            out: Pages::new(),
        }
    }

    pub fn hold(&mut self, lent: &Lent, neighbour: Neighbour) {
        self.neighbour = neighbour;
        self.book.hold(&lent.book, neighbour);
        self.sums.hold(&lent.sums, neighbour);
        self.finishes.hold(&lent.finishes, neighbour);
    }

    pub fn copy(&self) -> Lent {
        Lent { book: self.book.row().to_vec(), sums: self.sums.row().to_vec(), finishes: self.finishes.row().to_vec() }
    }

    pub fn patterns_stand(&self) -> bool {
        self.book.pattern_stands() && self.sums.pattern_stands() && self.finishes.pattern_stands() && self.out.pattern_stands()
    }

    pub fn answer(&mut self, call: &Call) -> Answer {
        let answer = match call {
            Call::Open { partitions, own, k } => self.open(Sizes { partitions: *partitions, own: *own, k: *k }),
            Call::Deliver(delivery) => self.deliver(delivery),
            Call::Vote { identity, partition, yes } => self.vote(*identity, *partition, if *yes { Ballot::Yes } else { Ballot::No }),
            Call::Change { k } => self.change(*k),
            Call::Read { key, st } => self.read(*key, *st),
        };
        answer.unwrap_or_else(|refusal| Answer::Refused(refusal.number()))
    }

    /// The call as the last line of a log, with just the room that one event may need for its answers.
    pub fn answer_line(&mut self, line: &str, opened: bool) -> (Fed, Vec<u8>) {
        self.line.hold(line.as_bytes(), self.neighbour);
        self.out.hold(&[0; ANSWERS], self.neighbour);
        let standing = Standing { opened, skipping: false };
        let fed = lent::feed(self.line.row(), true, standing, self.book.lend(), self.sums.lend(), self.out.lend());
        (fed, self.out.row()[..fed.wrote.min(ANSWERS)].to_vec())
    }

    fn open(&mut self, sizes: Sizes) -> Result<Answer, Refusal> {
        lent::open(sizes, self.book.lend(), self.sums.lend()).map(|()| Answer::Opened)
    }

    fn deliver(&mut self, delivery: &Delivery) -> Result<Answer, Refusal> {
        let Delivery { identity, set, st, reads, keys, amounts } = delivery;
        self.reads.hold(reads, self.neighbour);
        self.keys.hold(keys, self.neighbour);
        self.amounts.hold(amounts, self.neighbour);
        let (reads, keys, amounts) = (self.reads.row(), self.keys.row(), self.amounts.row());
        let transaction = Transaction { identity: *identity, set: *set, st: *st, reads, keys, amounts };
        let Delivered { dc, fate, send, finishes } = lent::deliver(&transaction, self.book.lend(), self.sums.lend(), self.finishes.lend())?;
        let fate = match fate {
            lent::Fate::Waits { place } => Fate::Waits { place },
            lent::Fate::Aborted { reason } => Fate::Aborted { reason: reason.number() },
        };
        Ok(Answer::Delivered { dc, fate, send: send.map(|ballot| ballot == Ballot::Yes), finishes })
    }

    fn vote(&mut self, identity: u32, partition: u32, ballot: Ballot) -> Result<Answer, Refusal> {
        let finishes = lent::vote(identity, partition, ballot, self.book.lend(), self.sums.lend(), self.finishes.lend())?;
        Ok(Answer::Settled { finishes })
    }

    fn change(&mut self, k: u32) -> Result<Answer, Refusal> {
        let finishes = lent::change(k, self.book.lend(), self.sums.lend(), self.finishes.lend())?;
        Ok(Answer::Settled { finishes })
    }

    fn read(&self, key: u32, st: Option<u32>) -> Result<Answer, Refusal> {
        let Reading { value, version } = lent::read(key, st, self.book.row(), self.sums.row())?;
        Ok(Answer::Value { value, version })
    }
}
