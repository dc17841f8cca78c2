//! The library's operations, each as a call of the model.

use model::{Answer, Call, Delivery, Fate, Lent};
use telvrang::lent::{self, Ballot, Refusal, Sizes, Transaction};

/// What answers a call on what is lent: the library, or in the tests a model with a slip.
pub type Library<'a> = &'a dyn Fn(&Call, &mut Lent) -> Answer;

pub fn by_library(call: &Call, lent: &mut Lent) -> Answer {
    let Lent { book, sums, finishes } = lent;
    let answer = match call {
        Call::Open { partitions, own, k } => {
            let sizes = Sizes { partitions: *partitions, own: *own, k: *k };
            lent::open(sizes, book, sums).map(|()| Answer::Opened)
        }
        Call::Deliver(delivery) => deliver(delivery, book, sums, finishes),
        Call::Vote { identity, partition, yes } => {
            let ballot = if *yes { Ballot::Yes } else { Ballot::No };
            lent::vote(*identity, *partition, ballot, book, sums, finishes).map(|finishes| Answer::Settled { finishes })
        }
        Call::Change { k } => lent::change(*k, book, sums, finishes).map(|finishes| Answer::Settled { finishes }),
        Call::Read { key, st } => lent::read(*key, *st, book, sums).map(|reading| Answer::Value { value: reading.value, version: reading.version }),
    };
    answer.unwrap_or_else(|refusal| Answer::Refused(refusal.number()))
}

fn deliver(delivery: &Delivery, book: &mut [u32], sums: &mut [i64], finishes: &mut [u32]) -> Result<Answer, Refusal> {
    let Delivery { identity, set, st, reads, keys, amounts } = delivery;
    let transaction = Transaction { identity: *identity, set: *set, st: *st, reads, keys, amounts };
    let answer = lent::deliver(&transaction, book, sums, finishes)?;
    let fate = match answer.fate {
        lent::Fate::Waits { place } => Fate::Waits { place },
        lent::Fate::Aborted { reason } => Fate::Aborted { reason: reason as u32 },
    };
    let send = answer.send.map(|ballot| ballot == Ballot::Yes);
    Ok(Answer::Delivered { dc: answer.dc, fate, send, finishes: answer.finishes })
}
