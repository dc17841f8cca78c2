//! One engine for one partition: what each event does.

use std::collections::VecDeque;

use second::sizes::{DELIVERIES, KEYS, KEYS_OF_ONE, PARTITIONS, THRESHOLD, WAITING};
use second::{Delivery, Desk, Few, Finish, Outcome, Reason, Refusal, Write};

use crate::store::{meet, Commit, Store};
use crate::waiting::Entry;

#[derive(Clone, Debug)]
pub struct Engine {
    partitions: u8,
    own: u8,
    k: u16,
    dc: u32,
    waiting: VecDeque<Entry>,
    store: Store,
}

impl Desk for Engine {
    fn open(partitions: u8, own: u8, k: u16) -> Result<Self, Refusal> {
        if !(1..=PARTITIONS).contains(&partitions) || own >= partitions || k > THRESHOLD {
            return Err(Refusal::Opening);
        }
        Ok(Engine { partitions, own, k, dc: 0, waiting: VecDeque::with_capacity(WAITING), store: Store::new() })
    }

    fn dc(&self) -> u32 {
        self.dc
    }

    fn sc(&self) -> u32 {
        self.store.sc()
    }

    fn deliver(&mut self, delivery: &Delivery, finishes: &mut Vec<Finish>) -> Result<Outcome, Refusal> {
        self.check_delivery(delivery)?;
        self.dc += 1;
        let outcome = match self.certify(delivery) {
            Ok(place) => {
                self.waiting.insert(place, self.entry(delivery));
                Outcome::Waits { place }
            }
            Err(reason) => Outcome::Aborted { reason },
        };
        self.close(finishes);
        Ok(outcome)
    }

    fn vote(&mut self, identity: u32, partition: u8, yes: bool, finishes: &mut Vec<Finish>) -> Result<(), Refusal> {
        let entry = self.waiting.iter_mut().find(|entry| entry.identity == identity).ok_or(Refusal::NotWaiting)?;
        let voter = bit(partition);
        if partition == self.own || entry.partitions & voter == 0 {
            return Err(Refusal::NotInvolved);
        }
        if entry.outstanding & voter == 0 {
            return Err(Refusal::HasVoted);
        }
        entry.outstanding -= voter;
        entry.refused |= !yes;
        self.close(finishes);
        Ok(())
    }

    fn change(&mut self, k: u16, finishes: &mut Vec<Finish>) -> Result<(), Refusal> {
        if k > THRESHOLD {
            return Err(Refusal::Threshold);
        }
        self.k = k;
        self.close(finishes);
        Ok(())
    }

    fn read(&self, key: u16, st: u32) -> Result<i64, Refusal> {
        if usize::from(key) >= KEYS {
            return Err(Refusal::Keys);
        }
        self.check_snapshot(st)?;
        Ok(self.store.read(key, st))
    }
}

impl Engine {
    /// "those of the event in rising order": 1 to 8.
    fn check_delivery(&self, delivery: &Delivery) -> Result<(), Refusal> {
        let beyond = (self.partitions..PARTITIONS).any(|partition| delivery.partitions & bit(partition) != 0);
        if delivery.partitions & bit(self.own) == 0 || beyond {
            return Err(Refusal::PartitionSet);
        }
        if delivery.reads.len() > KEYS_OF_ONE || delivery.writes.len() > KEYS_OF_ONE {
            return Err(Refusal::TooManyKeys);
        }
        let ascending = delivery.reads.is_sorted_by(|one, next| one < next) && delivery.writes.is_sorted_by(|one, next| one.key < next.key);
        let mut keys = delivery.reads.iter().copied().chain(delivery.writes.iter().map(|write| write.key));
        if !ascending || keys.any(|key| usize::from(key) >= KEYS) {
            return Err(Refusal::Keys);
        }
        if delivery.identity == 0 || self.waiting.iter().any(|entry| entry.identity == delivery.identity) {
            return Err(Refusal::Identity);
        }
        self.check_snapshot(delivery.st)?;
        if self.waiting.len() == WAITING {
            return Err(Refusal::FullList);
        }
        if self.dc == DELIVERIES {
            return Err(Refusal::LastDelivery);
        }
        Ok(())
    }

    /// "5: st > SC", then "6: st < floor"
    fn check_snapshot(&self, st: u32) -> Result<(), Refusal> {
        if st > self.store.sc() {
            return Err(Refusal::AboveSc);
        }
        if st < self.store.floor() {
            return Err(Refusal::BelowFloor);
        }
        Ok(())
    }

    /// The place that the newcomer takes, or the reason why it takes none. DC has risen for it.
    fn certify(&self, newcomer: &Delivery) -> Result<usize, Reason> {
        let global = self.is_global(newcomer);
        // "Clash: it read a key that the commit wrote; for a global one also, it writes a key that the commit read."
        let clashes = |reads: &[u16], writes: &[Write]| meet(newcomer.reads, writes) || (global && meet(reads, newcomer.writes));
        // "It is tested against each commit of version st+1 to SC. [..] Any clash: aborted, reason 1."
        if self.store.commits_after(newcomer.st).any(|commit| clashes(&commit.reads, &commit.writes)) {
            return Err(Reason::Commit);
        }
        if !global {
            return self.place(newcomer).ok_or(Reason::NoPlace);
        }
        // "A global one is tested in the same two ways against every waiting entry. Any clash: aborted, reason 2. Else it joins at the end."
        if self.waiting.iter().any(|entry| clashes(&entry.reads, &entry.writes)) {
            return Err(Reason::WaitingEntry);
        }
        Ok(self.waiting.len())
    }

    /// "the smallest place i, from 0 to the list's length, such that no entry before i writes a key it reads, and every entry from i on is global, has
    /// DC <= rt, and has read no key that it writes"
    ///
    /// From the last entry that may not be passed on, every place would do for the second half, and the first half only forbids more the later it is.
    fn place(&self, newcomer: &Delivery) -> Option<usize> {
        let may_be_passed = |entry: &Entry| entry.global && self.dc <= entry.rt && !meet(&entry.reads, newcomer.writes);
        let place = self.waiting.iter().rposition(|entry| !may_be_passed(entry)).map_or(0, |last| last + 1);
        let blocked = self.waiting.range(..place).any(|entry| meet(newcomer.reads, &entry.writes));
        (!blocked).then_some(place)
    }

    fn entry(&self, delivery: &Delivery) -> Entry {
        Entry {
            identity: delivery.identity,
            rt: self.dc + u32::from(self.k),
            global: self.is_global(delivery),
            partitions: delivery.partitions,
            outstanding: delivery.partitions & !bit(self.own),
            refused: false,
            reads: Few::from(delivery.reads),
            writes: Few::from(delivery.writes),
        }
    }

    fn is_global(&self, delivery: &Delivery) -> bool {
        delivery.partitions != bit(self.own)
    }

    /// "After every accepted delivery, vote or change, while the head of the list is ready it is taken off, and the next head is looked at. [..] A local
    /// head commits. A global head commits if every vote was yes, otherwise it aborts and writes nothing."
    fn close(&mut self, finishes: &mut Vec<Finish>) {
        while self.waiting.front().is_some_and(|head| head.is_ready(self.dc)) {
            let Some(Entry { identity, refused, reads, writes, .. }) = self.waiting.pop_front() else { return };
            finishes.push(if refused {
                Finish::Aborted { identity }
            } else {
                Finish::Committed { identity, version: self.store.commit(Commit { reads, writes }) }
            });
        }
    }
}

/// "one bit each": none for a partition past the eighth.
fn bit(partition: u8) -> u8 {
    1u8.checked_shl(partition.into()).unwrap_or(0)
}

#[cfg(test)]
mod tests {
    use second::sizes::DELIVERIES;
    use second::{Delivery, Desk, Outcome, Refusal};

    use super::Engine;

    /// "8: delivery: DC is 4,000,000,000", from both sides: no log comes so far.
    #[test]
    fn number_8() {
        let mut engine = Engine::open(1, 0, 31).expect("the sizes are in the table");
        engine.dc = DELIVERIES - 1;
        let delivery = Delivery { identity: 1, partitions: 1, st: 0, reads: &[], writes: &[] };
        let mut finishes = Vec::new();
        assert_eq!(engine.deliver(&delivery, &mut finishes), Ok(Outcome::Waits { place: 0 }));
        assert_eq!((engine.dc(), engine.sc(), finishes.len()), (DELIVERIES, 1, 1));
        assert_eq!(engine.deliver(&delivery, &mut finishes), Err(Refusal::LastDelivery));
        assert_eq!((engine.dc(), engine.sc(), finishes.len()), (DELIVERIES, 1, 1));
    }
}
