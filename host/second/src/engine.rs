//! One engine for one partition: what each event does.

use crate::desk::{Delivery, Desk, Finish, Outcome, Reason};
use crate::few::Few;
use crate::refusal::Refusal;
use crate::sizes::{DELIVERIES, KEYS, KEYS_OF_ONE, PARTITIONS, THRESHOLD, WAITING};
use crate::store::Store;
use crate::waiting::{Entry, WaitingList};

/// "It takes events in log order and keeps a waiting list, a store with versions, a snapshot counter SC and a delivery counter DC."
#[derive(Clone, Debug)]
pub struct Engine {
    partitions: u8,
    own: u8,
    k: u16,
    dc: u32,
    waiting: WaitingList,
    store: Store,
}

impl Desk for Engine {
    fn open(partitions: u8, own: u8, k: u16) -> Result<Self, Refusal> {
        if partitions == 0 || partitions > PARTITIONS || own >= partitions || k > THRESHOLD {
            return Err(Refusal::Opening);
        }
        Ok(Engine { partitions, own, k, dc: 0, waiting: WaitingList::new(), store: Store::new() })
    }

    fn dc(&self) -> u32 {
        self.dc
    }

    fn sc(&self) -> u32 {
        self.store.sc()
    }

    fn deliver(&mut self, delivery: &Delivery, finishes: &mut Vec<Finish>) -> Result<Outcome, Refusal> {
        self.admit(delivery)?;
        self.dc += 1;
        let outcome = match self.certify(delivery) {
            Ok(place) => {
                self.waiting.insert(place, self.entry(delivery));
                Outcome::Waits { place }
            }
            Err(reason) => Outcome::Aborted { reason },
        };
        self.close(finishes);
        Ok(outcome)
    }

    fn vote(&mut self, identity: u32, partition: u8, yes: bool, finishes: &mut Vec<Finish>) -> Result<(), Refusal> {
        let own = self.own;
        let Some(entry) = self.waiting.entry(identity) else {
            return Err(Refusal::NotWaiting);
        };
        // A partition past the eighth has no bit, and is not involved.
        let bit = 1u8.checked_shl(partition.into()).unwrap_or(0);
        if partition == own || entry.partitions & bit == 0 {
            return Err(Refusal::NotInvolved);
        }
        if entry.outstanding & bit == 0 {
            return Err(Refusal::HasVoted);
        }
        entry.outstanding &= !bit;
        entry.refused |= !yes;
        self.close(finishes);
        Ok(())
    }

    fn change(&mut self, k: u16, finishes: &mut Vec<Finish>) -> Result<(), Refusal> {
        if k > THRESHOLD {
            return Err(Refusal::Threshold);
        }
        self.k = k;
        self.close(finishes);
        Ok(())
    }

    fn read(&self, key: u16, st: u32) -> Result<i64, Refusal> {
        if usize::from(key) >= KEYS {
            return Err(Refusal::Keys);
        }
        self.snapshot(st)?;
        Ok(self.store.read(key, st))
    }
}

impl Engine {
    /// "those of the event in rising order": 1 to 8.
    fn admit(&self, delivery: &Delivery) -> Result<(), Refusal> {
        let opened = u8::MAX >> (PARTITIONS - self.partitions);
        if delivery.partitions & self.own_bit() == 0 || delivery.partitions & !opened != 0 {
            return Err(Refusal::PartitionSet);
        }
        if delivery.reads.len() > KEYS_OF_ONE || delivery.writes.len() > KEYS_OF_ONE {
            return Err(Refusal::TooManyKeys);
        }
        let reads_in_order = in_order(delivery.reads.iter().copied());
        if !reads_in_order || !in_order(delivery.writes.iter().map(|write| write.key)) {
            return Err(Refusal::Keys);
        }
        if delivery.identity == 0 || self.waiting.holds(delivery.identity) {
            return Err(Refusal::Identity);
        }
        self.snapshot(delivery.st)?;
        if self.waiting.len() == WAITING {
            return Err(Refusal::FullList);
        }
        if self.dc == DELIVERIES {
            return Err(Refusal::LastDelivery);
        }
        Ok(())
    }

    /// "5: st > SC", then "6: st < floor"
    fn snapshot(&self, st: u32) -> Result<(), Refusal> {
        if st > self.store.sc() {
            return Err(Refusal::AboveSc);
        }
        if st < self.store.floor() {
            return Err(Refusal::BelowFloor);
        }
        Ok(())
    }

    /// The place that the newcomer takes, or the reason why it takes none. DC has risen for it.
    fn certify(&self, delivery: &Delivery) -> Result<usize, Reason> {
        let global = self.is_global(delivery);
        if self.clashes_with_a_commit(delivery, global) {
            return Err(Reason::Commit);
        }
        if !global {
            return self.waiting.place(self.dc, delivery.reads, delivery.writes).ok_or(Reason::NoPlace);
        }
        if self.clashes_with_a_waiting_entry(delivery) {
            return Err(Reason::WaitingEntry);
        }
        Ok(self.waiting.len())
    }

    /// "It is tested against each commit of version st+1 to SC. Clash: it read a key that the commit wrote; for a global one also, it writes a key that
    /// the commit read. Any clash: aborted, reason 1."
    fn clashes_with_a_commit(&self, delivery: &Delivery, global: bool) -> bool {
        delivery.reads.iter().any(|&key| self.store.wrote_after(delivery.st, key))
            || (global && delivery.writes.iter().any(|write| self.store.read_after(delivery.st, write.key)))
    }

    /// "A global one is tested in the same two ways against every waiting entry. Any clash: aborted, reason 2."
    fn clashes_with_a_waiting_entry(&self, delivery: &Delivery) -> bool {
        delivery.reads.iter().any(|&key| self.waiting.writes(key)) || delivery.writes.iter().any(|write| self.waiting.reads(write.key))
    }

    fn entry(&self, delivery: &Delivery) -> Entry {
        Entry {
            identity: delivery.identity,
            rt: self.dc + u32::from(self.k),
            global: self.is_global(delivery),
            partitions: delivery.partitions,
            outstanding: delivery.partitions & !self.own_bit(),
            refused: false,
            reads: Few::from(delivery.reads),
            writes: Few::from(delivery.writes),
        }
    }

    fn is_global(&self, delivery: &Delivery) -> bool {
        delivery.partitions != self.own_bit()
    }

    fn own_bit(&self) -> u8 {
        1 << self.own
    }

    /// "After every accepted delivery, vote or change, while the head of the list is ready it is taken off, and the next head is looked at. [..] A local
    /// head commits. A global head commits if every vote was yes, otherwise it aborts and writes nothing."
    fn close(&mut self, finishes: &mut Vec<Finish>) {
        while let Some(head) = self.waiting.head().filter(|head| head.ready(self.dc)) {
            let identity = head.identity;
            finishes.push(if head.refused {
                Finish::Aborted { identity }
            } else {
                Finish::Committed { identity, version: self.store.commit(&head.reads, &head.writes) }
            });
            self.waiting.drop_head();
        }
    }
}

/// "a key over 1,023; [..] keys not strictly ascending"
fn in_order(keys: impl Iterator<Item = u16>) -> bool {
    let mut next = 0; // the smallest key that may come
    for key in keys {
        if key < next || usize::from(key) >= KEYS {
            return false;
        }
        next = key + 1;
    }
    true
}

#[cfg(test)]
mod tests {
    use super::{Delivery, Desk, Engine, Outcome};
    use crate::refusal::Refusal;
    use crate::sizes::DELIVERIES;

    /// "8: delivery: DC is 4,000,000,000", from both sides.
    #[test]
    fn number_8() {
        let mut engine = Engine::open(1, 0, 31).expect("the sizes are in the table");
        engine.dc = DELIVERIES - 1;
        let delivery = Delivery { identity: 1, partitions: 1, st: 0, reads: &[], writes: &[] };
        let mut finishes = Vec::new();
        assert_eq!(engine.deliver(&delivery, &mut finishes), Ok(Outcome::Waits { place: 0 }));
        assert_eq!((engine.dc(), engine.sc(), finishes.len()), (DELIVERIES, 1, 1));
        assert_eq!(engine.deliver(&delivery, &mut finishes), Err(Refusal::LastDelivery));
        assert_eq!((engine.dc(), engine.sc(), finishes.len()), (DELIVERIES, 1, 1));
    }
}
