//! The waiting list, with a count for each key of the entries that read it and write it.

use std::collections::VecDeque;

use crate::few::Few;
use crate::sizes::{KEYS, WAITING};
use crate::store::Write;

/// A transaction that waits: what the delivery said of it, its rt, and the votes heard.
#[derive(Clone, Debug)]
pub struct Entry {
    pub identity: u32,
    pub rt: u32,
    /// "It is local when its only partition is the engine's own, otherwise global."
    pub global: bool,
    /// The partitions involved, one bit each.
    pub partitions: u8,
    /// The involved partitions, less our own and less those heard, one bit each.
    pub outstanding: u8,
    /// Whether some vote was no.
    pub refused: bool,
    pub reads: Few<u16>,
    pub writes: Few<Write>,
}

impl Entry {
    /// "A local head is ready. A global head is ready when DC >= rt and no vote is outstanding."
    pub fn ready(&self, dc: u32) -> bool {
        !self.global || (dc >= self.rt && self.outstanding == 0)
    }

    pub fn reads_one_of(&self, writes: &[Write]) -> bool {
        writes.iter().any(|write| self.reads.contains(&write.key))
    }

    pub fn writes_one_of(&self, reads: &[u16]) -> bool {
        self.writes.iter().any(|write| reads.contains(&write.key))
    }
}

/// How many entries read a key, and how many write it.
#[derive(Clone, Copy, Debug, Default)]
struct Use {
    reading: u8,
    writing: u8,
}

#[derive(Clone, Debug)]
pub struct WaitingList {
    entries: VecDeque<Entry>,
    uses: Vec<Use>,
}

impl WaitingList {
    pub fn new() -> Self {
        WaitingList { entries: VecDeque::with_capacity(WAITING), uses: vec![Use::default(); KEYS] }
    }

    pub fn len(&self) -> usize {
        self.entries.len()
    }

    pub fn holds(&self, identity: u32) -> bool {
        self.entries.iter().any(|entry| entry.identity == identity)
    }

    pub fn entry(&mut self, identity: u32) -> Option<&mut Entry> {
        self.entries.iter_mut().find(|entry| entry.identity == identity)
    }

    pub fn head(&self) -> Option<&Entry> {
        self.entries.front()
    }

    /// Whether a waiting entry writes the key.
    pub fn writes(&self, key: u16) -> bool {
        self.uses[usize::from(key)].writing > 0
    }

    /// Whether a waiting entry has read the key.
    pub fn reads(&self, key: u16) -> bool {
        self.uses[usize::from(key)].reading > 0
    }

    /// "the smallest place i, from 0 to the list's length, such that no entry before i writes a key it reads, and every entry from i on is global, has
    /// DC <= rt, and has read no key that it writes"
    ///
    /// The second half holds from just behind the last entry that may not be passed; a place behind that one has only more entries before it.
    pub fn place(&self, dc: u32, reads: &[u16], writes: &[Write]) -> Option<usize> {
        let may_be_passed = |entry: &Entry| entry.global && dc <= entry.rt && !entry.reads_one_of(writes);
        let place = self.entries.iter().rposition(|entry| !may_be_passed(entry)).map_or(0, |last| last + 1);
        let stale = self.entries.iter().take(place).any(|entry| entry.writes_one_of(reads));
        (!stale).then_some(place)
    }

    pub fn insert(&mut self, place: usize, entry: Entry) {
        for &key in entry.reads.iter() {
            self.uses[usize::from(key)].reading += 1;
        }
        for write in entry.writes.iter() {
            self.uses[usize::from(write.key)].writing += 1;
        }
        self.entries.insert(place, entry);
    }

    /// Takes the head off.
    pub fn drop_head(&mut self) {
        let Some(entry) = self.entries.front() else { return };
        for &key in entry.reads.iter() {
            self.uses[usize::from(key)].reading -= 1;
        }
        for write in entry.writes.iter() {
            self.uses[usize::from(write.key)].writing -= 1;
        }
        self.entries.pop_front();
    }
}
