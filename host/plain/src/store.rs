//! The store with versions: the kept commits, the oldest first, and the values below them.

use std::collections::VecDeque;

use second::sizes::{KEPT, KEYS};
use second::{Few, Write};

/// "The commit's reads and writes are kept."
#[derive(Clone, Debug)]
pub struct Commit {
    pub reads: Few<u16>,
    pub writes: Few<Write>,
}

impl Commit {
    /// What it wrote to the key, if it did.
    fn written(&self, key: u16) -> Option<i64> {
        let found = self.writes.binary_search_by_key(&key, |write| write.key);
        found.ok().map(|place| self.writes[place].value)
    }
}

#[derive(Clone, Debug)]
pub struct Store {
    sc: u32,
    at_floor: Vec<i64>,
    /// "Kept commits: the newest 64": the versions after the floor, up to SC.
    kept: VecDeque<Commit>,
}

impl Store {
    pub fn new() -> Self {
        Store { sc: 0, at_floor: vec![0; KEYS], kept: VecDeque::with_capacity(KEPT as usize) }
    }

    pub fn sc(&self) -> u32 {
        self.sc
    }

    /// "floor = SC - 64, or 0 if SC is smaller"
    pub fn floor(&self) -> u32 {
        self.sc.saturating_sub(KEPT)
    }

    /// "each commit of version st+1 to SC". St is from the floor to SC, here and in `read`.
    pub fn commits_after(&self, st: u32) -> impl Iterator<Item = &Commit> {
        self.kept.range(self.kept_up_to(st)..)
    }

    /// "A commit raises SC by 1, and that is its version. The commit's reads and writes are kept; one older than the newest 64 is folded into the
    /// values at the floor."
    pub fn commit(&mut self, commit: Commit) -> u32 {
        if self.kept.len() == KEPT as usize {
            self.fold_oldest();
        }
        self.kept.push_back(commit);
        self.sc += 1;
        self.sc
    }

    fn fold_oldest(&mut self) {
        let Some(oldest) = self.kept.pop_front() else { return };
        for write in oldest.writes.iter() {
            self.at_floor[usize::from(write.key)] = write.value;
        }
    }

    /// "Read of a key at st: the value of the newest version that is at most st."
    pub fn read(&self, key: u16, st: u32) -> i64 {
        let mut newest_first = self.kept.range(..self.kept_up_to(st)).rev();
        newest_first.find_map(|commit| commit.written(key)).unwrap_or(self.at_floor[usize::from(key)])
    }

    fn kept_up_to(&self, st: u32) -> usize {
        (st - self.floor()) as usize
    }
}

/// Whether one of the keys read is one of those written: two ascending lists, merged.
///
/// Two plain tests a step, since one `match` on the order of the two takes much longer where keys lie by chance.
pub fn meet(reads: &[u16], writes: &[Write]) -> bool {
    let (mut next_read, mut next_write) = (0, 0);
    while next_read < reads.len() && next_write < writes.len() {
        let (read, written) = (reads[next_read], writes[next_write].key);
        if read == written {
            return true;
        }
        if read < written {
            next_read += 1;
        } else {
            next_write += 1;
        }
    }
    false
}
