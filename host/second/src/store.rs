//! The store with versions: what each key holds at every version from the floor to SC, and who read and wrote it last.

use crate::few::Few;
use crate::sizes::{KEPT, KEYS};

/// "writes (key and value)"
#[derive(Clone, Copy, Debug, Default, PartialEq, Eq)]
pub struct Write {
    pub key: u16,
    pub value: i64,
}

/// One write of a kept commit.
#[derive(Clone, Copy, Debug, Default)]
struct Kept {
    value: i64,
    /// The version that wrote the key before, or 0.
    before: u32,
    key: u16,
}

/// "Keys: 0 to 1,023, all holding 0 at opening, version 0"
#[derive(Clone, Copy, Debug, Default)]
struct Key {
    at_floor: i64,
    /// The newest version that wrote the key, or 0.
    written: u32,
    /// The newest version whose transaction read the key, or 0.
    read: u32,
}

#[derive(Clone, Debug)]
pub struct Store {
    sc: u32,
    keys: Vec<Key>,
    /// "Kept commits: the newest 64": the writes of version v stand at v % 64. Their reads are kept in `Key::read`.
    kept: Vec<Few<Kept>>,
}

impl Store {
    pub fn new() -> Self {
        Store { sc: 0, keys: vec![Key::default(); KEYS], kept: vec![Few::default(); KEPT as usize] }
    }

    pub fn sc(&self) -> u32 {
        self.sc
    }

    /// "floor = SC - 64, or 0 if SC is smaller"
    pub fn floor(&self) -> u32 {
        self.sc.saturating_sub(KEPT)
    }

    /// "tested against each commit of version st+1 to SC. Clash: it read a key that the commit wrote"
    ///
    /// Some such commit wrote the key exactly if the newest that did is later than st.
    pub fn wrote_after(&self, st: u32, key: u16) -> bool {
        self.keys[usize::from(key)].written > st
    }

    /// "for a global one also, it writes a key that the commit read"
    pub fn read_after(&self, st: u32, key: u16) -> bool {
        self.keys[usize::from(key)].read > st
    }

    /// "A commit raises SC by 1, and that is its version. The commit's reads and writes are kept; one older than the newest 64 is folded into the
    /// values at the floor."
    pub fn commit(&mut self, reads: &[u16], writes: &[Write]) -> u32 {
        self.sc += 1;
        let version = self.sc;
        let kept = &mut self.kept[(version % KEPT) as usize];
        for old in kept.iter() {
            self.keys[usize::from(old.key)].at_floor = old.value;
        }
        kept.clear();
        for &Write { key, value } in writes {
            let before = std::mem::replace(&mut self.keys[usize::from(key)].written, version);
            kept.push(Kept { value, before, key });
        }
        for &key in reads {
            self.keys[usize::from(key)].read = version;
        }
        version
    }

    /// "Read of a key at st: the value of the newest version that is at most st. It changes nothing."
    ///
    /// St is from the floor to SC. From the newest version that wrote the key we go back to the one that wrote it before, until one is at most st;
    /// what is at the floor or older has been folded.
    pub fn read(&self, key: u16, st: u32) -> i64 {
        let floor = self.floor();
        let mut version = self.keys[usize::from(key)].written;
        while version > floor {
            let write = self.kept_write(version, key);
            if version <= st {
                return write.value;
            }
            version = write.before;
        }
        self.keys[usize::from(key)].at_floor
    }

    fn kept_write(&self, version: u32, key: u16) -> &Kept {
        let mut writes = self.kept[(version % KEPT) as usize].iter();
        writes.find(|write| write.key == key).expect("a version that wrote the key holds its write")
    }
}
