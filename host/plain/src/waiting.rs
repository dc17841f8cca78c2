//! An entry of the waiting list.

use second::{Few, Write};

/// A transaction that waits: what the delivery said of it, its rt, and the votes heard.
#[derive(Clone, Debug)]
pub struct Entry {
    pub identity: u32,
    pub rt: u32,
    /// "It is local when its only partition is the engine's own, otherwise global."
    pub global: bool,
    /// The partitions involved, one bit each.
    pub partitions: u8,
    /// "The votes outstanding are the involved partitions, less our own and less those heard", one bit each.
    pub outstanding: u8,
    /// Whether some vote was no.
    pub refused: bool,
    pub reads: Few<u16>,
    pub writes: Few<Write>,
}

impl Entry {
    /// "A local head is ready. A global head is ready when DC >= rt and no vote is outstanding."
    pub fn is_ready(&self, dc: u32) -> bool {
        !self.global || (dc >= self.rt && self.outstanding == 0)
    }
}
