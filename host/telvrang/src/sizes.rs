//! How long the lent tables are, and what an engine is opened with.

/// Words of a book: six counters, 32 waiting rows, 64 kept rows. A shorter one is refused by [`Refusal::Unusable`](crate::Refusal::Unusable).
pub const BOOK: usize = 2310;

/// Amounts of its sums: 1,024 values at the floor, 8 for each waiting row, 8 for each kept row.
pub const SUMS: usize = 1792;

/// Words of a finish list: 32 entries of two words. A shorter one is refused by [`Refusal::LittleRoom`](crate::Refusal::LittleRoom).
pub const FINISHES: usize = 64;

/// Bytes: room for the answers of any one event, so the least buffer with which [`feed`](crate::lent::feed) always goes on.
pub const ANSWERS: usize = 1024;

/// What an engine is opened with.
#[derive(Clone, Copy, Debug, PartialEq, Eq)]
pub struct Sizes {
    /// "1 to 8, numbered from 0"
    pub partitions: u32,
    /// "the engine has one of its own"
    pub own: u32,
    /// "Threshold k: 0 to 31"
    pub k: u32,
}
