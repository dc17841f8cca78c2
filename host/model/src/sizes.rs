//! "The ledger's sizes", and the bounds that the soundness sentence draws from them.

/// "Partitions: 1 to 8, numbered from 0"
pub const PARTITIONS: u32 = 8;
/// "Keys: 0 to 1,023", so this is how many there are
pub const KEYS: u32 = 1_024;
/// "Keys read, keys written: 0 to 8 each, strictly ascending"
pub const KEYS_OF_ONE: usize = 8;
/// "Waiting list: up to 32"
pub const WAITING: usize = 32;
/// "Threshold k: 0 to 31"
pub const THRESHOLD: u32 = 31;
/// "Kept commits: the newest 64"
pub const KEPT: u32 = 64;
/// "DC: up to 4,000,000,000"
pub const DELIVERIES: u32 = 4_000_000_000;
/// "the lent finish list holds fewer than 32 entries"
pub const FINISHES: usize = 32;
