//! The ledger's sizes, and the limits of a line and of its fields.

/// "Partitions: 1 to 8, numbered from 0"
pub const PARTITIONS: u8 = 8;
/// "Keys: 0 to 1,023", so this is how many there are
pub const KEYS: usize = 1_024;
/// "Keys read, keys written: 0 to 8 each, strictly ascending"
pub const KEYS_OF_ONE: usize = 8;
/// "Waiting list: up to 32"
pub const WAITING: usize = 32;
/// "Threshold k: 0 to 31"
pub const THRESHOLD: u16 = 31;
/// "Kept commits: the newest 64"
pub const KEPT: u32 = 64;
/// "DC: up to 4,000,000,000", so that DC + k still fits 32 bits
pub const DELIVERIES: u32 = 4_000_000_000;

/// "A line over 512 bytes without its newline (skipped whole) [..] is 14"
pub const LINE: usize = 512;
/// How much is asked of the input at once.
pub const READ: usize = 64 * 1_024;
