//! A transaction as it is lent.

/// "A transaction has an identity, a set of partitions (one bit each), a snapshot st, keys read, and writes (key and value)." Keys and amounts of its
/// writes come as two lists; of different lengths they are refused by [`Refusal::Unusable`](crate::Refusal::Unusable), as a table lent too short.
#[derive(Clone, Copy, Debug, PartialEq, Eq)]
pub struct Transaction<'a> {
    /// "1 to 4,294,967,295"
    pub identity: u32,
    /// Bit p for partition p.
    pub set: u32,
    /// The version at which it read.
    pub st: u32,
    /// The keys read, "0 to 8 [..], strictly ascending".
    pub reads: &'a [u32],
    /// The keys written, "0 to 8 [..], strictly ascending".
    pub keys: &'a [u32],
    /// A value for each key written.
    pub amounts: &'a [i64],
}
