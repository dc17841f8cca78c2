//! The numbers that the desk hands back.

/// "Every refusal returns its number alone, finishes nothing, leaves DC and all lent memory untouched."
///
/// 15 isn't here: it belongs to a lent finish list, and this engine's list grows as it needs. Of 13 the openings are here, and the events before one.
#[derive(Clone, Copy, Debug, PartialEq, Eq)]
pub enum Refusal {
    /// "delivery: partition set lacks our own, or names one beyond the number opened"
    PartitionSet = 1,
    /// "delivery: more than 8 keys read or more than 8 written"
    TooManyKeys = 2,
    /// "delivery or read: a key over 1,023; delivery: keys not strictly ascending"
    Keys = 3,
    /// "delivery: identity 0, or an identity now waiting"
    Identity = 4,
    /// "delivery or read: st > SC"
    AboveSc = 5,
    /// "delivery or read: st < floor"
    BelowFloor = 6,
    /// "delivery: 32 already waiting"
    FullList = 7,
    /// "delivery: DC is 4,000,000,000"
    LastDelivery = 8,
    /// "vote: identity not waiting"
    NotWaiting = 9,
    /// "vote: from our own partition, or one not involved"
    NotInvolved = 10,
    /// "vote: that partition has voted on it"
    HasVoted = 11,
    /// "change: k over 31"
    Threshold = 12,
    /// "opening: sizes outside the table [..]; program: event before opening, or a second opening"
    Opening = 13,
    /// "program: unreadable line"
    Unreadable = 14,
}

impl Refusal {
    pub fn number(self) -> u8 {
        self as u8
    }
}
