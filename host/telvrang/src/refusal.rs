//! The numbers that the desk hands back.

use std::error::Error;
use std::fmt::{self, Display, Formatter};

/// Why an operation was refused. "Every refusal returns its number alone, finishes nothing, leaves DC and all lent memory untouched, and is given only
/// when its condition holds and no earlier check applies." The order is 14, 15, 13, and then the rising one.
///
/// ```
/// use telvrang::{Engine, Refusal, Sizes};
///
/// let refusal = Engine::open(Sizes { partitions: 9, own: 0, k: 1 }).unwrap_err();
/// assert_eq!(refusal, Refusal::Unusable);
/// assert_eq!(refusal.number(), 13);
/// ```
#[derive(Clone, Copy, Debug, PartialEq, Eq, Hash)]
pub enum Refusal {
    /// "delivery: partition set lacks our own, or names one beyond the number opened"
    PartitionSet = 1,
    /// "delivery: more than 8 keys read or more than 8 written"
    ManyKeys = 2,
    /// "delivery or read: a key over 1,023; delivery: keys not strictly ascending"
    Key = 3,
    /// "delivery: identity 0, or an identity now waiting"
    Identity = 4,
    /// "delivery or read: st > SC"
    SnapshotAhead = 5,
    /// "delivery or read: st < floor"
    SnapshotFolded = 6,
    /// "delivery: 32 already waiting"
    FullList = 7,
    /// "delivery: DC is 4,000,000,000"
    LastDelivery = 8,
    /// "vote: identity not waiting"
    NotWaiting = 9,
    /// "vote: from our own partition, or one not involved"
    NotAsked = 10,
    /// "vote: that partition has voted on it"
    HasVoted = 11,
    /// "change: k over 31"
    Threshold = 12,
    /// "opening: sizes outside the table; any event: state not sound; either: a lent table too short; program: event before opening, or a second opening"; and a delivery on
    /// lent tables that has not as many amounts as keys
    Unusable = 13,
    /// "program: unreadable line"
    Unreadable = 14,
    /// "delivery, vote, change: the lent finish list holds fewer than 32 entries"
    LittleRoom = 15,
}

impl Refusal {
    /// The number that the desk hands back, 1 to 15.
    pub fn number(self) -> u32 {
        self as u32
    }

    /// What the library answered: nothing refuses at 0.
    pub(crate) fn of_number(number: u32) -> Option<Refusal> {
        Some(match number {
            0 => return None,
            1 => Refusal::PartitionSet,
            2 => Refusal::ManyKeys,
            3 => Refusal::Key,
            4 => Refusal::Identity,
            5 => Refusal::SnapshotAhead,
            6 => Refusal::SnapshotFolded,
            7 => Refusal::FullList,
            8 => Refusal::LastDelivery,
            9 => Refusal::NotWaiting,
            10 => Refusal::NotAsked,
            11 => Refusal::HasVoted,
            12 => Refusal::Threshold,
            13 => Refusal::Unusable,
            14 => Refusal::Unreadable,
            15 => Refusal::LittleRoom,
            _ => unreachable!("the library's contracts give no other number"),
        })
    }
}

impl Display for Refusal {
    fn fmt(&self, f: &mut Formatter<'_>) -> fmt::Result {
        f.write_str(match self {
            Refusal::PartitionSet => "delivery: partition set lacks our own, or names one beyond the number opened",
            Refusal::ManyKeys => "delivery: more than 8 keys read or more than 8 written",
            Refusal::Key => "delivery or read: a key over 1,023; delivery: keys not strictly ascending",
            Refusal::Identity => "delivery: identity 0, or an identity now waiting",
            Refusal::SnapshotAhead => "delivery or read: st > SC",
            Refusal::SnapshotFolded => "delivery or read: st < floor",
            Refusal::FullList => "delivery: 32 already waiting",
            Refusal::LastDelivery => "delivery: DC is 4,000,000,000",
            Refusal::NotWaiting => "vote: identity not waiting",
            Refusal::NotAsked => "vote: from our own partition, or one not involved",
            Refusal::HasVoted => "vote: that partition has voted on it",
            Refusal::Threshold => "change: k over 31",
            Refusal::Unusable => {
                "opening: sizes outside the table; any event: state not sound; either: a lent table too short; \
                 program: event before opening, or a second opening"
            }
            Refusal::Unreadable => "program: unreadable line",
            Refusal::LittleRoom => "delivery, vote, change: the lent finish list holds fewer than 32 entries",
        })
    }
}

impl Error for Refusal {}
