//! The operations on tables that the caller lends: no memory of their own, nothing kept between two calls.
//!
//! A ledger is a book of words and its sums, which are amounts. They may stand anywhere and hold anything: whoever lends what no engine left there, or
//! too little, is told so by a [`Refusal`]. "A longer lent table is taken and its excess never touched." Words 0 to 5 of a book are the partitions, our
//! own one, SC, DC, k and how many wait.
//!
//! Each call looks first whether the tables hold a sound state, which may take longer than the event itself; [`feed`] looks once a call, so a log as text is
//! answered fastest in long chunks.
//!
//! "Finishes fill the finish list from its start; entries past their number keep what they held": [`Finishes`](crate::Finishes) reads the entries.
//!
//! The scope document's whole run:
//!
//! ```
//! use telvrang::lent::{self, Ballot, Fate, Reason, Sizes, Transaction};
//! use telvrang::{Finish, Finishes, Refusal, BOOK, FINISHES, SUMS};
//!
//! fn main() -> Result<(), Refusal> {
//!     let (mut book, mut sums, mut list) = ([0; BOOK], [0; SUMS], [0; FINISHES]);
//!     lent::open(Sizes { partitions: 2, own: 0, k: 1 }, &mut book, &mut sums)?;
//!
//!     let ten = Transaction { identity: 10, set: 3, st: 0, reads: &[7], keys: &[7], amounts: &[500] };
//!     let answer = lent::deliver(&ten, &mut book, &mut sums, &mut list)?;
//!     assert_eq!((answer.dc, answer.fate, answer.send), (1, Fate::Waits { place: 0 }, Some(Ballot::Yes)));
//!     assert_eq!(answer.finishes, 0);
//!
//!     let eleven = Transaction { identity: 11, set: 1, st: 0, reads: &[8], keys: &[8], amounts: &[-40] };
//!     let answer = lent::deliver(&eleven, &mut book, &mut sums, &mut list)?;
//!     assert_eq!((answer.dc, answer.fate, answer.send), (2, Fate::Waits { place: 0 }, None));
//!     assert!(Finishes::of(&list, answer.finishes).eq([Finish::Committed { identity: 11, version: 1 }]));
//!
//!     let finishes = lent::vote(10, 1, Ballot::Yes, &mut book, &mut sums, &mut list)?;
//!     assert!(Finishes::of(&list, finishes).eq([Finish::Committed { identity: 10, version: 2 }]));
//!
//!     let newest = lent::read(8, None, &book, &sums)?;
//!     assert_eq!((newest.value, newest.version), (-40, 2));
//!     let before = lent::read(7, Some(1), &book, &sums)?;
//!     assert_eq!((before.value, before.version), (0, 1));
//!
//!     let twelve = Transaction { identity: 12, set: 1, st: 1, reads: &[7], keys: &[7], amounts: &[600] };
//!     let answer = lent::deliver(&twelve, &mut book, &mut sums, &mut list)?;
//!     assert_eq!((answer.dc, answer.fate), (3, Fate::Aborted { reason: Reason::Commit }));
//!     Ok(())
//! }
//! ```
//!
//! Tables of garbage:
//!
//! ```
//! use telvrang::{lent, Refusal, BOOK, FINISHES, SUMS};
//!
//! let (mut book, mut sums, mut list) = ([7; BOOK], [-7; SUMS], [7; FINISHES]);
//! let refusal = lent::change(5, &mut book, &mut sums, &mut list).unwrap_err();
//! assert_eq!(refusal, Refusal::Unusable);
//! assert_eq!(refusal.number(), 13);
//! assert_eq!((book, sums, list), ([7; BOOK], [-7; SUMS], [7; FINISHES]));
//! ```

pub use crate::answers::{Ballot, Delivered, Fate, Fed, Reading, Reason, Standing};
pub use crate::refusal::Refusal;
pub use crate::sizes::{Sizes, ANSWERS, BOOK, FINISHES, SUMS};
pub use crate::transaction::Transaction;

use crate::raw;

/// Opens an engine; the tables may hold anything before.
///
/// ```
/// use telvrang::{lent, Refusal, Sizes, BOOK, SUMS};
///
/// let (mut book, mut sums) = ([7; BOOK], [-7; SUMS]);
/// let short = lent::open(Sizes { partitions: 2, own: 0, k: 1 }, &mut book[1..], &mut sums);
/// assert_eq!(short, Err(Refusal::Unusable));
/// lent::open(Sizes { partitions: 2, own: 0, k: 1 }, &mut book, &mut sums)?;
/// assert_eq!(book[..6], [2, 0, 0, 0, 1, 0]);
/// # Ok::<(), Refusal>(())
/// ```
pub fn open(sizes: Sizes, book: &mut [u32], sums: &mut [i64]) -> Result<(), Refusal> {
    unless_refused(raw::open(sizes, book, sums), ())
}

/// "Delivery. DC rises by 1."
///
/// ```
/// use telvrang::lent::{self, Refusal, Sizes, Transaction};
/// use telvrang::{BOOK, FINISHES, SUMS};
///
/// let (mut book, mut sums, mut list) = ([0; BOOK], [0; SUMS], [0; FINISHES]);
/// lent::open(Sizes { partitions: 2, own: 0, k: 1 }, &mut book, &mut sums)?;
/// let lacking = Transaction { identity: 10, set: 2, st: 0, reads: &[], keys: &[], amounts: &[] };
/// assert_eq!(lent::deliver(&lacking, &mut book, &mut sums, &mut list), Err(Refusal::PartitionSet));
/// let involved = Transaction { set: 3, ..lacking };
/// assert_eq!(lent::deliver(&involved, &mut book, &mut sums, &mut list)?.dc, 1);
/// # Ok::<(), Refusal>(())
/// ```
pub fn deliver(t: &Transaction<'_>, book: &mut [u32], sums: &mut [i64], finishes: &mut [u32]) -> Result<Delivered, Refusal> {
    let answer = raw::deliver(t, book, sums, finishes);
    let fate = match answer.reason {
        0 => Fate::Waits { place: answer.place },
        1 => Fate::Aborted { reason: Reason::Commit },
        2 => Fate::Aborted { reason: Reason::Waiting },
        3 => Fate::Aborted { reason: Reason::NoPlace },
        _ => unreachable!("the library's contracts give no other reason"),
    };
    let send = match answer.send {
        0 => None,
        1 => Some(Ballot::Yes),
        2 => Some(Ballot::No),
        _ => unreachable!("the library's contracts give no other vote"),
    };
    unless_refused(answer.refusal, Delivered { dc: answer.dc, fate, send, finishes: answer.finishes })
}

/// "Vote. Yes or no, from another partition of a waiting global transaction." How many entries of the finish list were written.
///
/// ```
/// use telvrang::lent::{self, Ballot, Refusal, Sizes, Transaction};
/// use telvrang::{Finish, Finishes, BOOK, FINISHES, SUMS};
///
/// let (mut book, mut sums, mut list) = ([0; BOOK], [0; SUMS], [0; FINISHES]);
/// lent::open(Sizes { partitions: 2, own: 0, k: 0 }, &mut book, &mut sums)?;
/// let ten = Transaction { identity: 10, set: 3, st: 0, reads: &[], keys: &[], amounts: &[] };
/// lent::deliver(&ten, &mut book, &mut sums, &mut list)?;
/// assert_eq!(lent::vote(10, 0, Ballot::Yes, &mut book, &mut sums, &mut list), Err(Refusal::NotAsked));
/// let finishes = lent::vote(10, 1, Ballot::No, &mut book, &mut sums, &mut list)?;
/// assert!(Finishes::of(&list, finishes).eq([Finish::Aborted { identity: 10 }]));
/// # Ok::<(), Refusal>(())
/// ```
pub fn vote(identity: u32, partition: u32, ballot: Ballot, book: &mut [u32], sums: &mut [i64], finishes: &mut [u32]) -> Result<u32, Refusal> {
    let answer = raw::vote(identity, partition, ballot == Ballot::Yes, book, sums, finishes);
    unless_refused(answer.refusal, answer.finishes)
}

/// "Threshold change. The new k holds for later deliveries only." How many entries of the finish list were written.
///
/// ```
/// use telvrang::lent::{self, Refusal, Sizes};
/// use telvrang::{BOOK, FINISHES, SUMS};
///
/// let (mut book, mut sums, mut list) = ([0; BOOK], [0; SUMS], [0; FINISHES]);
/// lent::open(Sizes { partitions: 2, own: 0, k: 1 }, &mut book, &mut sums)?;
/// assert_eq!(lent::change(31, &mut book, &mut sums, &mut list), Ok(0));
/// assert_eq!(lent::change(32, &mut book, &mut sums, &mut list), Err(Refusal::Threshold));
/// assert_eq!(lent::change(31, &mut book, &mut sums, &mut list[1..]), Err(Refusal::LittleRoom));
/// # Ok::<(), Refusal>(())
/// ```
pub fn change(k: u32, book: &mut [u32], sums: &mut [i64], finishes: &mut [u32]) -> Result<u32, Refusal> {
    let answer = raw::change(k, book, sums, finishes);
    unless_refused(answer.refusal, answer.finishes)
}

/// "Read of a key at st: the value of the newest version that is at most st. It changes nothing." Without a st it is read at SC.
///
/// ```
/// use telvrang::lent::{self, Reading, Refusal, Sizes};
/// use telvrang::{BOOK, SUMS};
///
/// let (mut book, mut sums) = ([0; BOOK], [0; SUMS]);
/// lent::open(Sizes { partitions: 2, own: 0, k: 1 }, &mut book, &mut sums)?;
/// assert_eq!(lent::read(1_023, None, &book, &sums), Ok(Reading { value: 0, version: 0 }));
/// assert_eq!(lent::read(1_024, None, &book, &sums), Err(Refusal::Key));
/// assert_eq!(lent::read(7, Some(1), &book, &sums), Err(Refusal::SnapshotAhead));
/// # Ok::<(), Refusal>(())
/// ```
pub fn read(key: u32, st: Option<u32>, book: &[u32], sums: &[i64]) -> Result<Reading, Refusal> {
    let answer = match st {
        Some(st) => raw::read(key, st, book, sums),
        None => raw::read_newest(key, book, sums),
    };
    unless_refused(answer.refusal, Reading { value: answer.value, version: answer.version })
}

/// Takes the lines of a chunk of a log while `out` has room for the answers of one event more ([`ANSWERS`]), and writes their answers there. What isn't
/// taken is to be given again, in front of what comes next: where it didn't stop for want of room, it is the beginning of one line, and at the end of the
/// log, `at_end`, where the last line needs no newline, nothing is left.
///
/// [`Desk`](crate::Desk) does all this for chunks of any size.
///
/// ```
/// use telvrang::lent::{self, Standing};
/// use telvrang::{ANSWERS, BOOK, SUMS};
///
/// let (mut book, mut sums, mut out) = ([0; BOOK], [0; SUMS], [0; 8 * ANSWERS]);
/// let log = b"O\t2\t0\t1\nK\t5\nR\t8";
/// let fed = lent::feed(log, false, Standing::default(), &mut book, &mut sums, &mut out);
/// assert_eq!(out[..fed.wrote], *b"O\t2\t0\t1\nK\t5\n");
/// assert_eq!(log[fed.taken..], *b"R\t8");
/// assert!(!fed.full && fed.standing.opened);
///
/// let fed = lent::feed(b"R\t8\t-", true, fed.standing, &mut book, &mut sums, &mut out);
/// assert_eq!(out[..fed.wrote], *b"R\t8\t0\t0\n");
/// assert_eq!(fed.taken, 5);
/// ```
pub fn feed(input: &[u8], at_end: bool, standing: Standing, book: &mut [u32], sums: &mut [i64], out: &mut [u8]) -> Fed {
    let fed = raw::feed(input, at_end, standing, book, sums, out);
    let standing = Standing { opened: fed.opened != 0, skipping: fed.skipping != 0 };
    Fed { taken: fed.taken, wrote: fed.wrote, full: fed.full != 0, standing }
}

/// The answer, unless a number refuses it.
fn unless_refused<T>(number: u32, answer: T) -> Result<T, Refusal> {
    match Refusal::of_number(number) {
        Some(refusal) => Err(refusal),
        None => Ok(answer),
    }
}
