//! The proved engine of one ledger partition, for Rust.
//!
//! The engine is a static library, in which every function is proved to answer as the rules say; this crate links it and gives its operations types.
//! [`Engine`] has its own tables and takes one event at a time; [`Desk`] takes a log as text; [`lent`] has the same operations on tables that the caller
//! lends. Here is nothing of the rules: what isn't a type, a copy or a call stands in the library. Comments quote the scope document where they stand
//! under its sentence.
//!
//! No proof covers this crate itself, nor that its declarations are the library's: tests hold both to every case, and to each number that refuses.
//!
//! The scope document's whole run:
//!
//! ```
//! use telvrang::{Ballot, Delivery, Engine, Fate, Finish, Reading, Reason, Refusal, Sizes};
//!
//! fn main() -> Result<(), Refusal> {
//!     let mut engine = Engine::open(Sizes { partitions: 2, own: 0, k: 1 })?;
//!
//!     let outcome = engine.deliver(&Delivery { identity: 10, set: 3, st: 0, reads: &[7], writes: &[(7, 500)] })?;
//!     assert_eq!((outcome.dc, outcome.fate), (1, Fate::Waits { place: 0 }));
//!     assert_eq!(outcome.send, Some(Ballot::Yes));
//!
//!     let outcome = engine.deliver(&Delivery { identity: 11, set: 1, st: 0, reads: &[8], writes: &[(8, -40)] })?;
//!     assert_eq!((outcome.dc, outcome.fate), (2, Fate::Waits { place: 0 }));
//!     assert!(outcome.finishes.eq([Finish::Committed { identity: 11, version: 1 }]));
//!
//!     assert!(engine.vote(10, 1, Ballot::Yes)?.eq([Finish::Committed { identity: 10, version: 2 }]));
//!     assert_eq!(engine.read_newest(8)?, Reading { value: -40, version: 2 });
//!     assert_eq!(engine.read(7, 1)?, Reading { value: 0, version: 1 });
//!
//!     let outcome = engine.deliver(&Delivery { identity: 12, set: 1, st: 1, reads: &[7], writes: &[(7, 600)] })?;
//!     assert_eq!((outcome.dc, outcome.fate), (3, Fate::Aborted { reason: Reason::Commit }));
//!     Ok(())
//! }
//! ```

#![deny(unsafe_code)]
#![warn(missing_docs)]

mod sizes;

mod answers;
mod refusal;
mod transaction;

#[allow(unsafe_code)] // the calls of the library
mod raw;

pub mod lent;

mod finishes;
mod tables;

mod delivery;
mod engine;

mod desk;

#[cfg(test)]
mod tests;

pub use delivery::{Delivery, Outcome};
pub use desk::Desk;
pub use engine::Engine;
pub use finishes::{Finish, Finishes};
pub use lent::{Ballot, Fate, Reading, Reason, Refusal, Sizes, ANSWERS, BOOK, FINISHES, SUMS};
