//! The rules of one ledger partition by the letter, written from the scope document alone: plain lists, every commit and entry looked at one by one.
//!
//! A [`State`] is what the document speaks of, and [`layout`] says which words of the lent tables hold it. [`Desk::outcome`] is what a [`Call`] does.
//! Comments quote the document where a rule of its stands.

#![forbid(unsafe_code)]

pub mod sizes;

mod calls;
mod state;

pub mod layout;

mod refusals;
mod rules;
mod soundness;

mod desk;
mod show;

pub use calls::{Answer, Call, Delivery, Fate, Lent};
pub use desk::{fill, opening_state, Desk, Letter, Outcome, BY_THE_LETTER};
pub use layout::{decode, encode, BOOK, SUMS};
pub use refusals::{Line, Refusals};
pub use rules::{is_local, outstanding, Finish, Rules};
pub use show::show_state;
pub use soundness::Soundness;
pub use state::{is_member, keys_of, members, value_written, Commit, Entry, State, Transaction, Write};

#[cfg(test)]
mod tests;
