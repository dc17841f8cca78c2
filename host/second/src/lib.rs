//! A second program for the log of one partition of a replicated ledger, written from the scope document alone.
//!
//! The engine is ordinary Rust over a state of its own: [`Engine`] takes one event at a time and answers it. [`Program`] stands over it, or over another
//! [`Desk`], and takes a log as text, line by line, and [`answer_log`] does so from an input to an output. Comments quote the document where a rule of its
//! stands.

#![forbid(unsafe_code)]

mod few;
pub mod sizes;

mod refusal;
mod store;
mod waiting;

mod desk;
mod engine;

mod answers;
mod records;

mod program;

mod command;

pub use command::command;
pub use desk::{Delivery, Desk, Finish, Outcome, Reason};
pub use engine::Engine;
pub use few::Few;
pub use program::{answer_log, Program};
pub use refusal::Refusal;
pub use store::Write;

#[cfg(test)]
mod tests;
