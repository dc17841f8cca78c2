//! The engine of one partition of a replicated ledger as one would first write it in Rust: it scans its lists where the scope document tests them, commit by
//! commit and entry by entry, and keeps no count and no index of a key. How fast the engine is, is measured against this.
//!
//! What goes in and comes out, and the log as text, are those of `second`; the rules stand here again, so that the two engines can be held against each
//! other.

#![forbid(unsafe_code)]

mod store;
mod waiting;

mod engine;

pub use engine::Engine;

#[cfg(test)]
mod tests;
