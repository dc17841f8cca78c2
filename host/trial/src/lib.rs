//! Seeded random logs, and what is asked of the answers to them.

#![forbid(unsafe_code)]

pub mod random;
pub mod shape;

pub mod damage;
pub mod maker;

pub mod compare;
pub mod moved;
pub mod tally;
