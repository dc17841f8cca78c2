//! What the tests share.

#![allow(dead_code)] // each test takes what it needs

pub mod cases;
pub mod ledgers;
pub mod random;
pub mod records;
