//! The model against the second program on logs, and states against their words.

mod logs;
mod words;
