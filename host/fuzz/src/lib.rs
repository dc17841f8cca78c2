//! Coverage-guided fuzzing of the proved library, on raw bytes.
//!
//! The fuzzer is libFuzzer, which changes inputs and keeps those that reach something new. Each of the two targets gives an input to the library and to
//! something that answers by the same rules, whose compiled code counts what is reached: [`text`] a log, held against the second program, and [`tables`]
//! calls on lent tables, held against the model by the letter. The library's own code is watched by [`blocks`], and what it does is counted by
//! [`counters`].

mod bytes;
mod difference;
mod pages;

mod counters;

pub mod blocks;

pub mod tables;
pub mod text;

/// The input as libFuzzer hands it over: of no bytes, its pointer may be null.
///
/// # Safety
///
/// The input is of that many bytes.
pub unsafe fn slice_of<'a>(input: *const u8, bytes: usize) -> &'a [u8] {
    if bytes == 0 {
        return &[];
    }
    // SAFETY: whoever calls this says so.
    unsafe { std::slice::from_raw_parts(input, bytes) }
}
