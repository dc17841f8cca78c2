//! The second target, for libFuzzer, which brings `main`.

#![no_main]

use std::ffi::{c_char, c_int};

#[unsafe(no_mangle)]
pub extern "C" fn LLVMFuzzerInitialize(_count: *mut c_int, _arguments: *mut *mut *mut c_char) -> c_int {
    fuzz::blocks::watch();
    0
}

/// # Safety
///
/// The input is of that many bytes.
#[unsafe(no_mangle)]
pub unsafe extern "C" fn LLVMFuzzerTestOneInput(input: *const u8, bytes: usize) -> c_int {
    // SAFETY: whoever calls this says so.
    fuzz::tables::try_input(unsafe { fuzz::slice_of(input, bytes) });
    0
}
