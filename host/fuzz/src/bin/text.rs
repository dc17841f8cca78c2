//! The first target, for libFuzzer, which brings `main`.

#![no_main]

use std::ffi::{c_char, c_int, c_uint};

#[unsafe(no_mangle)]
pub extern "C" fn LLVMFuzzerInitialize(_count: *mut c_int, _arguments: *mut *mut *mut c_char) -> c_int {
    fuzz::blocks::watch();
    0
}

/// # Safety
///
/// The input is of that many bytes.
#[unsafe(no_mangle)]
pub unsafe extern "C" fn LLVMFuzzerTestOneInput(input: *const u8, bytes: usize) -> c_int {
    // SAFETY: whoever calls this says so.
    fuzz::text::try_input(unsafe { fuzz::slice_of(input, bytes) });
    0
}

/// Half the changes are the fuzzer's, half are of whole lines.
///
/// # Safety
///
/// The input is of `bytes` bytes, and there is room for `most`.
#[unsafe(no_mangle)]
pub unsafe extern "C" fn LLVMFuzzerCustomMutator(input: *mut u8, bytes: usize, most: usize, seed: c_uint) -> usize {
    if seed.is_multiple_of(2) {
        // SAFETY: what this is called with.
        return unsafe { LLVMFuzzerMutate(input, bytes, most) };
    }
    // SAFETY: whoever calls this says so.
    let changed = fuzz::text::changed(unsafe { fuzz::slice_of(input, bytes) }, seed.into());
    let length = changed.len().min(most);
    // SAFETY: there is room for that many, and what was changed stands elsewhere.
    unsafe { changed.as_ptr().copy_to_nonoverlapping(input, length) };
    length
}

unsafe extern "C" {
    fn LLVMFuzzerMutate(input: *mut u8, bytes: usize, most: usize) -> usize;
}
