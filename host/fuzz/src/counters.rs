//! Counters of the fuzzer's own kind. It reads them after each input beside those of the instrumented code, so what raises one for the first time counts as
//! new, and the input is kept. They are raised by what the library does, whose machine code has no counters of its own.

use std::cell::UnsafeCell;

/// Blocks of the library's machine code come first.
pub const BLOCKS: usize = 2_048;
/// Then what it answers, and what its tables then hold.
const SEEN: usize = 6_144;

#[repr(transparent)]
struct Counters(UnsafeCell<[u8; BLOCKS + SEEN]>);

// SAFETY: the fuzzer runs one thread.
unsafe impl Sync for Counters {}

/// The name is the fuzzer's: it finds the counters by it.
#[used]
#[unsafe(link_section = "__libfuzzer_extra_counters")]
static COUNTERS: Counters = Counters(UnsafeCell::new([0; BLOCKS + SEEN]));

pub fn count_block(block: usize) {
    assert!(block < BLOCKS);
    raise(block);
}

/// Something seen: of which kind, and how much of it. Kinds that share a counter are told apart less well, no more.
pub fn count_seen(kind: u32, much: u32) {
    let mixed = (u64::from(kind) << 32 | u64::from(much)).wrapping_mul(0x9E37_79B9_7F4A_7C15) >> 32;
    raise(BLOCKS + mixed as usize % SEEN);
}

fn raise(counter: usize) {
    // SAFETY: the place is within the counters, which only this thread, and the fuzzer between two inputs, looks at.
    unsafe { *COUNTERS.0.get().cast::<u8>().add(counter) = 1 };
}
