//! What is told of an input: the difference that it brings, and on request the input itself, before it is given.

use std::env::var_os;
use std::process::abort;
use std::sync::OnceLock;

/// Ending so is what makes the fuzzer keep the input.
pub fn tell(difference: &str) -> ! {
    eprintln!("the library doesn't do as it is wanted:\n{difference}");
    abort();
}

/// `run` asks for it where it gives one input again. What can't be compared any more, as after a fault, is shown by this all the same.
pub fn is_shown() -> bool {
    static SHOWN: OnceLock<bool> = OnceLock::new();
    *SHOWN.get_or_init(|| var_os("TELVRANG_FUZZ_SHOW").is_some())
}
