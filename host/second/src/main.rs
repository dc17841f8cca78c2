//! Reads a log as text from standard input, or from the file named, and writes the answers to standard output.

use std::process::ExitCode;

fn main() -> ExitCode {
    second::command::<second::Engine>("second")
}
