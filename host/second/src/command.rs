//! The program as a command: a log from standard input or from a file named, its answers to standard output.

use std::env;
use std::ffi::OsString;
use std::fs::File;
use std::io::{self, ErrorKind};
use std::process::ExitCode;

use crate::desk::Desk;
use crate::program::Program;

/// The whole of a `main`, over any engine.
pub fn command<D: Desk>(name: &str) -> ExitCode {
    let help = format!("usage: {name} [LOG]\n\nAnswers a log of one ledger partition, from the file LOG or from standard input.");
    let mut program = Program::<D>::default();
    let arguments: Vec<OsString> = env::args_os().skip(1).collect();
    let result = match &arguments[..] {
        [] => program.answer_log(&mut io::stdin().lock(), &mut io::stdout().lock()),
        [only] if only == "--help" || only == "-h" => {
            println!("{help}");
            return ExitCode::SUCCESS;
        }
        [path] => File::open(path).and_then(|mut file| program.answer_log(&mut file, &mut io::stdout().lock())),
        _ => {
            eprintln!("{help}");
            return ExitCode::FAILURE;
        }
    };
    match result {
        Ok(()) => ExitCode::SUCCESS,
        // Nobody reads the answers any more: an end like any other.
        Err(error) if error.kind() == ErrorKind::BrokenPipe => ExitCode::SUCCESS,
        Err(error) => {
            eprintln!("{name}: {error}");
            ExitCode::FAILURE
        }
    }
}
