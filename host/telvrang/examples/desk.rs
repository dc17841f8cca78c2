//! Answers a log of the ledger, from standard input or from a file, on standard output: desk [LOG]

use std::env;
use std::fs::File;
use std::io::{self, ErrorKind, Read, Write};
use std::process::ExitCode;

use telvrang::Desk;

const HELP: &str = "usage: desk [LOG]\n\nAnswers a log of one ledger partition, from the file LOG or from standard input.";

/// Each piece that comes is answered before the next one is read.
fn answer_log(input: &mut dyn Read, output: &mut dyn Write) -> io::Result<()> {
    let mut desk = Desk::new();
    let mut piece = vec![0; 65_536];
    loop {
        let count = match input.read(&mut piece) {
            Err(error) if error.kind() == ErrorKind::Interrupted => continue,
            read => read?,
        };
        if count == 0 {
            desk.finish(output)?;
            return Ok(());
        }
        desk.feed(&piece[..count], output)?;
    }
}

fn run(words: &[String]) -> io::Result<()> {
    let output = &mut io::stdout().lock();
    match words {
        [] => answer_log(&mut io::stdin().lock(), output),
        [word] if word == "--help" => writeln!(output, "{HELP}"),
        [path] => answer_log(&mut File::open(path)?, output),
        _ => Err(io::Error::new(ErrorKind::InvalidInput, HELP)),
    }
}

fn main() -> ExitCode {
    let words: Vec<String> = env::args().skip(1).collect();
    match run(&words) {
        Ok(()) => ExitCode::SUCCESS,
        // Nobody reads the answers any more: an end like any other.
        Err(error) if error.kind() == ErrorKind::BrokenPipe => ExitCode::SUCCESS,
        Err(error) => {
            eprintln!("desk: {error}");
            ExitCode::FAILURE
        }
    }
}
