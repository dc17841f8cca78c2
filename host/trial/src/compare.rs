//! Answers to a log, by a program and by the second one, and the log cut down to what makes them differ.

use std::io::Write as _;
use std::process::{Command, Stdio};
use std::thread;

/// From a log's text to its answers.
pub type Answering<'a> = &'a dyn Fn(&[u8]) -> Vec<u8>;

/// Without a newline behind the last line: a log that ends with one has an empty line last.
pub fn text(lines: &[Vec<u8>]) -> Vec<u8> {
    lines.join(&b'\n')
}

pub fn by_second(log: &[u8]) -> Vec<u8> {
    let mut answers = Vec::new();
    second::answer_log(&mut &log[..], &mut answers).expect("memory can be read and written");
    answers
}

/// An end that isn't a success stands behind the answers, so that it is a difference too.
pub fn by_program(program: &str, log: &[u8]) -> Vec<u8> {
    let command = Command::new(program).stdin(Stdio::piped()).stdout(Stdio::piped()).spawn();
    let mut child = command.unwrap_or_else(|error| panic!("{program} can't be run: {error}"));
    let mut input = child.stdin.take().expect("the input is a pipe");
    let output = thread::scope(|scope| {
        // A program that stops reading has answered too little: that is seen there.
        scope.spawn(move || drop(input.write_all(log)));
        child.wait_with_output().expect("the program can be waited for")
    });
    let mut answers = output.stdout;
    if !output.status.success() {
        answers.extend(format!("{}\n", output.status).into_bytes());
    }
    answers
}

/// Drops half the lines, then smaller runs, at last single lines, while the log stays one that is sought; then no line can be spared.
pub fn shrink<Line: Clone>(mut lines: Vec<Line>, sought: impl Fn(&[Line]) -> bool) -> Vec<Line> {
    let mut size = lines.len().div_ceil(2);
    loop {
        let length = lines.len();
        let mut start = 0;
        while start < lines.len() {
            let end = lines.len().min(start + size);
            let fewer = [&lines[..start], &lines[end..]].concat();
            if sought(&fewer) {
                lines = fewer;
            } else {
                start = end;
            }
        }
        if size > 1 {
            size = size.div_ceil(2);
        } else if lines.len() == length {
            return lines;
        }
    }
}
