//! The typed operations give the answers of every case, over an engine's own tables and over lent ones.

mod common;

use common::cases::{cases, compare, Case};
use common::ledgers::{Opening, OPENINGS};
use common::records::Typed;

/// The answers of each line: its own, and a line for each finish.
fn answers_by_line(case: &Case) -> Vec<String> {
    let text = std::str::from_utf8(&case.answers).expect("answers are plain text");
    let mut answers: Vec<String> = Vec::new();
    for line in text.split_inclusive('\n') {
        match answers.last_mut() {
            Some(answer) if line.starts_with(['C', 'B']) => answer.push_str(line),
            _ => answers.push(line.into()),
        }
    }
    answers
}

/// Lines that can't be read are left out: the typed operations have no such.
fn run(case: &Case, open: Opening) -> usize {
    let mut typed = Typed::new(open);
    let (mut got, mut readable) = (Vec::new(), 0);
    let lines: Vec<&[u8]> = case.log.split_inclusive(|&byte| byte == b'\n').collect();
    let wanted = answers_by_line(case);
    assert_eq!(lines.len(), wanted.len(), "{}: each line is answered", case.name);
    for (line, answer) in lines.into_iter().zip(wanted) {
        if answer == "X\t14\n" {
            got.extend_from_slice(answer.as_bytes());
            continue;
        }
        let line = std::str::from_utf8(line).expect("a line that can be read is plain text");
        got.extend_from_slice(typed.answer(line.trim_end_matches('\n')).as_bytes());
        readable += 1;
    }
    compare(case, "typed", &got);
    readable
}

#[test]
fn cases_typed() {
    let cases = cases();
    for open in OPENINGS {
        let readable: usize = cases.iter().map(|case| run(case, open)).sum();
        assert!(readable > 2_000, "the cases have lines that can be read: {readable}");
    }
}
