//! The document's run, boundaries, slips and refusals. In the tests `|` stands for the tab, as in the document.

mod both_sides;
mod by_the_letter;
mod cuts;
mod refusals;
mod slips;
mod unreadable;
mod whole_run;

use crate::{answer_log, Program};

/// "Unless said otherwise: two partitions, own 0, k = 1, delivery 10 as above waiting without votes."
const TEN_WAITS: &str = "
    O|2|0|1             -> O|2|0|1
    D|10|3|0|7|7=500    -> W|10|1|0
";

fn tabs(text: &str) -> Vec<u8> {
    text.replace('|', "\t").into_bytes()
}

/// The answer lines to one line of a log, parted by blanks.
fn answer(program: &mut Program, line: &str) -> String {
    let mut text = Vec::new();
    program.answer_line(&tabs(line), &mut text);
    let text = String::from_utf8(text).expect("answers are ASCII");
    text.strip_suffix('\n').expect("every answer line ends with a newline").replace('\t', "|").replace('\n', " ")
}

/// Runs lines of the form `RECORD -> ANSWER FINISH FINISH`.
fn check_on(program: &mut Program, lines: &str) {
    for line in lines.lines().map(str::trim).filter(|line| !line.is_empty()) {
        let (record, wanted) = line.split_once("->").expect("a line has an arrow");
        assert_eq!(answer(program, record.trim()), wanted.trim(), "the answer to {record}");
    }
}

fn check(lines: &str) -> Program {
    let mut program = Program::default();
    check_on(&mut program, lines);
    program
}

/// The same after delivery 10, which waits.
fn check_behind_ten(lines: &str) -> Program {
    check(&[TEN_WAITS, lines].concat())
}

/// Local transactions that read and write nothing, each committed at once: `count` versions.
fn commit_nothing(program: &mut Program, count: u32) {
    for _ in 0..count {
        let sc = newest(program);
        let answers = answer(program, &format!("D|99|1|{sc}|-|-"));
        assert!(answers.ends_with(&format!(" C|99|{}", sc + 1)), "{answers}");
    }
}

/// SC, as a read at `-` says it.
fn newest(program: &mut Program) -> u32 {
    answer(program, "R|0|-").split('|').nth(2).and_then(|st| st.parse().ok()).expect("the engine is open")
}

/// The bytes that come out for these bytes.
fn whole(log: &[u8]) -> Vec<u8> {
    let mut output = Vec::new();
    answer_log(&mut &log[..], &mut output).expect("memory can be read and written");
    output
}
