//! A ledger that has run for a while: a log may begin on its tables, as on any that are lent.

use std::sync::OnceLock;

use second::Program;
use telvrang::lent::{self, Standing};
use telvrang::{BOOK, SUMS};

pub struct Ledger {
    log: Vec<u8>,
    pub book: Vec<u32>,
    pub sums: Vec<i64>,
}

/// Locals that commit, so that some are folded, and then globals that wait.
fn log() -> Vec<u8> {
    let mut log = "O\t3\t1\t5\n".to_string();
    for identity in 1..=70 {
        log += &format!("D\t{identity}\t2\t{}\t{}\t{}={identity},9=-{identity}\n", identity - 1, 20 + identity % 5, identity % 7);
    }
    for identity in 71..=80 {
        log += &format!("D\t{identity}\t{}\t70\t{identity}\t{}={identity}\n", [3, 7, 6][identity % 3], identity + 10);
    }
    log.into_bytes()
}

pub fn ledger() -> &'static Ledger {
    static LEDGER: OnceLock<Ledger> = OnceLock::new();
    LEDGER.get_or_init(|| {
        let log = log();
        let (mut book, mut sums, mut out) = (vec![0; BOOK], vec![0; SUMS], vec![0; 65_536]);
        let fed = lent::feed(&log, true, Standing::default(), &mut book, &mut sums, &mut out);
        let ledger = Ledger { log, book, sums };
        assert_eq!(out[..fed.wrote], ledger.answered().1, "the answers to the log before the others differ");
        ledger
    })
}

impl Ledger {
    /// The second program, having answered the same log, and its answers.
    pub fn answered(&self) -> (Program, Vec<u8>) {
        let (mut program, mut answers) = (Program::default(), Vec::new());
        for line in self.log.split_inclusive(|&byte| byte == b'\n') {
            program.answer_line(line.trim_ascii_end(), &mut answers);
        }
        (program, answers)
    }
}
