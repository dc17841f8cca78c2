//! How often each answer occurred.

use std::collections::BTreeMap;
use std::fmt;

/// Every answer that a log can bring: by letter, A by reason and X by number. 8 needs 4,000,000,000 deliveries, and 15 a lent list.
const REACHED: &str = "O W A1 A2 A3 C B V K R X1 X2 X3 X4 X5 X6 X7 X9 X10 X11 X12 X13 X14";

#[derive(Default)]
pub struct Tally {
    counts: BTreeMap<String, u64>,
}

impl Tally {
    pub fn add(&mut self, answers: &[u8]) {
        for answer in String::from_utf8_lossy(answers).lines() {
            *self.counts.entry(name(answer)).or_default() += 1;
        }
    }

    /// The answers that never occurred.
    pub fn missing(&self) -> Vec<&str> {
        REACHED.split(' ').filter(|&name| !self.counts.contains_key(name)).collect()
    }
}

impl fmt::Display for Tally {
    fn fmt(&self, formatter: &mut fmt::Formatter) -> fmt::Result {
        let counts: Vec<String> = self.counts.iter().map(|(name, count)| format!("{name} {count}")).collect();
        formatter.write_str(&counts.join(", "))
    }
}

fn name(answer: &str) -> String {
    let fields: Vec<&str> = answer.split('\t').collect();
    match fields[..] {
        ["A", _, _, reason] => format!("A{reason}"),
        ["X", number] => format!("X{number}"),
        _ => fields[0].to_string(),
    }
}
