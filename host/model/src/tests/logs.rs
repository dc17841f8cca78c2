//! The model answers the records of a log as the second program does. Lines that can't be read aren't the model's: they are left to the second program.

use second::Program;
use trial::maker::Maker;

use crate::{Answer, Call, Delivery, Fate, Lent, BOOK, BY_THE_LETTER, SUMS};

/// The document's run.
const WHOLE_RUN: [(&str, &str); 7] = [
    ("O|2|0|1", "O|2|0|1"),
    ("D|10|3|0|7|7=500", "W|10|1|0"),
    ("D|11|1|0|8|8=-40", "W|11|2|0 C|11|1"),
    ("V|10|1|Y", "V|10|1 C|10|2"),
    ("R|8|-", "R|8|2|-40"),
    ("R|7|1", "R|7|1|0"),
    ("D|12|1|1|7|7=600", "A|12|3|1"),
];

/// The record of a line that can be read.
fn call_of(line: &str) -> Call {
    let fields: Vec<&str> = line.split('\t').collect();
    let number = |field: &str| field.parse().expect("the line can be read");
    match fields[..] {
        ["O", partitions, own, k] => Call::Open { partitions: number(partitions), own: number(own), k: number(k) },
        ["D", identity, set, st, reads, writes] => {
            let (keys, amounts) = items(writes).map(|write| write.split_once('=').expect("a write has two parts")).unzip::<_, _, Vec<_>, Vec<_>>();
            Call::Deliver(Delivery {
                identity: number(identity),
                set: number(set),
                st: number(st),
                reads: items(reads).map(number).collect(),
                keys: keys.into_iter().map(number).collect(),
                amounts: amounts.into_iter().map(|amount| amount.parse().expect("the line can be read")).collect(),
            })
        }
        ["V", identity, partition, vote] => Call::Vote { identity: number(identity), partition: number(partition), yes: vote == "Y" },
        ["K", k] => Call::Change { k: number(k) },
        ["R", key, st] => Call::Read { key: number(key), st: (st != "-").then(|| number(st)) },
        _ => panic!("no record: {line}"),
    }
}

fn items(list: &str) -> impl Iterator<Item = &str> {
    list.split(',').filter(|&item| item != "-")
}

/// The log's answer to what the call answered, and the lines of its finishes.
fn text(call: &Call, answer: Answer, finishes: &[u32]) -> String {
    let (first, finished) = match (call, answer) {
        (_, Answer::Refused(number)) => (format!("X\t{number}\n"), 0),
        (Call::Open { partitions, own, k }, Answer::Opened) => (format!("O\t{partitions}\t{own}\t{k}\n"), 0),
        (Call::Deliver(Delivery { identity, .. }), Answer::Delivered { dc, fate, finishes, .. }) => match fate {
            Fate::Waits { place } => (format!("W\t{identity}\t{dc}\t{place}\n"), finishes),
            Fate::Aborted { reason } => (format!("A\t{identity}\t{dc}\t{reason}\n"), finishes),
        },
        (Call::Vote { identity, partition, .. }, Answer::Settled { finishes }) => (format!("V\t{identity}\t{partition}\n"), finishes),
        (Call::Change { k }, Answer::Settled { finishes }) => (format!("K\t{k}\n"), finishes),
        (Call::Read { key, .. }, Answer::Value { value, version }) => (format!("R\t{key}\t{version}\t{value}\n"), 0),
        other => panic!("no answer to such a call: {other:?}"),
    };
    let finishes = finishes.chunks(2).take(finished as usize).map(|entry| match *entry {
        [identity, 0] => format!("B\t{identity}\n"),
        [identity, version] => format!("C\t{identity}\t{version}\n"),
        _ => unreachable!("two words an entry"),
    });
    first + &finishes.collect::<String>()
}

/// "program: event before opening, or a second opening" is 13; else the tables answer.
#[derive(Default)]
struct Log {
    lent: Option<Lent>,
}

impl Log {
    fn answer(&mut self, line: &str) -> String {
        let call = call_of(line);
        if matches!(call, Call::Open { .. }) == self.lent.is_some() {
            return "X\t13\n".to_string();
        }
        let mut lent = self.lent.take().unwrap_or_else(|| Lent { book: vec![0; BOOK], sums: vec![0; SUMS], finishes: vec![0; 64] });
        let answer = BY_THE_LETTER.answer(&call, &mut lent);
        let text = text(&call, answer, &lent.finishes);
        let opened = !matches!(call, Call::Open { .. }) || answer == Answer::Opened;
        self.lent = opened.then_some(lent);
        text
    }
}

#[test]
fn the_whole_run() {
    let mut log = Log::default();
    for (line, answers) in WHOLE_RUN {
        assert_eq!(log.answer(&line.replace('|', "\t")), answers.replace('|', "\t").replace(' ', "\n") + "\n");
    }
}

#[test]
fn the_model_is_like_the_second_program() {
    let mut lines = 0;
    for seed in 0..100 {
        let mut maker = Maker::new(seed);
        maker.shape.damaged = 0;
        let mut log = Log::default();
        let mut program: Program = Program::default();
        for line in maker.log() {
            let mut answers = Vec::new();
            program.answer_line(&line, &mut answers);
            if answers == b"X\t14\n" {
                continue;
            }
            let line = String::from_utf8(line).expect("an undamaged line is text");
            assert_eq!(log.answer(&line), String::from_utf8_lossy(&answers), "seed {seed}, line {line}");
            lines += 1;
        }
    }
    assert!(lines > 100_000, "{lines} lines");
}
