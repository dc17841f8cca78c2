//! A log's lines as typed events, and their answers as its lines: the other way round to the same cases. Lines that can't be read don't come here.

use std::fmt::Write;
use std::str::FromStr;

use telvrang::{Ballot, Delivery, Fate, Finish, Refusal, Sizes};

use super::ledgers::{Ledger, Opening};

fn number<T: FromStr>(field: &str) -> T {
    field.parse().ok().expect("the line can be read")
}

fn items(field: &str) -> Vec<&str> {
    if field == "-" {
        return Vec::new();
    }
    field.split(',').collect()
}

fn ballot(field: &str) -> Ballot {
    match field {
        "Y" => Ballot::Yes,
        _ => Ballot::No,
    }
}

fn write_finishes(finishes: &[Finish]) -> String {
    let mut text = String::new();
    for finish in finishes {
        match finish {
            Finish::Committed { identity, version } => writeln!(text, "C\t{identity}\t{version}"),
            Finish::Aborted { identity } => writeln!(text, "B\t{identity}"),
        }
        .expect("a string takes all");
    }
    text
}

/// The answers to a delivery. The text has no field for the vote to send: none for a local transaction, yes where it waits, no where it is aborted.
fn delivered(ledger: &mut dyn Ledger, fields: [&str; 5]) -> Result<String, Refusal> {
    let [identity, set, st, reads, writes] = fields;
    let reads: Vec<u32> = items(reads).into_iter().map(number).collect();
    let pairs = items(writes).into_iter().map(|item| item.split_once('=').expect("a write is a pair"));
    let writes: Vec<(u32, i64)> = pairs.map(|(key, value)| (number(key), number(value))).collect();
    let delivery = Delivery { identity: number(identity), set: number(set), st: number(st), reads: &reads, writes: &writes };
    let local = delivery.set == 1 << ledger.counters()[1];
    let told = ledger.deliver(&delivery)?;
    let (letter, last, vote) = match told.fate {
        Fate::Waits { place } => ('W', place, Ballot::Yes),
        Fate::Aborted { reason } => ('A', reason.number(), Ballot::No),
    };
    assert_eq!(told.send, (!local).then_some(vote));
    Ok(format!("{letter}\t{identity}\t{}\t{last}\n", told.dc) + &write_finishes(&told.finishes))
}

fn event(ledger: &mut dyn Ledger, fields: &[&str]) -> Result<String, Refusal> {
    match *fields {
        ["D", identity, set, st, reads, writes] => delivered(ledger, [identity, set, st, reads, writes]),
        ["V", identity, partition, vote] => {
            let finishes = ledger.vote(number(identity), number(partition), ballot(vote))?;
            Ok(format!("V\t{identity}\t{partition}\n") + &write_finishes(&finishes))
        }
        ["K", k] => {
            let finishes = ledger.change(number(k))?;
            Ok(format!("K\t{k}\n") + &write_finishes(&finishes))
        }
        ["R", key, st] => {
            let reading = ledger.read(number(key), (st != "-").then(|| number(st)))?;
            Ok(format!("R\t{key}\t{}\t{}\n", reading.version, reading.value))
        }
        _ => panic!("the line can be read: {fields:?}"),
    }
}

/// A log on typed operations, which know nothing of lines: whether an engine is opened is kept here, as the program keeps it.
pub struct Typed {
    open: Opening,
    ledger: Option<Box<dyn Ledger>>,
}

impl Typed {
    pub fn new(open: Opening) -> Self {
        Typed { open, ledger: None }
    }

    pub fn answer(&mut self, line: &str) -> String {
        let fields: Vec<&str> = line.split('\t').collect();
        let answer = match (&mut self.ledger, &fields[..]) {
            (None, ["O", partitions, own, k]) => {
                let sizes = Sizes { partitions: number(partitions), own: number(own), k: number(k) };
                (self.open)(sizes).map(|ledger| {
                    self.ledger = Some(ledger);
                    format!("{line}\n")
                })
            }
            // "program: event before opening, or a second opening"
            (None, _) | (Some(_), ["O", ..]) => Err(Refusal::Unusable),
            (Some(ledger), fields) => event(ledger.as_mut(), fields),
        };
        answer.unwrap_or_else(|refusal| format!("X\t{}\n", refusal.number()))
    }
}
