//! The engine against one that does each thing as the document tells it, commit by commit and entry by entry, with every commit kept for good.

use std::collections::BTreeSet;

use crate::{Delivery, Desk, Engine, Finish, Outcome, Reason, Refusal, Write};

#[derive(Clone, Default)]
struct Transaction {
    identity: u32,
    partitions: u8,
    st: u32,
    reads: Vec<u16>,
    writes: Vec<Write>,
    rt: u32,
    votes: Vec<(u8, bool)>,
}

impl Transaction {
    fn writes_key(&self, key: u16) -> bool {
        self.writes.iter().any(|write| write.key == key)
    }

    fn reads_what_it_writes(&self, other: &Transaction) -> bool {
        self.reads.iter().any(|&key| other.writes_key(key))
    }
}

struct Letter {
    partitions: u8,
    own: u8,
    k: u32,
    dc: u32,
    waiting: Vec<Transaction>,
    commits: Vec<Transaction>,
}

impl Letter {
    fn sc(&self) -> u32 {
        self.commits.len() as u32
    }

    fn is_global(&self, transaction: &Transaction) -> bool {
        transaction.partitions != 1 << self.own
    }

    fn refusal_of(&self, newcomer: &Transaction) -> Option<Refusal> {
        let named = |partition: u8| newcomer.partitions >> partition & 1 == 1;
        let write_keys: Vec<u16> = newcomer.writes.iter().map(|write| write.key).collect();
        let bad = |keys: &[u16]| keys.iter().any(|&key| key > 1_023) || keys.windows(2).any(|pair| pair[0] >= pair[1]);
        let checks = [
            (!named(self.own) || (self.partitions..8).any(named), Refusal::PartitionSet),
            (newcomer.reads.len() > 8 || newcomer.writes.len() > 8, Refusal::TooManyKeys),
            (bad(&newcomer.reads) || bad(&write_keys), Refusal::Keys),
            (newcomer.identity == 0 || self.waiting.iter().any(|entry| entry.identity == newcomer.identity), Refusal::Identity),
            (newcomer.st > self.sc(), Refusal::AboveSc),
            (i64::from(newcomer.st) < i64::from(self.sc()) - 64, Refusal::BelowFloor),
            (self.waiting.len() >= 32, Refusal::FullList),
        ];
        checks.into_iter().find_map(|(holds, refusal)| holds.then_some(refusal))
    }

    fn deliver(&mut self, mut newcomer: Transaction) -> (Result<Outcome, Refusal>, Vec<Finish>) {
        if let Some(refusal) = self.refusal_of(&newcomer) {
            return (Err(refusal), vec![]);
        }
        self.dc += 1;
        newcomer.rt = self.dc + self.k;
        let global = self.is_global(&newcomer);
        let clash = |other: &Transaction| newcomer.reads_what_it_writes(other) || (global && other.reads_what_it_writes(&newcomer));
        let outcome = if self.commits[newcomer.st as usize..].iter().any(clash) {
            Outcome::Aborted { reason: Reason::Commit }
        } else if global && self.waiting.iter().any(clash) {
            Outcome::Aborted { reason: Reason::WaitingEntry }
        } else {
            let from = if global { self.waiting.len() } else { 0 };
            match (from..=self.waiting.len()).find(|&place| global || self.may_stand(place, &newcomer)) {
                Some(place) => {
                    self.waiting.insert(place, newcomer);
                    Outcome::Waits { place }
                }
                None => Outcome::Aborted { reason: Reason::NoPlace },
            }
        };
        (Ok(outcome), self.close())
    }

    fn may_stand(&self, place: usize, newcomer: &Transaction) -> bool {
        let (before, behind) = self.waiting.split_at(place);
        before.iter().all(|entry| !newcomer.reads_what_it_writes(entry))
            && behind.iter().all(|entry| self.is_global(entry) && self.dc <= entry.rt && !entry.reads_what_it_writes(newcomer))
    }

    fn vote(&mut self, identity: u32, partition: u8, yes: bool) -> (Result<(), Refusal>, Vec<Finish>) {
        let Some(entry) = self.waiting.iter_mut().find(|entry| entry.identity == identity) else {
            return (Err(Refusal::NotWaiting), vec![]);
        };
        if partition == self.own || partition > 7 || entry.partitions >> partition & 1 == 0 {
            return (Err(Refusal::NotInvolved), vec![]);
        }
        if entry.votes.iter().any(|vote| vote.0 == partition) {
            return (Err(Refusal::HasVoted), vec![]);
        }
        entry.votes.push((partition, yes));
        (Ok(()), self.close())
    }

    fn close(&mut self) -> Vec<Finish> {
        let mut finishes = vec![];
        while let Some(head) = self.waiting.first() {
            let others = head.partitions.count_ones() as usize - 1;
            if self.is_global(head) && (self.dc < head.rt || head.votes.len() < others) {
                break;
            }
            let head = self.waiting.remove(0);
            if head.votes.iter().all(|vote| vote.1) {
                finishes.push(Finish::Committed { identity: head.identity, version: self.sc() + 1 });
                self.commits.push(head);
            } else {
                finishes.push(Finish::Aborted { identity: head.identity });
            }
        }
        finishes
    }

    fn read(&self, key: u16, st: u32) -> Result<i64, Refusal> {
        if key > 1_023 {
            return Err(Refusal::Keys);
        }
        if st > self.sc() {
            return Err(Refusal::AboveSc);
        }
        if st + 64 < self.sc() {
            return Err(Refusal::BelowFloor);
        }
        let writes = self.commits[..st as usize].iter().rev().flat_map(|commit| &commit.writes);
        Ok(writes.filter(|write| write.key == key).map(|write| write.value).next().unwrap_or(0))
    }
}

/// Numbers that look as if by chance, the same at every run.
struct Chance(u64);

impl Chance {
    fn below(&mut self, limit: u32) -> u32 {
        self.0 = self.0.wrapping_mul(6_364_136_223_846_793_005).wrapping_add(1_442_695_040_888_963_407);
        ((self.0 >> 33) % u64::from(limit)) as u32
    }

    /// Mostly ascending keys, few or many, of a small range.
    fn keys(&mut self, range: u32) -> Vec<u16> {
        let most = if self.below(50) == 0 { 10 } else { 4 };
        let mut keys: Vec<u16> = (0..self.below(most)).map(|_| self.below(range) as u16).collect();
        if self.below(50) > 0 {
            keys.sort_unstable();
            keys.dedup();
        }
        keys
    }

    fn transaction(&mut self, letter: &Letter, identity: u32, range: u32) -> Transaction {
        let back = if self.below(20) == 0 { 70 } else { 4 };
        Transaction {
            identity: if self.below(50) == 0 { self.below(identity) } else { identity },
            partitions: match self.below(40) {
                0 => self.below(256) as u8,
                1..=15 => 1 << letter.own | self.below(1 << letter.partitions) as u8,
                _ => 1 << letter.own,
            },
            st: (letter.sc() + self.below(40) / 39).saturating_sub(self.below(back)),
            reads: self.keys(range),
            writes: self.keys(range).into_iter().map(|key| Write { key, value: i64::from(self.below(1_000)) - 500 }).collect(),
            ..Transaction::default()
        }
    }
}

/// Runs one log on both. What was answered is added to `seen`, places as "first" or "behind".
fn compare(seed: u64, events: u32, seen: &mut BTreeSet<String>) {
    let mut note = |what: String| seen.insert(what);
    let mut chance = Chance(seed);
    let partitions = 1 + chance.below(8) as u8;
    let own = chance.below(partitions.into()) as u8;
    let k = chance.below(if seed.is_multiple_of(2) { 4 } else { 32 });
    let range = [6, 30, 200, 1_030][chance.below(4) as usize];
    let mut letter = Letter { partitions, own, k, dc: 0, waiting: vec![], commits: vec![] };
    let mut engine = Engine::open(partitions, own, k as u16).expect("the sizes are in the table");
    let mut finishes = vec![];
    for event in 1..=events {
        finishes.clear();
        let wanted = match chance.below(10) {
            0..=4 => {
                let newcomer = chance.transaction(&letter, event, range);
                let Transaction { identity, partitions, st, ref reads, ref writes, .. } = newcomer;
                let answer = engine.deliver(&Delivery { identity, partitions, st, reads, writes }, &mut finishes);
                let (wanted, finished) = letter.deliver(newcomer);
                assert_eq!(answer, wanted, "seed {seed}, event {event}");
                note(match answer {
                    Ok(Outcome::Waits { place: 0 }) => "first".to_owned(),
                    Ok(Outcome::Waits { .. }) => "behind".to_owned(),
                    other => format!("{other:?}"),
                });
                finished
            }
            5..=8 => {
                let near = chance.below(3) * chance.below(12);
                let identity = letter.waiting.get(near as usize).map_or(event, |entry| entry.identity);
                let partition = chance.below(u32::from(partitions) + 1) as u8;
                let yes = chance.below(5) > 0;
                let answer = engine.vote(identity, partition, yes, &mut finishes);
                let (wanted, finished) = letter.vote(identity, partition, yes);
                assert_eq!(answer, wanted, "seed {seed}, event {event}");
                note(format!("vote {answer:?}"));
                finished
            }
            _ => {
                let (key, st) = (chance.below(range) as u16, (letter.sc() + 1).saturating_sub(chance.below(68)));
                let answer = engine.read(key, st);
                assert_eq!(answer, letter.read(key, st), "seed {seed}, event {event}");
                note(format!("read {:?}", answer.map(|value| value.signum())));
                vec![]
            }
        };
        assert_eq!(finishes, wanted, "seed {seed}, event {event}");
        assert_eq!((engine.dc(), engine.sc()), (letter.dc, letter.sc()), "seed {seed}, event {event}");
    }
}

#[test]
fn the_engine_does_what_the_letter_says() {
    let mut seen = BTreeSet::new();
    for seed in 0..300 {
        compare(seed, 600, &mut seen);
    }
    // Deliveries: two kinds of place, three reasons, numbers 1 to 7. Votes: stored, 9, 10, 11. Reads: three signs, 3, 5, 6.
    assert_eq!(seen.len(), 12 + 4 + 6, "{seen:?}");
}
