//! Makes a log line by line. Each line is answered at once by the second program, and the next one is drawn with those answers in view: only so do logs
//! reach full lists, deep reordering, folded commits and every refusal.

use std::collections::HashMap;

use crate::damage::damage;
use crate::random::Random;
use crate::shape::Shape;

pub struct Maker {
    pub random: Random,
    pub shape: Shape,
    program: second::Program,
    pub identity: u64,
    // What the answers have said.
    opened: bool,
    pub dc: u64,
    pub k: u64,
    sc: u64,
    waiting: Vec<u64>,
    /// The partition set of each delivery, by identity: only so do most votes count.
    sets: HashMap<u64, u64>,
}

impl Maker {
    pub fn new(seed: u64) -> Self {
        let mut random = Random::new(seed);
        let shape = Shape::draw(&mut random);
        let program = second::Program::default();
        Maker { random, shape, program, identity: 0, opened: false, dc: 0, k: 0, sc: 0, waiting: Vec::new(), sets: HashMap::new() }
    }

    /// A whole log, and behind most an empty line, for the last newline: "The last line may lack its newline."
    pub fn log(mut self) -> Vec<Vec<u8>> {
        let mut log = Vec::new();
        for _ in 0..self.shape.lines {
            let line = self.line();
            log.push(self.add(line));
        }
        if self.random.chance(700) {
            log.push(Vec::new());
        }
        log
    }

    /// The line as it comes into the log, now and then damaged. Its answers are learnt from.
    pub fn add(&mut self, line: String) -> Vec<u8> {
        let damaged = self.random.chance(self.shape.damaged);
        let line = if damaged { damage(line.into_bytes(), &mut self.random) } else { line.into_bytes() };
        let mut answers = Vec::new();
        self.program.answer_line(&line, &mut answers);
        String::from_utf8_lossy(&answers).lines().for_each(|answer| self.learn(answer));
        line
    }

    fn learn(&mut self, answer: &str) {
        let (letter, rest) = answer.split_at(1);
        let numbers: Vec<u64> = rest.split('\t').filter_map(|field| field.parse().ok()).collect();
        match (letter, &numbers[..]) {
            ("O", &[_, _, k]) => (self.opened, self.k) = (true, k),
            ("K", &[k]) => self.k = k,
            ("W", &[identity, dc, place]) => {
                self.dc = dc;
                self.waiting.insert(place as usize, identity);
            }
            ("A", &[_, dc, _]) => self.dc = dc,
            ("C", &[identity, version]) => {
                self.sc = version;
                self.waiting.retain(|&other| other != identity);
            }
            ("B", &[identity]) => self.waiting.retain(|&other| other != identity),
            _ => {}
        }
    }

    fn line(&mut self) -> String {
        if self.random.chance(if self.opened { 1 } else { 700 }) {
            self.opening()
        } else if self.random.chance(if self.waiting.is_empty() { 10 } else { self.shape.votes }) {
            self.vote()
        } else if self.random.chance(20) {
            self.change()
        } else if self.random.chance(300) {
            self.read()
        } else {
            self.delivery()
        }
    }

    pub fn opening(&mut self) -> String {
        let partitions = if self.odd() { self.random.one_of(&[0, 9, 255, 256]) } else { self.shape.partitions };
        let own = if self.odd() { partitions } else { self.shape.own };
        format!("O\t{partitions}\t{own}\t{}", self.threshold())
    }

    pub fn change(&mut self) -> String {
        format!("K\t{}", self.threshold())
    }

    fn threshold(&mut self) -> u64 {
        if self.odd() {
            return self.random.one_of(&[31, 32, 65_535, 65_536]);
        }
        self.random.below(self.shape.most_threshold + 1)
    }

    fn read(&mut self) -> String {
        let key = if self.odd() { self.random.one_of(&[1_023, 1_024, 65_535]) } else { self.random.below(self.shape.keys) };
        match self.random.below(10) {
            0 => format!("R\t{key}\t-"),
            1 => format!("R\t{key}\t{}", self.sc + self.random.below(2)),
            2 => format!("R\t{key}\t{}", self.sc.saturating_sub(63 + self.random.below(3))),
            _ => format!("R\t{key}\t{}", self.sc.saturating_sub(self.random.below(70))),
        }
    }

    /// For the most part on an entry near the head, which is what holds up the others, and from a partition that it waits for.
    fn vote(&mut self) -> String {
        if self.waiting.is_empty() || self.odd() {
            let (identity, partition) = (self.random.below(self.identity + 2), self.random.below(257));
            return self.vote_of(identity, partition);
        }
        let depth = self.random.below(self.waiting.len() as u64);
        let identity = self.waiting[self.random.below(depth + 1) as usize];
        let others = self.others(identity);
        let stray = others.is_empty() || self.random.chance(50);
        let partition = if stray { self.random.below(self.shape.partitions) } else { self.random.one_of(&others) };
        self.vote_of(identity, partition)
    }

    /// The partitions whose votes a transaction needs.
    pub fn others(&self, identity: u64) -> Vec<u64> {
        let set = self.sets.get(&identity).copied().unwrap_or(0);
        (0..self.shape.partitions).filter(|&partition| partition != self.shape.own && set >> partition & 1 == 1).collect()
    }

    pub fn vote_of(&mut self, identity: u64, partition: u64) -> String {
        let vote = if self.random.chance(self.shape.no_votes) { 'N' } else { 'Y' };
        format!("V\t{identity}\t{partition}\t{vote}")
    }

    fn partition_set(&mut self) -> u64 {
        if self.odd() {
            return self.random.below(257);
        }
        let others = if self.random.chance(self.shape.global) { self.random.below(1 << self.shape.partitions) } else { 0 };
        others | 1 << self.shape.own
    }

    pub fn delivery(&mut self) -> String {
        self.identity += 1;
        let partitions = self.partition_set();
        let identity = if self.odd() {
            let earlier = self.identity.saturating_sub(self.random.below(30));
            self.random.one_of(&[0, earlier, 4_294_967_295, 4_294_967_296])
        } else {
            self.identity
        };
        self.sets.insert(identity, partitions);
        let st = self.snapshot();
        let reads: Vec<String> = self.keys().iter().map(u64::to_string).collect();
        let writes: Vec<String> = self.keys().iter().map(|key| format!("{key}={}", self.value())).collect();
        format!("D\t{identity}\t{partitions}\t{st}\t{}\t{}", list(&reads), list(&writes))
    }

    fn snapshot(&mut self) -> u64 {
        match self.random.below(60) {
            0 => self.sc + 1,
            1 => self.sc.saturating_sub(64),
            2 => self.sc.saturating_sub(65),
            _ => self.sc.saturating_sub(self.random.below(self.shape.snapshot_age)),
        }
    }

    /// Ascending for the most part, and at times one key more: too large, too many, or out of order.
    fn keys(&mut self) -> Vec<u64> {
        let count = self.random.below(self.shape.most_keys_of_one + 1);
        let mut keys: Vec<u64> = (0..count).map(|_| self.random.below(self.shape.keys)).collect();
        if !self.odd() {
            keys.sort_unstable();
            keys.dedup();
        }
        if self.odd() {
            keys.push(self.random.one_of(&[1_023, 1_024, 65_535, 65_536, 0]));
        }
        keys
    }

    /// Small values, and those at and just past the ends of 64 bits.
    fn value(&mut self) -> i128 {
        let past = i128::from(self.odd());
        match self.random.below(20) {
            0 => i128::from(i64::MIN) - past,
            1 => i128::from(i64::MAX) + past,
            2 => i128::from(self.random.number() as i64),
            _ => i128::from(self.random.below(2_001)) - 1_000,
        }
    }

    fn odd(&mut self) -> bool {
        self.random.chance(self.shape.odd)
    }
}

fn list(items: &[String]) -> String {
    if items.is_empty() {
        return "-".to_string();
    }
    items.join(",")
}
