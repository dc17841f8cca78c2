//! Two logs with the same deliveries and threshold changes and the same votes, each vote moved but after its delivery and before the first delivery that
//! comes when DC has reached its transaction's threshold, give each delivery the same answer, the same finishes in order and the same end.

use std::collections::HashMap;

use crate::compare::{shrink, text, Answering};
use crate::maker::Maker;
use crate::random::Random;

/// Two logs, shrunk, and the first of their answers that differ.
pub struct Difference {
    pub logs: [Vec<Vec<u8>>; 2],
    pub answers: String,
}

/// A line that both logs have.
#[derive(Clone)]
struct Line {
    /// Settles which line of the other log it is.
    number: usize,
    text: Vec<u8>,
    kind: Kind,
}

#[derive(Clone, Copy, PartialEq)]
enum Kind {
    Delivery,
    /// On the delivery of that number.
    Vote(usize),
    /// Opening, change, read.
    Other,
}

/// A delivery or a change, or the opening before them.
struct Move {
    line: Line,
    /// DC when it comes.
    dc: u64,
}

/// A vote may stand in any gap of its window. Gap i is just before the i-th move, and the last gap behind them all.
struct Vote {
    line: Line,
    first_gap: usize,
    rt: u64,
}

/// A log whose votes aren't placed yet.
struct Movable {
    moves: Vec<Move>,
    votes: Vec<Vote>,
    /// "The same end": every key at SC.
    reads: Vec<Line>,
    lines: usize,
}

/// The first answers that differ between two logs which differ only in where the votes stand. Of both logs as many lines are left out as can be.
pub fn moved_votes_differ(answering: Answering, seed: u64) -> Option<Difference> {
    let movable = Movable::new(seed);
    let mut random = Random::new(!seed);
    let pair = [(); 2].map(|()| movable.log(&mut random));
    differing_answers(answering, &pair)?;
    let numbers = shrink((0..movable.lines).collect(), |numbers| {
        let fewer = with_numbers(&pair, numbers);
        fewer.iter().all(|log| votes_stand_in_their_windows(log)) && differing_answers(answering, &fewer).is_some()
    });
    let least = with_numbers(&pair, &numbers);
    let answers = differing_answers(answering, &least)?;
    Some(Difference { logs: least.map(|log| texts(&log)), answers })
}

fn with_numbers(pair: &[Vec<Line>; 2], numbers: &[usize]) -> [Vec<Line>; 2] {
    pair.each_ref().map(|log| log.iter().filter(|line| numbers.binary_search(&line.number).is_ok()).cloned().collect())
}

fn texts(log: &[Line]) -> Vec<Vec<u8>> {
    log.iter().map(|line| line.text.clone()).collect()
}

/// "after its delivery and before the first delivery that comes when DC has reached its transaction's threshold": so it must be after lines are left out
/// too, since DC and thresholds are others then.
fn votes_stand_in_their_windows(log: &[Line]) -> bool {
    let mut maker = Maker::new(0);
    maker.shape.damaged = 0;
    // The thresholds of the deliveries whose windows are open.
    let mut open: HashMap<usize, u64> = HashMap::new();
    for line in log {
        if line.kind == Kind::Delivery {
            open.retain(|_, rt| maker.dc < *rt);
        }
        maker.add(String::from_utf8_lossy(&line.text).into_owned());
        match line.kind {
            Kind::Delivery => drop(open.insert(line.number, maker.dc + maker.k)),
            Kind::Vote(delivery) if !open.contains_key(&delivery) => return false,
            _ => {}
        }
    }
    true
}

fn differing_answers(answering: Answering, pair: &[Vec<Line>; 2]) -> Option<String> {
    let [one, other] = pair.each_ref().map(|log| outline(log, &answering(&text(&texts(log)))));
    let differing = one.iter().zip(&other).find(|(left, right)| left != right);
    match differing {
        Some((left, right)) => Some(format!("{left} and {right}")),
        None => (one.len() != other.len()).then(|| format!("{} and {} answers and finishes", one.len(), other.len())),
    }
}

impl Movable {
    /// Here each transaction's votes come just behind its delivery, which is in every window. A right engine's DC is the same at each delivery wherever
    /// the votes stand, so the windows are known from this one log.
    fn new(seed: u64) -> Self {
        let mut maker = Maker::new(seed);
        (maker.shape.odd, maker.shape.damaged) = (0, 0); // so that each identity comes once, and each line is what it says
        let mut movable = Movable { moves: Vec::new(), votes: Vec::new(), reads: Vec::new(), lines: 0 };
        let opening = maker.opening();
        let line = movable.line(maker.add(opening), Kind::Other);
        movable.moves.push(Move { line, dc: 0 });
        for _ in 0..maker.shape.lines / 4 {
            movable.add_move(&mut maker);
        }
        for key in 0..maker.shape.keys {
            let read = movable.line(format!("R\t{key}\t-").into_bytes(), Kind::Other);
            movable.reads.push(read);
        }
        movable
    }

    fn line(&mut self, text: Vec<u8>, kind: Kind) -> Line {
        self.lines += 1;
        Line { number: self.lines - 1, text, kind }
    }

    fn add_move(&mut self, maker: &mut Maker) {
        let (dc, delivery) = (maker.dc, maker.random.chance(950));
        let (text, kind) = if delivery { (maker.delivery(), Kind::Delivery) } else { (maker.change(), Kind::Other) };
        let line = self.line(maker.add(text), kind);
        let number = line.number;
        self.moves.push(Move { line, dc });
        if delivery {
            self.add_votes(number, maker);
        }
    }

    /// A missing vote holds up all that follows, so few are.
    fn add_votes(&mut self, delivery: usize, maker: &mut Maker) {
        let rt = maker.dc + maker.k;
        for partition in maker.others(maker.identity) {
            if !maker.random.chance(1) {
                let vote = maker.vote_of(maker.identity, partition);
                let line = self.line(maker.add(vote), Kind::Vote(delivery));
                self.votes.push(Vote { line, first_gap: self.moves.len(), rt });
            }
        }
    }

    /// The log with each vote somewhere in its window.
    fn log(&self, random: &mut Random) -> Vec<Line> {
        let mut gaps = vec![Vec::new(); self.moves.len() + 1];
        for vote in &self.votes {
            let gap = &mut gaps[vote.first_gap + random.place(self.last_gap(vote) - vote.first_gap)];
            gap.insert(random.place(gap.len()), vote.line.clone());
        }
        let mut log = Vec::new();
        for (gap, votes) in gaps.into_iter().enumerate() {
            log.extend(votes);
            log.extend(self.moves.get(gap).map(|next| next.line.clone()));
        }
        log.extend_from_slice(&self.reads);
        log
    }

    fn last_gap(&self, vote: &Vote) -> usize {
        let ends_window = |next: &Move| next.line.kind == Kind::Delivery && next.dc >= vote.rt;
        let later = self.moves[vote.first_gap..].iter().position(ends_window);
        later.map_or(self.moves.len(), |later| vote.first_gap + later)
    }
}

/// What may not change: the answers to all lines but votes, in order, and then the finishes, in order.
fn outline(log: &[Line], answers: &[u8]) -> Vec<String> {
    let answers = String::from_utf8_lossy(answers);
    let (finishes, answers): (Vec<&str>, Vec<&str>) = answers.lines().partition(|answer| answer.starts_with(['C', 'B']));
    let lasting = log.iter().zip(answers).filter(|(line, _)| !matches!(line.kind, Kind::Vote(_))).map(|(_, answer)| answer);
    lasting.chain(finishes).map(str::to_string).collect()
}
