//! What the lent tables hold before the first call, and how long they are.

use model::{encode, opening_state, Lent, State, BOOK, SUMS};
use trial::random::Random;

use crate::shape::Shape;
use crate::spoils::{Spoilt, SPOILS};
use crate::states::draw_state;

#[derive(Clone, Copy, Debug, PartialEq, Eq, PartialOrd, Ord)]
pub enum Kind {
    Sound,
    Spoilt(&'static str),
    Short,
    Garbage,
    Ones,
    Zeros,
}

pub struct Ground {
    pub kind: Kind,
    pub shape: Shape,
    pub lent: Lent,
    /// Calls are drawn with it in view; if the tables don't hold it, then they hold something like it.
    pub state: State,
}

impl Ground {
    pub fn draw(random: &mut Random) -> Ground {
        match random.below(100) {
            0..=64 => Ground::sound(random),
            65..=84 => {
                let (name, _) = random.one_of(SPOILS);
                Ground::spoilt(name, random)
            }
            85..=91 => Ground::short(random),
            _ => Ground::filled(random),
        }
    }

    pub fn sound(random: &mut Random) -> Ground {
        let shape = Shape::draw(random);
        let state = draw_state(&shape, random);
        let mut lent = garbage(long_enough(BOOK, random), long_enough(SUMS, random), random);
        encode(&state, &mut lent.book, &mut lent.sums);
        Ground { kind: Kind::Sound, shape, lent, state }
    }

    /// States are drawn until one has what is to be spoilt.
    pub fn spoilt(name: &'static str, random: &mut Random) -> Ground {
        let spoil = SPOILS.iter().find(|spoil| spoil.0 == name).expect("one of them").1;
        let mut lent = garbage(long_enough(BOOK, random), long_enough(SUMS, random), random);
        loop {
            let shape = Shape::draw(random);
            let state = draw_state(&shape, random);
            let mut spoilt = Spoilt { state: state.clone(), words: Vec::new() };
            if spoil(&mut spoilt, random) {
                encode(&spoilt.state, &mut lent.book, &mut lent.sums);
                spoilt.words.iter().for_each(|&(at, word)| lent.book[at] = word);
                return Ground { kind: Kind::Spoilt(name), shape, lent, state };
            }
        }
    }

    /// A sound state's tables cut off, one of them or both.
    pub fn short(random: &mut Random) -> Ground {
        let mut ground = Ground::sound(random);
        let which = random.below(3);
        if which != 0 {
            ground.lent.book.truncate(too_short(BOOK, random));
        }
        if which != 1 {
            ground.lent.sums.truncate(too_short(SUMS, random));
        }
        Ground { kind: Kind::Short, ..ground }
    }

    /// Nothing but garbage, ones or zeros.
    fn filled(random: &mut Random) -> Ground {
        let shape = Shape::draw(random);
        let mut lent = garbage(long_enough(BOOK, random), long_enough(SUMS, random), random);
        let kind = random.one_of(&[Kind::Garbage, Kind::Ones, Kind::Zeros]);
        match kind {
            Kind::Ones => fill(&mut lent, u32::MAX, -1),
            Kind::Zeros => fill(&mut lent, 0, 0),
            _ => {}
        }
        let state = opening_state(shape.partitions, shape.own, 0);
        Ground { kind, shape, lent, state }
    }
}

/// Words that are likely to do harm where somebody takes them for a state's: any, small ones, ones or zeros.
fn garbage(words: usize, amounts: usize, random: &mut Random) -> Lent {
    let mut lent = Lent { book: vec![0; words], sums: vec![0; amounts], finishes: Vec::new() };
    match random.below(4) {
        0 => fill(&mut lent, u32::MAX, -1),
        1 => {
            lent.book.iter_mut().for_each(|word| *word = random.below(9) as u32);
            lent.sums.fill(3);
        }
        2 => {}
        _ => {
            lent.book.iter_mut().for_each(|word| *word = random.number() as u32);
            lent.sums.iter_mut().for_each(|amount| *amount = random.number() as i64);
        }
    }
    lent
}

fn fill(lent: &mut Lent, word: u32, amount: i64) {
    lent.book.fill(word);
    lent.sums.fill(amount);
}

/// "A longer lent table is taken and its excess never touched."
fn long_enough(length: usize, random: &mut Random) -> usize {
    match random.below(20) {
        0 => length + 1,
        1 => length + 5_000,
        2 => length + random.below(100) as usize,
        _ => length,
    }
}

fn too_short(length: usize, random: &mut Random) -> usize {
    match random.below(4) {
        0 => random.below(2) as usize,
        1 => random.below(length as u64) as usize,
        _ => length - 1,
    }
}
