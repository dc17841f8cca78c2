//! Trials: each lends tables drawn by its seed to a few calls, one after the other, and compares each with the model.

use model::{Call, Lent};
use trial::random::Random;

use crate::calls::{draw_call, draw_opening};
use crate::compare::{compare, Compared};
use crate::grounds::{Ground, Kind};
use crate::library::Library;
use crate::tally::{Tally, Thing};

/// A call whose answer or effect differs.
pub struct Differing {
    pub seed: u64,
    pub kind: Kind,
    pub call: Call,
    pub before: Lent,
}

/// How many calls were compared, and the first that differs. Trial by trial the seed rises by 1, so that any trial is the first of its own seed.
pub fn compare_calls(library: Library, least: u64, seed: u64, tally: &mut Tally) -> (u64, Option<Differing>) {
    let (mut trials, mut calls) = (0, 0);
    while calls < least {
        let (compared, differing) = run_trial(library, seed.wrapping_add(trials), tally);
        trials += 1;
        calls += compared;
        if differing.is_some() {
            return (calls, differing);
        }
    }
    (calls, None)
}

fn run_trial(library: Library, seed: u64, tally: &mut Tally) -> (u64, Option<Differing>) {
    let mut random = Random::new(seed);
    let Ground { kind, mut shape, mut lent, mut state } = Ground::draw(&mut random);
    tally.add(Thing::Tables(kind));
    // Where every call is refused, the words stay as they are.
    let count = 1 + random.below(if matches!(kind, Kind::Spoilt(_) | Kind::Short) { 3 } else { 12 });
    for compared in 1..=count {
        let opens = compared == 1 && random.chance(opening_chance(kind));
        let call = if opens { draw_opening(&shape, &mut random) } else { draw_call(&state, &shape, &mut random) };
        lent.finishes = draw_finish_list(shape.odd, &mut random);
        let Compared { wanted, after, difference } = compare(library, &call, &lent);
        tally.add_call(&call, &state, &wanted);
        if difference.is_some() {
            return (compared, Some(Differing { seed, kind, call, before: lent }));
        }
        if let Ok(outcome) = wanted {
            state = outcome.state;
            (shape.partitions, shape.own) = (state.partitions, state.own);
        }
        lent = after;
    }
    (count, None)
}

/// Per mille: tables of garbage have to be opened before anything else can be done on them.
fn opening_chance(kind: Kind) -> u64 {
    match kind {
        Kind::Garbage | Kind::Ones | Kind::Zeros => 700,
        Kind::Short => 300,
        Kind::Spoilt(_) => 50,
        Kind::Sound => 0,
    }
}

/// Of 32 entries, of a few more, or too short, and full of garbage.
fn draw_finish_list(odd: u64, random: &mut Random) -> Vec<u32> {
    let short = [0, 1, 2, 31, 32, 33, 62, 63];
    let words = if random.chance(odd / 4) { random.one_of(&short) } else { random.one_of(&[64, 64, 64, 64, 65, 66, 1_000]) };
    let word = random.number() as u32;
    (0..words).map(|place| word ^ place).collect()
}
