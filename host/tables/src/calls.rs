//! Calls on a state, right ones and such as are wrong in every way.

use model::{outstanding, sizes, Call, Delivery, Entry, State};
use trial::random::Random;

use crate::shape::{amount, any_number, identity, Shape, EXTREMES};

pub fn draw_call(state: &State, shape: &Shape, random: &mut Random) -> Call {
    match random.below(100) {
        0..=49 => Call::Deliver(draw_delivery(state, shape, random)),
        50..=74 => draw_vote(state, shape, random),
        75..=81 => Call::Change { k: draw_threshold(shape, random) },
        82..=97 => Call::Read { key: draw_key(shape, random), st: (!random.chance(200)).then(|| draw_snapshot(state, random)) },
        _ => draw_opening(shape, random),
    }
}

pub fn draw_opening(shape: &Shape, random: &mut Random) -> Call {
    if !random.chance(shape.odd) {
        let partitions = if random.chance(300) { sizes::PARTITIONS } else { shape.partitions };
        let own = if random.chance(500) { partitions - 1 } else { shape.own };
        return Call::Open { partitions, own, k: draw_threshold(shape, random) };
    }
    let (any, other) = (random.one_of(EXTREMES), random.one_of(EXTREMES));
    let partitions = random.one_of(&[0, shape.partitions, sizes::PARTITIONS + 1, any]);
    let own = random.one_of(&[shape.own, partitions, other]);
    Call::Open { partitions, own, k: draw_threshold(shape, random) }
}

fn draw_threshold(shape: &Shape, random: &mut Random) -> u32 {
    if random.chance(shape.odd) {
        return random.one_of(EXTREMES);
    }
    if random.chance(300) {
        return random.one_of(&[0, sizes::THRESHOLD]);
    }
    random.below(32) as u32
}

fn draw_key(shape: &Shape, random: &mut Random) -> u32 {
    if random.chance(shape.odd) {
        return random.one_of(EXTREMES);
    }
    random.one_of(&shape.keys)
}

/// Most at SC or a little below, and each side of both ends: floor - 1, floor, SC, SC + 1.
fn draw_snapshot(state: &State, random: &mut Random) -> u32 {
    let (floor, sc) = (state.floor(), state.sc);
    match random.below(24) {
        0 => sc + 1,
        1 => floor.saturating_sub(1),
        2 | 3 => floor,
        4 => floor + 1,
        5 => random.one_of(&[0, u32::MAX]),
        6 => any_number(random),
        7..=9 => floor + random.below(u64::from(sc - floor) + 1) as u32,
        10..=14 => sc.saturating_sub(random.below(4) as u32),
        _ => sc,
    }
}

/// For the most part from a partition that is waited for, on an entry near the head, which is what holds up the others.
fn draw_vote(state: &State, shape: &Shape, random: &mut Random) -> Call {
    let yes = !random.chance(shape.no_votes);
    let incomplete = |entry: &&Entry| !outstanding(state, entry).is_empty();
    let missing: Vec<&Entry> = state.waiting.iter().filter(incomplete).collect();
    if random.chance(shape.odd) || missing.is_empty() {
        return Call::Vote { identity: draw_waiting_identity(state, random), partition: draw_partition(shape, random), yes };
    }
    let depth = random.below(missing.len() as u64) + 1;
    let entry = missing[random.below(depth) as usize];
    let heard = random.chance(100);
    let asked = outstanding(state, entry);
    let voters: Vec<u32> = shape.others(entry.transaction.set).into_iter().filter(|partition| heard || asked.contains(partition)).collect();
    Call::Vote { identity: entry.transaction.identity, partition: random.one_of(&voters), yes }
}

/// Now and then of one that doesn't wait.
fn draw_waiting_identity(state: &State, random: &mut Random) -> u32 {
    if state.waiting.is_empty() || random.chance(200) {
        return if random.chance(300) { 0 } else { identity(random) };
    }
    state.waiting[random.below(state.waiting.len() as u64) as usize].transaction.identity
}

/// Those opened, and behind them the first that aren't, and such as a shift would take for another: 32 is 0 there.
fn draw_partition(shape: &Shape, random: &mut Random) -> u32 {
    match random.below(6) {
        0 => shape.own,
        1 => random.one_of(EXTREMES),
        2 => 32 + random.below(32) as u32,
        _ => random.below(9) as u32,
    }
}

fn draw_delivery(state: &State, shape: &Shape, random: &mut Random) -> Delivery {
    let reads = draw_list(shape, random);
    let keys = draw_list(shape, random);
    let mut amounts: Vec<i64> = keys.iter().map(|_| amount(random)).collect();
    if random.chance(shape.odd / 4) {
        // "a lent table too short"
        let length = random.one_of(&[0, keys.len().saturating_sub(1), keys.len() + 1, keys.len() + 9]);
        amounts.resize(length, 1);
    }
    Delivery { identity: draw_newcomer(state, shape, random), set: draw_set(shape, random), st: draw_snapshot(state, random), reads, keys, amounts }
}

fn draw_newcomer(state: &State, shape: &Shape, random: &mut Random) -> u32 {
    if random.chance(shape.odd) {
        return draw_waiting_identity(state, random);
    }
    identity(random)
}

/// Many local ones: they alone can pass others.
fn draw_set(shape: &Shape, random: &mut Random) -> u32 {
    if random.chance(shape.odd) {
        return draw_odd_set(shape, random);
    }
    if random.chance(400) {
        return 1 << shape.own;
    }
    shape.partition_set(random)
}

/// Without our own, with one beyond, and any other.
fn draw_odd_set(shape: &Shape, random: &mut Random) -> u32 {
    let set = shape.partition_set(random);
    match random.below(5) {
        0 => set & !(1 << shape.own),
        1 => set | 1 << shape.partitions,
        2 => set | 1 << (u64::from(shape.partitions) + random.below(32 - u64::from(shape.partitions))),
        3 => random.number() as u32,
        _ => random.one_of(EXTREMES),
    }
}

/// "0 to 8 each, strictly ascending", and what is not.
fn draw_list(shape: &Shape, random: &mut Random) -> Vec<u32> {
    let mut keys = shape.some_keys(random);
    if random.chance(shape.odd) {
        keys.push(random.one_of(&[1_022, 1_023, 1_024, 1_025, 65_535, u32::MAX]));
    }
    if random.chance(shape.odd) {
        let length = random.one_of(&[sizes::KEYS_OF_ONE, 9, 10, 33, 2_000]);
        keys = (random.below(2) as u32..).take(length).collect();
    }
    if random.chance(shape.odd) && keys.len() > 1 {
        let place = random.below(keys.len() as u64 - 1) as usize;
        match random.below(3) {
            0 => keys.swap(place, place + 1),
            1 => keys[place] = keys[place + 1],
            _ => keys.reverse(),
        }
    }
    keys
}
