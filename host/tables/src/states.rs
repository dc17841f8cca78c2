//! Sound states, most of which no log gives: any SC, lists that aren't at rest, thresholds and votes of any kind, clashes among those that wait.

use model::{sizes, Commit, Entry, State, Transaction};
use trial::random::Random;

use crate::shape::{amount, any_number, identity, Shape};

pub fn draw_state(shape: &Shape, random: &mut Random) -> State {
    let most_waiting = sizes::WAITING as u64;
    let waiting = match random.below(6) {
        0 => 0,
        1 => most_waiting,
        2 => most_waiting - 1,
        3 => random.below(4),
        _ => random.below(most_waiting + 1),
    };
    let dc = draw_dc(random).max(waiting as u32);
    let sc = draw_sc(dc - waiting as u32, random);
    State {
        partitions: shape.partitions,
        own: shape.own,
        sc,
        dc,
        k: if random.chance(300) { random.one_of(&[0, sizes::THRESHOLD]) } else { random.below(32) as u32 },
        waiting: draw_waiting(waiting, dc, shape, random),
        kept: draw_kept(sc, shape, random),
        values: (0..sizes::KEYS).map(|_| amount(random)).collect(),
    }
}

/// "DC: up to 4,000,000,000", where one at it refuses deliveries.
fn draw_dc(random: &mut Random) -> u32 {
    match random.below(8) {
        0 => sizes::DELIVERIES,
        1 => sizes::DELIVERIES - 1,
        2 => sizes::DELIVERIES - random.below(70) as u32,
        3 | 4 => random.below(200) as u32,
        _ => random.below(u64::from(sizes::DELIVERIES) + 1) as u32,
    }
}

/// "SC plus waiting is at most DC", and often just at it. The floor begins to rise at 65.
fn draw_sc(most: u32, random: &mut Random) -> u32 {
    match random.below(5) {
        0 => most,
        1 => most.min(random.one_of(&[0, 1, 63, 64, 65, 66])),
        2 => most.min(random.below(130) as u32),
        _ => random.below(u64::from(most) + 1) as u32,
    }
}

fn draw_waiting(count: u64, dc: u32, shape: &Shape, random: &mut Random) -> Vec<Entry> {
    let mut waiting: Vec<Entry> = Vec::new();
    while waiting.len() < count as usize {
        let identity = identity(random);
        if waiting.iter().all(|entry| entry.transaction.identity != identity) {
            waiting.push(draw_entry(identity, dc, shape, random));
        }
    }
    waiting
}

fn draw_entry(identity: u32, dc: u32, shape: &Shape, random: &mut Random) -> Entry {
    let set = shape.partition_set(random);
    let (mut ayes, mut nays) = (0, 0);
    for partition in shape.others(set) {
        let (heard, no) = (random.chance(shape.heard), random.chance(shape.no_votes));
        // Nothing forbids a partition to stand with both.
        if heard && (!no || random.chance(100)) {
            ayes |= 1 << partition;
        }
        if heard && no {
            nays |= 1 << partition;
        }
    }
    // Nothing is asked of the st of one that waits.
    let transaction = Transaction { identity, set, st: any_number(random), reads: shape.some_keys(random), writes: shape.some_writes(random) };
    Entry { transaction, rt: draw_rt(dc, shape, random), ayes, nays }
}

/// "every rt is at most DC + 31"
fn draw_rt(dc: u32, shape: &Shape, random: &mut Random) -> u32 {
    if random.chance(shape.come) {
        return match random.below(4) {
            0 => dc,
            1 => 0,
            2 => dc.saturating_sub(random.below(4) as u32),
            _ => random.below(u64::from(dc) + 1) as u32,
        };
    }
    match random.below(4) {
        0 => dc + sizes::THRESHOLD,
        1 => dc + 1 + random.below(2) as u32,
        _ => dc + random.below(32) as u32,
    }
}

/// "kept commits number the smaller of SC and 64". Most write little, so that a newcomer behind them need not clash.
fn draw_kept(sc: u32, shape: &Shape, random: &mut Random) -> Vec<Commit> {
    let crowded = random.one_of(&[20, 200, 1_000]);
    let draw_commit = |_| {
        if !random.chance(crowded) {
            return Commit { identity: any_number(random), ..Commit::default() };
        }
        Commit { identity: any_number(random), reads: shape.some_keys(random), writes: shape.some_writes(random) }
    };
    (0..sc.min(sizes::KEPT)).map(draw_commit).collect()
}
