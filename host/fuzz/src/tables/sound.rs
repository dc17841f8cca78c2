//! A sound state from bytes: most are none that a log gives.

use model::sizes::{DELIVERIES, KEPT, KEYS, PARTITIONS, THRESHOLD, WAITING};
use model::{opening_state, Commit, Entry, State, Transaction, Write};

use super::keys::good_keys;
use crate::bytes::Bytes;

pub fn sound_state(bytes: &mut Bytes) -> State {
    let partitions = 1 + bytes.below(PARTITIONS);
    let mut state = opening_state(partitions, bytes.below(partitions), bytes.below(THRESHOLD + 1));
    let waiting = bytes.below(WAITING as u32 + 1);
    state.sc = match bytes.below(4) {
        0 => bytes.below(KEPT),
        1 => KEPT - 2 + bytes.below(6),
        2 => bytes.number().min(DELIVERIES - waiting),
        _ => DELIVERIES - waiting - bytes.below(3),
    };
    let least = state.sc + waiting;
    state.dc = least + bytes.number().min(DELIVERIES - least);
    state.kept = kept(state.sc.min(KEPT), bytes);
    for _ in 0..bytes.below(8) {
        let key = bytes.word() % KEYS;
        state.values[key as usize] = bytes.amount();
    }
    for place in 0..waiting {
        let entry = entry(place, &state, bytes);
        state.waiting.push(entry);
    }
    state
}

/// A few in a row have read and written: those that are folded next, or the newest, or some between. The others nothing.
fn kept(count: u32, bytes: &mut Bytes) -> Vec<Commit> {
    let between = bytes.below(KEPT);
    let first = bytes.one_of(&[0, count.saturating_sub(4), between]);
    let touching = first..first + bytes.below(KEPT + 1);
    let commit = |place| {
        if !touching.contains(&place) {
            return Commit { identity: place, ..Commit::default() };
        }
        Commit { identity: bytes.number(), reads: good_keys(bytes), writes: writes(bytes) }
    };
    (0..count).map(commit).collect()
}

/// "waiting identities are nonzero and different; each waiting partition set holds our own and none beyond the number opened; stored votes come from other
/// involved partitions; every rt is at most DC + 31". A partition may stand in both masks.
fn entry(place: u32, state: &State, bytes: &mut Bytes) -> Entry {
    let own = 1 << state.own;
    let opened = (1 << state.partitions) - 1;
    let identity = if bytes.below(8) == 0 { u32::MAX - place } else { 1 + place };
    let set = own | u32::from(bytes.byte()) & opened;
    let most = state.dc + THRESHOLD;
    let rt = if bytes.below(8) == 0 { bytes.number().min(most) } else { most - bytes.below(64).min(most) };
    let votes = bytes.byte();
    let nays = if bytes.below(4) == 0 { bytes.byte() } else { 0 };
    let others = set & !own;
    let transaction = Transaction { identity, set, st: bytes.number(), reads: good_keys(bytes), writes: writes(bytes) };
    Entry { transaction, rt, ayes: u32::from(votes) & others, nays: u32::from(nays) & others }
}

fn writes(bytes: &mut Bytes) -> Vec<Write> {
    good_keys(bytes).into_iter().map(|key| (key, bytes.amount())).collect()
}
