//! Calls from bytes, with the state in view that the tables hold, if they hold one: only so do most get past the first refusals.

use model::sizes::KEPT;
use model::{Call, Delivery, State};

use super::keys::any_keys;
use crate::bytes::Bytes;

pub fn call(state: Option<&State>, bytes: &mut Bytes) -> Call {
    match bytes.below(16) {
        0 => Call::Open { partitions: bytes.number(), own: bytes.number(), k: bytes.number() },
        1 => Call::Change { k: bytes.number() },
        2..=3 => Call::Read { key: bytes.number(), st: (bytes.below(4) > 0).then(|| snapshot(state, bytes)) },
        4..=7 => Call::Vote { identity: identity(state, bytes), partition: partition(bytes), yes: bytes.below(4) > 0 },
        _ => Call::Deliver(delivery(state, bytes)),
    }
}

fn delivery(state: Option<&State>, bytes: &mut Bytes) -> Delivery {
    let identity = if bytes.below(16) == 0 { identity(state, bytes) } else { 1_000 + u32::from(bytes.byte()) };
    let (set, st, reads, keys) = (partition_set(state, bytes), snapshot(state, bytes), any_keys(bytes), any_keys(bytes));
    let mut amounts: Vec<i64> = keys.iter().map(|_| bytes.amount()).collect();
    // The two lists of what is written may be of different lengths.
    match bytes.byte() {
        0xFE => amounts.push(1),
        0xFF => drop(amounts.pop()),
        _ => {}
    }
    Delivery { identity, set, st, reads, keys, amounts }
}

/// One that waits, for the most part.
fn identity(state: Option<&State>, bytes: &mut Bytes) -> u32 {
    let place = usize::from(bytes.byte());
    let entry = state.and_then(|state| state.waiting.get(place % 33));
    entry.map_or_else(|| bytes.number(), |entry| entry.transaction.identity)
}

fn partition(bytes: &mut Bytes) -> u32 {
    match bytes.byte() {
        any @ 0xF0.. => u32::from(any) << 24 | bytes.below(9),
        few => u32::from(few) % 9,
    }
}

/// Our own alone, our own and others, or any number.
fn partition_set(state: Option<&State>, bytes: &mut Bytes) -> u32 {
    let (own, opened) = state.map_or((1, 0xFF), |state| (1u32.unbounded_shl(state.own), 1u32.unbounded_shl(state.partitions).wrapping_sub(1)));
    match bytes.below(8) {
        0 => bytes.number(),
        1..=3 => own,
        _ => own | u32::from(bytes.byte()) & opened,
    }
}

/// From just above SC to just below the floor, or any number.
fn snapshot(state: Option<&State>, bytes: &mut Bytes) -> u32 {
    let sc = state.map_or(0, |state| state.sc);
    match bytes.below(8) {
        0 => bytes.number(),
        1 => sc.saturating_sub(bytes.below(KEPT + 2)),
        2 => sc.wrapping_add(1),
        _ => sc.saturating_sub(bytes.below(4)),
    }
}
