//! Lists of keys from bytes.

use model::sizes::{KEYS, KEYS_OF_ONE};

use crate::bytes::Bytes;

/// Up to eight keys, ascending: bits say which of eight neighbours. Most lists are of the same few neighbours, so that they clash.
pub fn good_keys(bytes: &mut Bytes) -> Vec<u32> {
    let which = bytes.byte();
    let first = match bytes.below(8) {
        0..=4 => 0,
        5 => KEYS - 8,
        6 => bytes.below(128) * 8,
        _ => return (0..8).filter(|bit| which >> bit & 1 == 1).map(|bit| bit * 146 + 1).collect(),
    };
    (0..8).filter(|bit| which >> bit & 1 == 1).map(|bit| first + bit).collect()
}

/// Good ones for the most part; else any numbers in any order, or nine keys.
pub fn any_keys(bytes: &mut Bytes) -> Vec<u32> {
    match bytes.below(16) {
        0 => (0..bytes.below(13)).map(|_| bytes.number()).collect(),
        1 => (0..=KEYS_OF_ONE as u32).map(|key| bytes.below(2) + key * 2).collect(),
        2 => {
            let mut keys = good_keys(bytes);
            keys.push(bytes.number());
            keys
        }
        _ => good_keys(bytes),
    }
}
