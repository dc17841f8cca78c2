//! Each number that refuses a typed event, from both sides, over both ledgers. The lent one holds each refusal to leave every word as it was.

mod common;

use common::ledgers::{both, Ledger, OPENINGS};
use telvrang::{Ballot, Delivery, Fate, Reason, Refusal, Sizes};

const TWO: Sizes = Sizes { partitions: 2, own: 0, k: 1 };
const ELEVEN: Delivery = Delivery { identity: 11, set: 1, st: 0, reads: &[], writes: &[] };

/// "Unless said otherwise: two partitions, own 0, k = 1, delivery 10 [..] waiting without votes."
fn with_ten() -> [Box<dyn Ledger>; 2] {
    let mut ledgers = both(TWO);
    for ledger in &mut ledgers {
        ledger.deliver(&Delivery { identity: 10, set: 3, reads: &[7], writes: &[(7, 500)], ..ELEVEN }).expect("10 is taken");
    }
    ledgers
}

/// A delivery that is refused, and leaves the counters; and one beside it that is taken.
fn refused_and_taken(mut ledgers: [Box<dyn Ledger>; 2], number: u32, refused: Delivery, taken: Delivery) {
    for ledger in &mut ledgers {
        let before = ledger.counters();
        let refusal = ledger.deliver(&refused).expect_err("it is refused");
        assert_eq!(refusal.number(), number);
        assert_eq!(ledger.counters(), before);
        let told = ledger.deliver(&taken).expect("it is taken");
        assert_eq!(told.dc, before[3] + 1);
    }
}

/// Version v writes v to key v, so many.
fn with_commits(count: u32) -> [Box<dyn Ledger>; 2] {
    let mut ledgers = both(TWO);
    for ledger in &mut ledgers {
        for version in 1..=count {
            ledger.deliver(&Delivery { identity: version, writes: &[(version, version.into())], ..ELEVEN }).expect("it is taken");
        }
        assert_eq!(ledger.counters()[2], count);
    }
    ledgers
}

/// "partition set lacks our own, or names one beyond the number opened"
#[test]
fn partition_set() {
    for set in [0, 2, 4, 5, 7, 1 << 31 | 1, u32::MAX] {
        refused_and_taken(with_ten(), 1, Delivery { set, ..ELEVEN }, Delivery { set: 3, ..ELEVEN });
    }
    let eight = Sizes { partitions: 8, own: 7, k: 0 };
    refused_and_taken(both(eight), 1, Delivery { set: 127, ..ELEVEN }, Delivery { set: 255, ..ELEVEN });
    refused_and_taken(both(eight), 1, Delivery { set: 256 | 128, ..ELEVEN }, Delivery { set: 128, ..ELEVEN });
}

/// "more than 8 keys read or more than 8 written"
#[test]
fn many_keys() {
    let keys: [u32; 9] = [10, 11, 12, 13, 14, 15, 16, 17, 18];
    let writes = keys.map(|key| (key, 1));
    let eight = Delivery { reads: &keys[..8], writes: &writes[..8], ..ELEVEN };
    refused_and_taken(with_ten(), 2, Delivery { reads: &keys, ..eight }, eight);
    refused_and_taken(with_ten(), 2, Delivery { writes: &writes, ..eight }, eight);
    refused_and_taken(with_ten(), 2, Delivery { reads: &[1_024; 10], ..eight }, eight);
    refused_and_taken(with_ten(), 2, Delivery { writes: &[(5_000, 1); 1_000], ..eight }, eight);
}

/// "a key over 1,023; delivery: keys not strictly ascending"
#[test]
fn key() {
    let taken = Delivery { reads: &[0, 1_023], writes: &[(0, 1), (1_023, 2)], ..ELEVEN };
    for reads in [&[1_024][..], &[0, 1_024], &[u32::MAX], &[5, 5], &[6, 5], &[1, 2, 2]] {
        refused_and_taken(with_ten(), 3, Delivery { reads, ..ELEVEN }, taken);
        let writes: Vec<(u32, i64)> = reads.iter().map(|key| (*key, 1)).collect();
        refused_and_taken(with_ten(), 3, Delivery { writes: &writes, ..ELEVEN }, taken);
    }
    for ledger in with_ten() {
        for st in [None, Some(0), Some(9)] {
            assert_eq!(ledger.read(1_024, st), Err(Refusal::Key));
        }
        assert_eq!(ledger.read(1_023, None).map(|reading| reading.value), Ok(0));
    }
}

/// "identity 0, or an identity now waiting"
#[test]
fn identity() {
    refused_and_taken(with_ten(), 4, Delivery { identity: 0, ..ELEVEN }, Delivery { identity: 1, ..ELEVEN });
    refused_and_taken(with_ten(), 4, Delivery { identity: 10, ..ELEVEN }, Delivery { identity: u32::MAX, ..ELEVEN });
    for mut ledger in with_ten() {
        ledger.vote(10, 1, Ballot::No).expect("it is heard");
        assert_eq!(ledger.deliver(&Delivery { identity: 10, ..ELEVEN }), Err(Refusal::Identity));
        ledger.deliver(&ELEVEN).expect("it is taken, and 10 finishes");
        assert!(ledger.deliver(&Delivery { identity: 10, ..ELEVEN }).is_ok());
    }
}

/// "st > SC": "st = SC is taken; SC + 1 is 5."
#[test]
fn snapshot_ahead() {
    let next = Delivery { identity: 90, ..ELEVEN };
    refused_and_taken(with_commits(1), 5, Delivery { st: 2, ..next }, Delivery { st: 1, ..next });
    for ledger in with_commits(1) {
        assert_eq!(ledger.read(1, Some(1)).map(|reading| reading.value), Ok(1));
        assert_eq!(ledger.read(1, Some(2)), Err(Refusal::SnapshotAhead));
        assert_eq!(ledger.read(1, Some(u32::MAX)), Err(Refusal::SnapshotAhead));
    }
}

/// "st < floor": "SC 64: st 0 is taken. SC 65: st 0 is 6, st 1 is taken."
#[test]
fn snapshot_folded() {
    let next = Delivery { identity: 90, ..ELEVEN };
    for mut ledger in with_commits(64) {
        assert_eq!(ledger.read(1, Some(0)).map(|reading| reading.value), Ok(0));
        assert!(ledger.deliver(&next).is_ok());
    }
    refused_and_taken(with_commits(65), 6, next, Delivery { st: 1, ..next });
    for ledger in with_commits(65) {
        assert_eq!(ledger.read(1, Some(0)), Err(Refusal::SnapshotFolded));
        assert_eq!(ledger.read(1, Some(1)).map(|reading| reading.value), Ok(1));
    }
}

/// "32 already waiting": "With 31 waiting a delivery is taken, with 32 it is 7." The vote of the head then finishes all 32.
#[test]
fn full_list() {
    for mut ledger in both(Sizes { k: 0, ..TWO }) {
        for identity in 1..=31 {
            ledger.deliver(&Delivery { identity, set: 3, ..ELEVEN }).expect("it is taken");
        }
        let told = ledger.deliver(&Delivery { identity: 32, ..ELEVEN }).expect("31 are waiting");
        assert_eq!(told.fate, Fate::Waits { place: 31 });
        assert_eq!(ledger.deliver(&Delivery { identity: 33, ..ELEVEN }), Err(Refusal::FullList));
        for identity in 2..=31 {
            assert_eq!(ledger.vote(identity, 1, Ballot::Yes), Ok(vec![]));
        }
        assert_eq!(ledger.counters(), [2, 0, 0, 32, 0, 32]);
        assert_eq!(ledger.vote(1, 1, Ballot::Yes).map(|finishes| finishes.len()), Ok(32));
        assert_eq!(ledger.counters(), [2, 0, 32, 32, 0, 0]);
    }
}

/// "identity not waiting"
#[test]
fn not_waiting() {
    for mut ledger in with_ten() {
        for identity in [0, 9, 11, u32::MAX] {
            assert_eq!(ledger.vote(identity, 1, Ballot::Yes), Err(Refusal::NotWaiting));
        }
        assert!(ledger.vote(10, 1, Ballot::Yes).is_ok());
    }
}

/// "from our own partition, or one not involved"
#[test]
fn not_asked() {
    for mut ledger in both(Sizes { partitions: 3, ..TWO }) {
        ledger.deliver(&Delivery { set: 3, ..ELEVEN }).expect("it is taken");
        ledger.deliver(&Delivery { identity: 12, ..ELEVEN }).expect("it is taken"); // a local one, behind it
        for partition in [0, 2, 3, 8, 31, 32, 33, 255, u32::MAX] {
            assert_eq!(ledger.vote(11, partition, Ballot::Yes), Err(Refusal::NotAsked));
        }
        assert!(ledger.vote(11, 1, Ballot::Yes).is_ok());
    }
}

/// "that partition has voted on it"
#[test]
fn has_voted() {
    for mut ledger in both(Sizes { partitions: 3, ..TWO }) {
        ledger.deliver(&Delivery { set: 7, ..ELEVEN }).expect("it is taken");
        assert!(ledger.vote(11, 1, Ballot::Yes).is_ok());
        assert_eq!(ledger.vote(11, 1, Ballot::Yes), Err(Refusal::HasVoted));
        assert_eq!(ledger.vote(11, 1, Ballot::No), Err(Refusal::HasVoted));
        assert!(ledger.vote(11, 2, Ballot::No).is_ok());
        assert_eq!(ledger.vote(11, 2, Ballot::Yes), Err(Refusal::HasVoted));
    }
}

/// "k over 31"
#[test]
fn threshold() {
    for mut ledger in with_ten() {
        for k in [0, 31, 5] {
            assert!(ledger.change(k).is_ok());
            assert_eq!(ledger.counters()[4], k);
        }
        for k in [32, 33, u32::MAX] {
            assert_eq!(ledger.change(k), Err(Refusal::Threshold));
            assert_eq!(ledger.counters()[4], 5);
        }
    }
}

/// "opening: sizes outside the table"
#[test]
fn sizes() {
    for open in OPENINGS {
        for (partitions, own, k) in [(1, 0, 0), (1, 0, 31), (8, 0, 31), (8, 7, 0)] {
            assert!(open(Sizes { partitions, own, k }).is_ok());
        }
        for (partitions, own, k) in [(0, 0, 0), (9, 0, 0), (u32::MAX, 0, 0), (1, 1, 0), (8, 8, 0), (8, u32::MAX, 0), (1, 0, 32), (8, 7, u32::MAX)] {
            assert_eq!(open(Sizes { partitions, own, k }).err(), Some(Refusal::Unusable));
        }
    }
}

/// The reasons are no refusals: "Global reads 9, writes 7: reason 2", "Local reads 7, writes 7, at DC 2: reason 3", and 1 comes before both.
#[test]
fn reasons() {
    for (set, reads, reason) in [(3, 9, Reason::Waiting), (1, 7, Reason::NoPlace)] {
        for mut ledger in with_ten() {
            let told = ledger.deliver(&Delivery { set, reads: &[reads], writes: &[(7, 60)], ..ELEVEN }).expect("it is taken");
            assert_eq!((told.dc, told.fate), (2, Fate::Aborted { reason }));
            assert_eq!(told.send, (set == 3).then_some(Ballot::No));
        }
    }
    for mut ledger in with_commits(1) {
        let told = ledger.deliver(&Delivery { set: 3, reads: &[1], ..ELEVEN }).expect("it is taken");
        assert_eq!((told.fate, told.send), (Fate::Aborted { reason: Reason::Commit }, Some(Ballot::No)));
    }
}
