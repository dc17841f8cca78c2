//! What needs an engine's own words: number 8, and that a refusal leaves all of them as they were.

use crate::answers::Ballot;
use crate::delivery::Delivery;
use crate::engine::Engine;
use crate::refusal::Refusal;
use crate::sizes::Sizes;

const NEXT: Delivery = Delivery { identity: 90, set: 1, st: 65, reads: &[], writes: &[] };

/// 65 commits, so that two are folded, and a list with room for one.
fn engine() -> Engine {
    let mut engine = Engine::open(Sizes { partitions: 3, own: 0, k: 0 }).expect("the sizes are in the table");
    for version in 1..=65 {
        engine.deliver(&Delivery { identity: version, st: version - 1, writes: &[(version, -1)], ..NEXT }).expect("it is taken");
    }
    for identity in 101..=131 {
        engine.deliver(&Delivery { identity, set: 3, ..NEXT }).expect("it is taken");
    }
    engine.vote(131, 1, Ballot::No).expect("131 waits");
    assert_eq!((engine.sc(), engine.dc(), engine.waiting()), (65, 96, 31));
    engine
}

/// "leaves DC and all lent memory untouched"
fn refused<T>(engine: &mut Engine, number: u32, event: impl FnOnce(&mut Engine) -> Result<T, Refusal>) {
    let before = engine.clone();
    assert_eq!(event(engine).err().map(Refusal::number), Some(number));
    assert!(engine.words() == before.words(), "{number} changed a word");
}

#[test]
fn a_refusal_leaves_every_word() {
    let mut engine = engine();
    refused(&mut engine, 1, |engine| engine.deliver(&Delivery { set: 2, ..NEXT }).map(drop));
    refused(&mut engine, 2, |engine| engine.deliver(&Delivery { reads: &[5; 9], ..NEXT }).map(drop));
    refused(&mut engine, 2, |engine| engine.deliver(&Delivery { writes: &[(5, 5); 20], ..NEXT }).map(drop));
    refused(&mut engine, 3, |engine| engine.deliver(&Delivery { reads: &[1_024], ..NEXT }).map(drop));
    refused(&mut engine, 4, |engine| engine.deliver(&Delivery { identity: 101, ..NEXT }).map(drop));
    refused(&mut engine, 5, |engine| engine.deliver(&Delivery { st: 66, ..NEXT }).map(drop));
    refused(&mut engine, 6, |engine| engine.deliver(&Delivery { st: 0, ..NEXT }).map(drop));
    refused(&mut engine, 9, |engine| engine.vote(90, 1, Ballot::Yes).map(drop));
    refused(&mut engine, 10, |engine| engine.vote(101, 2, Ballot::Yes).map(drop));
    refused(&mut engine, 11, |engine| engine.vote(131, 1, Ballot::Yes).map(drop));
    refused(&mut engine, 12, |engine| engine.change(32).map(drop));
    refused(&mut engine, 3, |engine| engine.read(1_024, 65));
    refused(&mut engine, 5, |engine| engine.read(0, 66));
    refused(&mut engine, 6, |engine| engine.read(0, 0));
    engine.deliver(&NEXT).expect("31 are waiting");
    refused(&mut engine, 7, |engine| engine.deliver(&Delivery { identity: 91, ..NEXT }).map(drop));
}

/// "DC is 4,000,000,000", from both sides.
#[test]
fn last_delivery() {
    let mut engine = engine();
    engine.set_dc(3_999_999_999);
    assert_eq!(engine.deliver(&NEXT).map(|outcome| outcome.dc), Ok(4_000_000_000));
    engine.vote(101, 1, Ballot::Yes).expect("101 waits");
    assert_eq!((engine.dc(), engine.waiting()), (4_000_000_000, 31));
    refused(&mut engine, 8, |engine| engine.deliver(&Delivery { identity: 91, ..NEXT }).map(drop));
}

/// Nine writes are too many, so that whatever stands behind the ninth changes no answer: one that 1 refuses stays refused by 1.
#[test]
fn many_writes() {
    let mut engine = engine();
    let writes: Vec<(u32, i64)> = (0..1_023).map(|key| (key, 1)).collect();
    for count in [9, 10, 1_023] {
        refused(&mut engine, 2, |engine| engine.deliver(&Delivery { writes: &writes[..count], identity: 0, ..NEXT }).map(drop));
        refused(&mut engine, 1, |engine| engine.deliver(&Delivery { writes: &writes[..count], set: 2, ..NEXT }).map(drop));
    }
    assert!(engine.deliver(&Delivery { writes: &writes[..8], ..NEXT }).is_ok());
}
