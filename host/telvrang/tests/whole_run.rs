//! The scope document's whole run, by each of the three ways: typed over both ledgers, and as text.

mod common;

use common::ledgers::{both, Ledger, Told};
use telvrang::{Ballot, Delivery, Desk, Fate, Finish, Reading, Reason, Sizes};

const LOG: &str = "O\t2\t0\t1\nD\t10\t3\t0\t7\t7=500\nD\t11\t1\t0\t8\t8=-40\nV\t10\t1\tY\nR\t8\t-\nR\t7\t1\nD\t12\t1\t1\t7\t7=600\n";
const ANSWERS: &str = "O\t2\t0\t1\nW\t10\t1\t0\nW\t11\t2\t0\nC\t11\t1\nV\t10\t1\nC\t10\t2\nR\t8\t2\t-40\nR\t7\t1\t0\nA\t12\t3\t1\n";

fn run(ledger: &mut dyn Ledger) {
    assert_eq!(ledger.counters(), [2, 0, 0, 0, 1, 0]);
    let ten = ledger.deliver(&Delivery { identity: 10, set: 3, st: 0, reads: &[7], writes: &[(7, 500)] });
    assert_eq!(ten, Ok(Told { dc: 1, fate: Fate::Waits { place: 0 }, send: Some(Ballot::Yes), finishes: vec![] }));
    assert_eq!(ledger.counters(), [2, 0, 0, 1, 1, 1]);

    let eleven = ledger.deliver(&Delivery { identity: 11, set: 1, st: 0, reads: &[8], writes: &[(8, -40)] });
    let finishes = vec![Finish::Committed { identity: 11, version: 1 }];
    assert_eq!(eleven, Ok(Told { dc: 2, fate: Fate::Waits { place: 0 }, send: None, finishes }));
    assert_eq!(ledger.counters(), [2, 0, 1, 2, 1, 1]);

    assert_eq!(ledger.vote(10, 1, Ballot::Yes), Ok(vec![Finish::Committed { identity: 10, version: 2 }]));
    assert_eq!(ledger.counters(), [2, 0, 2, 2, 1, 0]);

    assert_eq!(ledger.read(8, None), Ok(Reading { value: -40, version: 2 }));
    assert_eq!(ledger.read(7, Some(1)), Ok(Reading { value: 0, version: 1 }));

    let twelve = ledger.deliver(&Delivery { identity: 12, set: 1, st: 1, reads: &[7], writes: &[(7, 600)] });
    assert_eq!(twelve, Ok(Told { dc: 3, fate: Fate::Aborted { reason: Reason::Commit }, send: None, finishes: vec![] }));
    assert_eq!(ledger.counters(), [2, 0, 2, 3, 1, 0]);
}

#[test]
fn typed() {
    for mut ledger in both(Sizes { partitions: 2, own: 0, k: 1 }) {
        run(ledger.as_mut());
    }
}

#[test]
fn as_text() {
    let (mut desk, mut answers) = (Desk::new(), Vec::new());
    desk.feed(LOG.as_bytes(), &mut answers).expect("a list takes all");
    assert_eq!(String::from_utf8_lossy(&answers), ANSWERS);
    let engine = desk.finish(&mut answers).expect("a list takes all").expect("the log opens an engine");
    assert_eq!(String::from_utf8_lossy(&answers), ANSWERS);
    assert_eq!(format!("{engine:?}"), "Engine { partitions: 2, own: 0, k: 1, sc: 2, dc: 3, waiting: 0 }");
}
