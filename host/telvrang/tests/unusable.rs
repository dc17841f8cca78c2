//! What only lent tables can meet: too short ones, garbage, states that aren't sound, short finish lists. And numbers 8 and those in their order.

mod common;

use common::ledgers::{Ledger, Lent};
use telvrang::lent::{self, Ballot, Refusal, Sizes, Transaction};
use telvrang::{BOOK, FINISHES, SUMS};

const TWO: Sizes = Sizes { partitions: 2, own: 0, k: 1 };
const ELEVEN: Transaction = Transaction { identity: 11, set: 1, st: 0, reads: &[], keys: &[], amounts: &[] };

/// An engine with 10 waiting without votes.
fn with_ten() -> Lent {
    let mut tables = Lent::open(TWO).expect("the sizes are in the table");
    let ten = Transaction { identity: 10, set: 3, reads: &[7], keys: &[7], amounts: &[500], ..ELEVEN };
    tables.change_lent(|book, sums, list| lent::deliver(&ten, book, sums, list)).expect("it is taken");
    tables
}

/// What each event answers on so many words and amounts, and on so many words of a finish list.
fn answers(tables: &Lent, words: usize, amounts: usize, entries: usize) -> [Option<Refusal>; 4] {
    let mut delivered = tables.clone();
    let mut voted = tables.clone();
    let mut changed = tables.clone();
    [
        delivered.change_lent(|book, sums, list| lent::deliver(&ELEVEN, &mut book[..words], &mut sums[..amounts], &mut list[..entries])).err(),
        voted.change_lent(|book, sums, list| lent::vote(10, 1, Ballot::Yes, &mut book[..words], &mut sums[..amounts], &mut list[..entries])).err(),
        changed.change_lent(|book, sums, list| lent::change(5, &mut book[..words], &mut sums[..amounts], &mut list[..entries])).err(),
        lent::read(7, None, &tables.book[..words], &tables.sums[..amounts]).err(),
    ]
}

const TAKEN: [Option<Refusal>; 4] = [None; 4];
const UNUSABLE: [Option<Refusal>; 4] = [Some(Refusal::Unusable); 4];

fn all(tables: &Lent) -> [Option<Refusal>; 4] {
    answers(tables, BOOK, SUMS, FINISHES)
}

/// "A lent table is too short when it holds fewer entries than one stated constant"
#[test]
fn short_tables() {
    let tables = with_ten();
    assert_eq!(all(&tables), TAKEN);
    assert_eq!(answers(&tables, BOOK + 2, SUMS + 2, FINISHES + 4), TAKEN);
    for words in [0, 1, 6, BOOK - 1] {
        assert_eq!(answers(&tables, words, SUMS, FINISHES), UNUSABLE);
    }
    for amounts in [0, 1, SUMS - 1] {
        assert_eq!(answers(&tables, BOOK, amounts, FINISHES), UNUSABLE);
    }
}

/// "the lent finish list holds fewer than 32 entries": of a delivery, a vote, a change, and before 13.
#[test]
fn short_list() {
    let little = [Some(Refusal::LittleRoom), Some(Refusal::LittleRoom), Some(Refusal::LittleRoom), None];
    for entries in [0, 1, 2, FINISHES - 2, FINISHES - 1] {
        assert_eq!(answers(&with_ten(), BOOK, SUMS, entries), little);
    }
    let both = [Some(Refusal::LittleRoom), Some(Refusal::LittleRoom), Some(Refusal::LittleRoom), Some(Refusal::Unusable)];
    assert_eq!(answers(&Lent::garbage(), 0, 0, FINISHES - 1), both);
}

/// "opening: [..] either: a lent table too short"
#[test]
fn short_opening() {
    for (words, amounts, refusal) in [(BOOK, SUMS, None), (BOOK - 1, SUMS, Some(Refusal::Unusable)), (BOOK, SUMS - 1, Some(Refusal::Unusable))] {
        let mut tables = Lent::garbage();
        let opened = tables.change_lent(|book, sums, _| lent::open(TWO, &mut book[..words], &mut sums[..amounts]));
        assert_eq!(opened.err(), refusal);
    }
    assert_eq!(lent::open(TWO, &mut [], &mut []), Err(Refusal::Unusable));
}

#[test]
fn garbage() {
    assert_eq!(all(&Lent::garbage()), UNUSABLE);
    assert_eq!(all(&Lent { book: vec![0; BOOK], sums: vec![0; SUMS], list: vec![0; FINISHES] }), UNUSABLE);
    assert_eq!(all(&Lent { book: vec![u32::MAX; BOOK], sums: vec![i64::MIN; SUMS], list: vec![0; FINISHES] }), UNUSABLE);
}

/// What begins row 0 of those that wait: identity, set, st, rt, yes votes, no votes, how many keys it read and wrote; then the keys.
const ROW: usize = 6;

/// "A state is sound when": each condition broken by one word, beside a word that keeps it.
#[test]
fn unsound() {
    let whole = with_ten();
    let broken_and_kept = [
        (0, 9, 8), // partitions
        (0, 0, 3), // none; rows name two
        (0, 1, 2), // beyond the number opened
        (1, 2, 0), // own
        (2, 1, 0), // SC and waiting are at most DC
        (3, 0, 1), // DC
        (3, 4_000_000_001, 4_000_000_000),
        (4, 32, 31),       // k
        (5, 33, 1),        // waiting
        (ROW, 0, 10),      // identity
        (ROW + 1, 2, 3),   // the set holds our own
        (ROW + 1, 7, 3),   // and none beyond the number opened
        (ROW + 3, 33, 32), // "every rt is at most DC + 31"
        (ROW + 4, 1, 2),   // "stored votes come from other involved partitions"
        (ROW + 4, 4, 0),
        (ROW + 5, 1, 2),
        (ROW + 6, 9, 1), // keys read
        (ROW + 7, 9, 1), // keys written
        (ROW + 8, 1_024, 1_023),
        (ROW + 16, 1_024, 1_023),
    ];
    for (at, broken, kept) in broken_and_kept {
        let mut tables = whole.clone();
        tables.book[at] = broken;
        assert_eq!(all(&tables), UNUSABLE, "word {at} is {broken}");
        tables.book[at] = kept;
        assert_eq!(all(&tables)[2], None, "word {at} is {kept}");
    }
}

/// "DC is 4,000,000,000", from both sides; no log gets there.
#[test]
fn last_delivery() {
    let mut tables = with_ten();
    tables.book[3] = 3_999_999_999;
    let told = tables.change_lent(|book, sums, list| lent::deliver(&ELEVEN, book, sums, list)).expect("it is taken");
    assert_eq!((told.dc, tables.counters()[3]), (4_000_000_000, 4_000_000_000));
    let next = Transaction { identity: 12, ..ELEVEN };
    assert_eq!(tables.change_lent(|book, sums, list| lent::deliver(&next, book, sums, list)), Err(Refusal::LastDelivery));
    assert!(tables.change_lent(|book, sums, list| lent::vote(10, 1, Ballot::Yes, book, sums, list)).is_ok());
}

/// A write has a key and an amount.
#[test]
fn lists_of_different_lengths() {
    for (keys, amounts) in [(&[1, 2][..], &[5][..]), (&[1], &[5, 6]), (&[1], &[]), (&[], &[5]), (&[1, 2, 3, 4, 5, 6, 7, 8, 9], &[])] {
        let t = Transaction { set: 0, keys, amounts, ..ELEVEN };
        assert_eq!(with_ten().change_lent(|book, sums, list| lent::deliver(&t, book, sums, list)), Err(Refusal::Unusable));
    }
}

/// "Then come 15 and 13, in that order, then those of the event in rising order": a delivery that meets all, one condition taken away after the other.
#[test]
fn order_of_numbers() {
    let mut tables = Lent::open(Sizes { k: 0, ..TWO }).expect("the sizes are in the table");
    let mut deliver = |t: Transaction| tables.change_lent(|book, sums, list| lent::deliver(&t, book, sums, list)).err();
    for identity in 1..=65 {
        assert_eq!(deliver(Transaction { identity, ..ELEVEN }), None);
    }
    for identity in 100..132 {
        assert_eq!(deliver(Transaction { identity, set: 3, st: 65, ..ELEVEN }), None);
    }
    tables.book[3] = 4_000_000_000;
    let many: [u32; 9] = [1_024; 9];
    let all_wrong = Transaction { identity: 100, set: 2, st: 66, reads: &many, keys: &many, amounts: &[1; 8] };
    let mut refused =
        |t: Transaction, room: usize| tables.change_lent(|book, sums, list| lent::deliver(&t, book, sums, &mut list[..room])).err().map(Refusal::number);
    assert_eq!(refused(all_wrong, FINISHES - 1), Some(15));
    assert_eq!(refused(all_wrong, FINISHES), Some(13));
    let even = Transaction { amounts: &[1; 9], ..all_wrong };
    assert_eq!(refused(even, FINISHES), Some(1));
    let involved = Transaction { set: 1, ..even };
    assert_eq!(refused(involved, FINISHES), Some(2));
    let few = Transaction { reads: &many[..2], keys: &[], amounts: &[], ..involved };
    assert_eq!(refused(few, FINISHES), Some(3));
    let ascending = Transaction { reads: &[], ..few };
    assert_eq!(refused(ascending, FINISHES), Some(4));
    let other = Transaction { identity: 99, ..ascending };
    assert_eq!(refused(other, FINISHES), Some(5));
    assert_eq!(refused(Transaction { st: 0, ..other }, FINISHES), Some(6));
    assert_eq!(refused(Transaction { st: 1, ..other }, FINISHES), Some(7));
    tables.book[5] = 31;
    let answer = tables.change_lent(|book, sums, list| lent::deliver(&Transaction { st: 1, ..other }, book, sums, list));
    assert_eq!(answer, Err(Refusal::LastDelivery));
    tables.book[3] = 3_999_999_999;
    let answer = tables.change_lent(|book, sums, list| lent::deliver(&Transaction { st: 1, ..other }, book, sums, list));
    assert_eq!(answer.map(|told| told.dc), Ok(4_000_000_000));
}
