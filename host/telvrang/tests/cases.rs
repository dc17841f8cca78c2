//! Every case as text: through a desk, whole and in pieces, and through the lent operation with little room for answers.

mod common;

use common::cases::{cases, compare, Case};
use common::random::{random_cut, Random};
use telvrang::lent::{self, Standing};
use telvrang::{Desk, ANSWERS, BOOK, SUMS};

fn answers_of<'a>(pieces: impl IntoIterator<Item = &'a [u8]>) -> Vec<u8> {
    let (mut desk, mut answers) = (Desk::new(), Vec::new());
    for piece in pieces {
        desk.feed(piece, &mut answers).expect("a list takes all");
    }
    desk.finish(&mut answers).expect("a list takes all");
    answers
}

fn in_pieces(size: usize) {
    for case in cases() {
        compare(&case, &format!("pieces of {size}"), &answers_of(case.log.chunks(size)));
    }
}

#[test]
fn whole() {
    for case in cases() {
        compare(&case, "whole", &answers_of([&case.log[..]]));
    }
}

#[test]
fn pieces_of_one() {
    in_pieces(1);
}

#[test]
fn pieces_of_few() {
    for size in [2, 3, 7, 64] {
        in_pieces(size);
    }
}

/// "A line over 512 bytes without its newline"
#[test]
fn pieces_of_a_line() {
    for size in [511, 512, 513] {
        in_pieces(size);
    }
}

/// A desk holds 65,536 bytes at most, up to 512 of them from before.
#[test]
fn pieces_of_a_chunk() {
    for size in [65_023, 65_024, 65_025, 65_535, 65_536, 65_537] {
        in_pieces(size);
    }
}

#[test]
fn random_cuts() {
    let mut random = Random::new(1);
    for case in cases() {
        for cut in 0..10 {
            compare(&case, &format!("random cut {cut}"), &answers_of(random_cut(&case.log, &mut random)));
        }
    }
}

#[test]
fn empty_pieces_between() {
    for case in cases() {
        let pieces = case.log.chunks(64).flat_map(|piece| [&piece[..0], piece, &piece[..0]]);
        compare(&case, "empty pieces between", &answers_of(pieces));
    }
}

/// A whole log that is lent, with so much room: each call goes on where the last one stopped.
fn lent_with_room(case: &Case, room: usize) {
    let (mut book, mut sums, mut out) = ([7; BOOK], [-7; SUMS], vec![0; room]);
    let (mut standing, mut rest, mut answers) = (Standing::default(), &case.log[..], Vec::new());
    loop {
        let fed = lent::feed(rest, true, standing, &mut book, &mut sums, &mut out);
        answers.extend_from_slice(&out[..fed.wrote]);
        rest = &rest[fed.taken..];
        standing = fed.standing;
        if !fed.full {
            break;
        }
        assert!(fed.taken > 0, "{}: it goes on", case.name);
    }
    assert!(rest.is_empty(), "{}: nothing is left", case.name);
    compare(case, &format!("room for {room} bytes"), &answers);
}

#[test]
fn little_room() {
    for case in cases() {
        for room in [ANSWERS, ANSWERS + 1, ANSWERS + 100, 4 * ANSWERS] {
            lent_with_room(&case, room);
        }
    }
}

/// With less room than that nothing is taken where there is a line, and nothing is changed.
#[test]
fn too_little_room() {
    for case in cases() {
        let (mut book, mut sums, mut out) = ([7; BOOK], [-7; SUMS], [9; ANSWERS - 1]);
        let fed = lent::feed(&case.log, true, Standing::default(), &mut book, &mut sums, &mut out);
        assert_eq!((fed.taken, fed.wrote, fed.full), (0, 0, !case.log.is_empty()), "{}", case.name);
        assert_eq!((book, sums, out), ([7; BOOK], [-7; SUMS], [9; ANSWERS - 1]), "{}", case.name);
    }
}
