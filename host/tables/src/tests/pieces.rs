//! A feeding with a slip is caught, and the log is shrunk.

use telvrang::lent::{self, Fed, Standing, ANSWERS, SUMS};
use trial::compare::by_second;
use trial::maker::Maker;

use crate::compare_in_pieces;
use crate::pieces::{Beginning, Feeding, Log, BEGINNINGS};

const LOGS: u64 = 20;

fn is_caught(feeding: Feeding) -> bool {
    compare_in_pieces(feeding, LOGS, 1).1 == 1
}

#[test]
fn the_library_takes_logs_in_pieces() {
    assert_eq!(compare_in_pieces(&lent::feed, LOGS, 1).1, 0);
}

/// What the pieces are compared with are the second program's answers to the log in one piece.
#[test]
fn line_by_line_the_second_program_answers_the_same() {
    for seed in 0..20 {
        let log = trial::compare::text(&Maker::new(seed).log());
        assert_eq!(Log::new(log.clone(), Beginning::Unopened).answers(), by_second(&log));
    }
}

#[test]
fn each_beginning_has_its_answers() {
    let answers = BEGINNINGS.iter().map(|&beginning| Log::new(b"K\t3\nO\t1\t0\t2\nK".to_vec(), beginning).answers());
    let wanted = ["X\t13\nO\t1\t0\t2\nX\t14\n", "K\t3\nX\t13\nX\t14\n", "X\t13\nX\t13\nX\t14\n", "X\t13\nX\t13\nX\t14\n"];
    assert!(answers.eq(wanted.map(|text| text.as_bytes().to_vec())));
}

#[test]
fn a_standing_forgotten_is_caught() {
    assert!(is_caught(&|input, at_end, standing, book, sums, out| lent::feed(input, at_end, Standing { skipping: false, ..standing }, book, sums, out)));
    assert!(is_caught(&|input, at_end, standing, book, sums, out| lent::feed(input, at_end, Standing { opened: false, ..standing }, book, sums, out)));
    assert!(is_caught(&|input, at_end, _, book, sums, out| lent::feed(input, at_end, Standing::default(), book, sums, out)));
}

#[test]
fn a_last_line_left_or_taken_too_soon_is_caught() {
    assert!(is_caught(&|input, _, standing, book, sums, out| lent::feed(input, true, standing, book, sums, out)));
    // "At the end" and nothing of it: it would be fed without end.
    assert!(is_caught(&|input, at_end, standing, book, sums, out| {
        let fed = lent::feed(input, false, standing, book, sums, out);
        Fed { full: fed.full && !at_end, ..fed }
    }));
}

#[test]
fn counts_told_otherwise_are_caught() {
    let told = |alter: fn(&mut Fed)| {
        move |input: &[u8], at_end: bool, standing: Standing, book: &mut [u32], sums: &mut [i64], out: &mut [u8]| {
            let mut fed = lent::feed(input, at_end, standing, book, sums, out);
            alter(&mut fed);
            fed
        }
    };
    assert!(is_caught(&told(|fed| fed.full = false)));
    assert!(is_caught(&told(|fed| fed.full |= fed.taken == 0)));
    assert!(is_caught(&told(|fed| fed.taken = fed.taken.saturating_sub(1))));
    assert!(is_caught(&told(|fed| fed.wrote = fed.wrote.saturating_sub(1))));
    assert!(is_caught(&told(|fed| fed.standing.opened = true)));
}

#[test]
fn bytes_written_behind_the_answers_are_caught() {
    assert!(is_caught(&|input, at_end, standing, book, sums, out| {
        let fed = lent::feed(input, at_end, standing, book, sums, out);
        out.iter_mut().skip(fed.wrote).take(1).for_each(|byte| *byte = 0);
        fed
    }));
}

#[test]
fn words_that_no_event_may_change_are_caught() {
    let touching = |at: usize| {
        move |input: &[u8], at_end: bool, standing: Standing, book: &mut [u32], sums: &mut [i64], out: &mut [u8]| {
            let fed = lent::feed(input, at_end, standing, book, sums, out);
            sums.iter_mut().skip(at).take(1).for_each(|amount| *amount ^= 1);
            fed
        }
    };
    assert!(is_caught(&touching(SUMS)));
    let log = Log::new(b"K\t3\n".to_vec(), Beginning::Unsound);
    assert!(log.feed(&touching(0), 1).is_err() && log.feed(&lent::feed, 1).is_ok());
}

/// Answers that would fit are given where there is less room than one event may need.
#[test]
fn a_line_taken_into_little_room_is_caught() {
    assert!(is_caught(&|input, at_end, standing, book, sums, out| {
        let (mut room, mut new_book, mut new_sums) = (vec![0; ANSWERS], book.to_vec(), sums.to_vec());
        let fed = lent::feed(input, at_end, standing, &mut new_book, &mut new_sums, &mut room);
        if out.len() >= ANSWERS || fed.wrote > out.len() {
            return lent::feed(input, at_end, standing, book, sums, out);
        }
        out[..fed.wrote].copy_from_slice(&room[..fed.wrote]);
        book.copy_from_slice(&new_book);
        sums.copy_from_slice(&new_sums);
        fed
    }));
}
