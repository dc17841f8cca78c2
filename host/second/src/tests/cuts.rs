//! A log may come in pieces of any size, and what can be answered is answered before more is waited for.

use std::cell::RefCell;
use std::io::{self, Read, Write};

use super::{tabs, whole};
use crate::answer_log;

/// Hands on a piece of a log at each read, and notes how many lines had been flushed when it was asked.
struct Pieces<'a> {
    log: &'a [u8],
    size: usize,
    flushed: &'a RefCell<Vec<u8>>,
    asked: Vec<usize>,
}

impl Read for Pieces<'_> {
    fn read(&mut self, buffer: &mut [u8]) -> io::Result<usize> {
        self.asked.push(self.flushed.borrow().iter().filter(|&&byte| byte == b'\n').count());
        let size = self.size.min(self.log.len()).min(buffer.len());
        let (piece, rest) = self.log.split_at(size);
        buffer[..size].copy_from_slice(piece);
        self.log = rest;
        Ok(size)
    }
}

/// Shows what was written only once it is flushed.
struct Held<'a> {
    written: Vec<u8>,
    flushed: &'a RefCell<Vec<u8>>,
}

impl Write for Held<'_> {
    fn write(&mut self, bytes: &[u8]) -> io::Result<usize> {
        self.written.extend_from_slice(bytes);
        Ok(bytes.len())
    }

    fn flush(&mut self) -> io::Result<()> {
        self.flushed.borrow_mut().append(&mut self.written);
        Ok(())
    }
}

fn in_pieces(log: &[u8], size: usize) -> (Vec<u8>, Vec<usize>) {
    let flushed = RefCell::new(Vec::new());
    let mut input = Pieces { log, size, flushed: &flushed, asked: Vec::new() };
    let mut output = Held { written: Vec::new(), flushed: &flushed };
    answer_log(&mut input, &mut output).expect("memory can be read and written");
    assert!(output.written.is_empty(), "all is flushed at the end");
    let asked = input.asked;
    (flushed.into_inner(), asked)
}

#[test]
fn pieces_of_any_size_give_the_same() {
    let long = "Z".repeat(600);
    let log = tabs(&format!("O|2|0|1\n{long}\nD|10|3|0|7|7=500\n\nV|10|1|N\n{long}{long}\nD|11|1|0|-|-\n{long}"));
    let wanted = tabs("O|2|0|1\nX|14\nW|10|1|0\nX|14\nV|10|1\nX|14\nW|11|2|0\nC|11|1\nB|10\nX|14\n");
    assert_eq!(whole(&log), wanted);
    for size in (1..700).chain([4_096]) {
        assert_eq!(in_pieces(&log, size).0, wanted, "pieces of {size}");
    }
}

#[test]
fn answers_are_flushed_before_more_is_asked_for() {
    let (_, asked) = in_pieces(b"K\t1\nK\t2\nK\t3\n", 4);
    assert_eq!(asked, [0, 1, 2, 3]);
}
