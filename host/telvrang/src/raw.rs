//! The static library's functions as telvrang.h declares them, and a safe call of each over slices.
//!
//! Why each call is safe: a slice is lent as its pointer, which is never null, and its length; the library reads and writes within that length alone
//! (it is proved of any length and any words), writes only what is lent by `&mut`, which nobody else holds, keeps no pointer and always returns.
//! Flags are words, 0 for no, so that every bit pattern is one.

use crate::answers::Standing;
use crate::sizes::Sizes;
use crate::transaction::Transaction;

/// Of a delivery: 0 or the number that refuses, and then all else is 0.
#[repr(C)]
pub struct Delivered {
    pub refusal: u32,
    pub dc: u32,
    /// 0 where it waits, at `place`; else 1 to 3.
    pub reason: u32,
    pub place: u32,
    /// The vote to send: 0 none, 1 yes, 2 no.
    pub send: u32,
    pub finishes: u32,
}

/// Of a vote, of a change.
#[repr(C)]
pub struct Settled {
    pub refusal: u32,
    pub finishes: u32,
}

#[repr(C)]
pub struct Reading {
    pub value: i64,
    pub version: u32,
    pub refusal: u32,
}

#[repr(C)]
pub struct Fed {
    pub taken: usize,
    pub wrote: usize,
    pub full: u32,
    pub opened: u32,
    pub skipping: u32,
}

unsafe extern "C" {
    fn telvrang_open_lent(partitions: u32, own: u32, k: u32, book: *mut u32, book_words: usize, sums: *mut i64, sum_amounts: usize) -> u32;

    fn telvrang_deliver_lent(
        identity: u32,
        set: u32,
        st: u32,
        reads: *const u32,
        read_count: usize,
        keys: *const u32,
        key_count: usize,
        amounts: *const i64,
        amount_count: usize,
        book: *mut u32,
        book_words: usize,
        sums: *mut i64,
        sum_amounts: usize,
        finishes: *mut u32,
        finish_words: usize,
    ) -> Delivered;

    fn telvrang_vote_lent(
        identity: u32,
        partition: u32,
        yes: u32,
        book: *mut u32,
        book_words: usize,
        sums: *mut i64,
        sum_amounts: usize,
        finishes: *mut u32,
        finish_words: usize,
    ) -> Settled;

    fn telvrang_change_lent(k: u32, book: *mut u32, book_words: usize, sums: *mut i64, sum_amounts: usize, finishes: *mut u32, finish_words: usize) -> Settled;

    fn telvrang_read_lent(key: u32, st: u32, book: *const u32, book_words: usize, sums: *const i64, sum_amounts: usize) -> Reading;

    fn telvrang_read_newest_lent(key: u32, book: *const u32, book_words: usize, sums: *const i64, sum_amounts: usize) -> Reading;

    fn telvrang_feed_lent(
        input: *const u8,
        input_bytes: usize,
        at_end: u32,
        opened: u32,
        skipping: u32,
        book: *mut u32,
        book_words: usize,
        sums: *mut i64,
        sum_amounts: usize,
        out: *mut u8,
        out_bytes: usize,
    ) -> Fed;
}

pub fn open(sizes: Sizes, book: &mut [u32], sums: &mut [i64]) -> u32 {
    // SAFETY: two slices that nobody else holds, each with its length.
    unsafe { telvrang_open_lent(sizes.partitions, sizes.own, sizes.k, book.as_mut_ptr(), book.len(), sums.as_mut_ptr(), sums.len()) }
}

pub fn deliver(t: &Transaction<'_>, book: &mut [u32], sums: &mut [i64], finishes: &mut [u32]) -> Delivered {
    // SAFETY: three slices that are only read, and three that nobody else holds, each with its length.
    unsafe {
        telvrang_deliver_lent(
            t.identity,
            t.set,
            t.st,
            t.reads.as_ptr(),
            t.reads.len(),
            t.keys.as_ptr(),
            t.keys.len(),
            t.amounts.as_ptr(),
            t.amounts.len(),
            book.as_mut_ptr(),
            book.len(),
            sums.as_mut_ptr(),
            sums.len(),
            finishes.as_mut_ptr(),
            finishes.len(),
        )
    }
}

pub fn vote(identity: u32, partition: u32, yes: bool, book: &mut [u32], sums: &mut [i64], finishes: &mut [u32]) -> Settled {
    // SAFETY: three slices that nobody else holds, each with its length.
    unsafe {
        telvrang_vote_lent(identity, partition, yes.into(), book.as_mut_ptr(), book.len(), sums.as_mut_ptr(), sums.len(), finishes.as_mut_ptr(), finishes.len())
    }
}

pub fn change(k: u32, book: &mut [u32], sums: &mut [i64], finishes: &mut [u32]) -> Settled {
    // SAFETY: three slices that nobody else holds, each with its length.
    unsafe { telvrang_change_lent(k, book.as_mut_ptr(), book.len(), sums.as_mut_ptr(), sums.len(), finishes.as_mut_ptr(), finishes.len()) }
}

pub fn read(key: u32, st: u32, book: &[u32], sums: &[i64]) -> Reading {
    // SAFETY: two slices that are only read, each with its length.
    unsafe { telvrang_read_lent(key, st, book.as_ptr(), book.len(), sums.as_ptr(), sums.len()) }
}

pub fn read_newest(key: u32, book: &[u32], sums: &[i64]) -> Reading {
    // SAFETY: two slices that are only read, each with its length.
    unsafe { telvrang_read_newest_lent(key, book.as_ptr(), book.len(), sums.as_ptr(), sums.len()) }
}

pub fn feed(input: &[u8], at_end: bool, standing: Standing, book: &mut [u32], sums: &mut [i64], out: &mut [u8]) -> Fed {
    // SAFETY: a slice that is only read, and three that nobody else holds, each with its length.
    unsafe {
        telvrang_feed_lent(
            input.as_ptr(),
            input.len(),
            at_end.into(),
            standing.opened.into(),
            standing.skipping.into(),
            book.as_mut_ptr(),
            book.len(),
            sums.as_mut_ptr(),
            sums.len(),
            out.as_mut_ptr(),
            out.len(),
        )
    }
}
