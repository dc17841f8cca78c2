//! Memory to lend, between two pages that nobody may touch: what is lent ends just before the upper one, or begins just behind the lower one, and on its other
//! side stands a pattern. A read or a write past that end is a fault, and a write on the other side is seen.

use std::ffi::{c_int, c_long, c_void};
use std::marker::PhantomData;
use std::ptr::null_mut;
use std::slice;

/// What may be lent: numbers, for which every pattern of bits is one.
pub trait Number: Copy + Eq {}
impl Number for u8 {}
impl Number for u32 {}
impl Number for i64 {}

/// Which of the two pages is the neighbour.
#[derive(Clone, Copy, Debug, PartialEq, Eq)]
pub enum Neighbour {
    Upper,
    Lower,
}

/// So many bytes lie between the two pages: the longest that is lent, and the pattern.
const ROOM: usize = 5 * PAGE;
const PAGE: usize = 4_096;
const PATTERN: [u8; 256] = [0xA5; 256];

/// A row of numbers that is lent.
pub struct Pages<T> {
    /// The first byte behind the lower page.
    room: *mut u8,
    /// Where in the room the row begins, and of how many numbers it is.
    at: usize,
    length: usize,
    pattern_at: usize,
    numbers: PhantomData<T>,
}

impl<T: Number> Pages<T> {
    pub fn new() -> Self {
        // SAFETY: fresh memory of the process, which nothing else has; its outer pages are then closed.
        let room = unsafe {
            let start = mmap(null_mut(), ROOM + 2 * PAGE, READ | WRITE, PRIVATE | ANONYMOUS, -1, 0).cast::<u8>();
            assert!(start as isize != -1, "no memory to lend");
            let closed = mprotect(start.cast(), PAGE, NONE) + mprotect(start.add(PAGE + ROOM).cast(), PAGE, NONE);
            assert!(closed == 0, "the pages beside it can't be closed");
            start.add(PAGE)
        };
        Pages { room, at: 0, length: 0, pattern_at: 0, numbers: PhantomData }
    }

    /// Another row from now on: these numbers beside that page.
    pub fn hold(&mut self, numbers: &[T], neighbour: Neighbour) {
        let bytes = size_of_val(numbers);
        assert!(bytes + PATTERN.len() <= ROOM, "too long to be lent: {bytes} bytes");
        self.length = numbers.len();
        (self.at, self.pattern_at) = match neighbour {
            Neighbour::Upper => (ROOM - bytes, ROOM - bytes - PATTERN.len()),
            Neighbour::Lower => (0, bytes),
        };
        // SAFETY: as many bytes as each has, within the room, which is this row's own, so that nothing overlaps.
        unsafe {
            numbers.as_ptr().cast::<u8>().copy_to_nonoverlapping(self.room.add(self.at), bytes);
            PATTERN.as_ptr().copy_to_nonoverlapping(self.room.add(self.pattern_at), PATTERN.len());
        }
    }

    pub fn lend(&mut self) -> &mut [T] {
        // SAFETY: the row lies within the room, at a multiple of a number's size from a page's bound, and is borrowed as this is.
        unsafe { slice::from_raw_parts_mut(self.room.add(self.at).cast(), self.length) }
    }

    pub fn row(&self) -> &[T] {
        // SAFETY: as above.
        unsafe { slice::from_raw_parts(self.room.add(self.at).cast(), self.length) }
    }

    /// Nothing just beside the row was written.
    pub fn pattern_stands(&self) -> bool {
        // SAFETY: as many bytes as the pattern has, within the room, and borrowed as this is.
        unsafe { slice::from_raw_parts(self.room.add(self.pattern_at), PATTERN.len()) == PATTERN }
    }
}

const NONE: c_int = 0;
const READ: c_int = 1;
const WRITE: c_int = 2;
const PRIVATE: c_int = 2;
const ANONYMOUS: c_int = 0x20;

unsafe extern "C" {
    fn mmap(address: *mut c_void, length: usize, protection: c_int, flags: c_int, file: c_int, offset: c_long) -> *mut c_void;
    fn mprotect(address: *mut c_void, length: usize, protection: c_int) -> c_int;
}
