//! How a log is given to `feed`: what the first bytes of an input choose. All of them 0 is the plainest way.

use telvrang::ANSWERS;

use crate::pages::Neighbour;

/// So many bytes choose, and the log stands behind them.
pub const HEADER: usize = 7;
/// The most that is lent for answers.
pub const MOST_ROOM: usize = ANSWERS + 64 * 64;

#[derive(Debug)]
pub struct Plan {
    cuts: [u8; 2],
    rooms: [u8; 2],
    /// What the tables hold before.
    pub held: Held,
    pub seed: u8,
    pub lengths: Lengths,
    pub neighbour: Neighbour,
    /// Said of the log at its beginning, whatever the tables hold.
    pub opened: bool,
    pub skipping: bool,
    /// The end is said with the last piece, else with an empty one behind it.
    pub ends_with_last: bool,
    /// Reads of the keys that the log names are put behind it.
    pub reads_behind: bool,
}

#[derive(Clone, Copy, Debug, PartialEq, Eq)]
pub enum Held {
    Zeros,
    Ones,
    Garbage,
    /// A ledger that has run for a while.
    Ledger,
}

#[derive(Clone, Copy, Debug, PartialEq, Eq)]
pub enum Lengths {
    Exact,
    Longer,
    ShortBook,
    ShortSums,
}

impl Plan {
    pub fn read(input: &[u8]) -> (Self, &[u8]) {
        let (header, log) = input.split_at(input.len().min(HEADER));
        let mut bytes = [0; HEADER];
        bytes[..header.len()].copy_from_slice(header);
        let [cut, other_cut, room, other_room, tables, seed, flags] = bytes;
        let plan = Plan {
            cuts: [cut, other_cut],
            rooms: [room, other_room],
            held: [Held::Zeros, Held::Ones, Held::Garbage, Held::Ledger][usize::from(tables & 3)],
            seed,
            lengths: [Lengths::Exact, Lengths::Longer, Lengths::ShortBook, Lengths::ShortSums][usize::from(tables >> 2 & 3)],
            neighbour: if tables & 16 == 0 { Neighbour::Upper } else { Neighbour::Lower },
            opened: flags & 1 != 0,
            skipping: flags & 2 != 0,
            ends_with_last: flags & 4 != 0,
            reads_behind: flags & 8 != 0,
        };
        (plan, log)
    }

    /// Bytes of the next piece: of two lengths by turns, which double now and then, so that no log comes in thousands of pieces.
    pub fn piece(&self, turn: usize) -> usize {
        let bytes = match self.cuts[turn % 2] {
            0 => return usize::MAX,
            few @ 1..=191 => few.into(),
            many => (usize::from(many) - 191) * 64,
        };
        bytes << (turn / 32)
    }

    /// Bytes lent for the answers: just enough for one event, too few for any, or more.
    pub fn room(&self, turn: usize) -> usize {
        match self.rooms[turn % 2] {
            over @ 0..=127 => ANSWERS + usize::from(over),
            short @ 128..=191 => ANSWERS - 1 - (usize::from(short) - 128) * 16,
            many => ANSWERS + (usize::from(many) - 191) * 64,
        }
    }

    /// How many words and amounts are lent, beside what is needed.
    pub fn lengths_of(&self, book: usize, sums: usize) -> (usize, usize) {
        let by = usize::from(self.seed) + 1;
        match self.lengths {
            Lengths::Exact => (book, sums),
            Lengths::Longer => (book + by, sums + by / 2),
            Lengths::ShortBook => (book.saturating_sub(by * by), sums),
            Lengths::ShortSums => (book, sums.saturating_sub(by * by)),
        }
    }
}
