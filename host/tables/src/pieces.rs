//! A log fed in random pieces, with random room for its answers: the answers are the second program's to the whole of it, and each piece is taken just as
//! far as it can be.

use std::ops::Range;

use model::{BOOK, SUMS};
use second::Program;
use telvrang::lent::{self, Fed, Sizes, Standing, ANSWERS};
use trial::random::Random;

/// "A line over 512 bytes without its newline (skipped whole) [..] is 14."
const LINE: usize = 512;

/// What takes a piece: the library, or in the tests something with a slip.
pub type Feeding<'a> = &'a dyn Fn(&[u8], bool, Standing, &mut [u32], &mut [i64], &mut [u8]) -> Fed;

/// What the log finds.
#[derive(Clone, Copy, Debug)]
pub enum Beginning {
    Unopened,
    Opened,
    /// Said to be open, on tables that hold no sound state.
    Unsound,
    /// Tables that can't be opened.
    Short,
}

pub const BEGINNINGS: &[Beginning] = &[Beginning::Unopened, Beginning::Opened, Beginning::Unsound, Beginning::Short];

impl Beginning {
    fn refuses_all(self) -> bool {
        matches!(self, Beginning::Unsound | Beginning::Short)
    }
}

/// A log's text and the answer to each of its lines.
pub struct Log {
    text: Vec<u8>,
    lines: Vec<Line>,
    beginning: Beginning,
}

struct Line {
    /// Behind its newline, if it has one.
    end: usize,
    answer: Vec<u8>,
}

const OPENING: &[u8] = b"O\t2\t0\t1";

impl Log {
    pub fn new(text: Vec<u8>, beginning: Beginning) -> Log {
        let mut program: Program = Program::default();
        if let Beginning::Opened = beginning {
            program.answer_line(OPENING, &mut Vec::new());
        }
        let mut end = 0;
        let mut answer_line = |line: &[u8]| {
            end += line.len();
            let mut answer = Vec::new();
            program.answer_line(line.strip_suffix(b"\n").unwrap_or(line), &mut answer);
            // "any event: state not sound; either: a lent table too short", but "The program looks at 14 first".
            if beginning.refuses_all() && answer != b"X\t14\n" {
                answer = b"X\t13\n".to_vec();
            }
            Line { end, answer }
        };
        let lines = text.split_inclusive(|&byte| byte == b'\n').map(&mut answer_line).collect();
        Log { text, lines, beginning }
    }

    /// To the whole of it.
    #[cfg(test)]
    pub fn answers(&self) -> Vec<u8> {
        self.lines.iter().flat_map(|line| line.answer.iter().copied()).collect()
    }

    /// How many pieces were fed, and how many of them stopped for want of room; or what differs.
    pub fn feed(&self, feeding: Feeding, seed: u64) -> Result<(u64, u64), String> {
        let mut random = Random::new(seed);
        let (mut book, mut sums, mut standing) = self.tables(&mut random);
        let before = (book.clone(), sums.clone());
        let (mut start, mut end, mut pieces, mut stopped) = (0, 0, 0, 0);
        loop {
            end = self.text.len().min(end + draw_piece(&mut random));
            let at_end = end == self.text.len() && random.chance(800);
            let held: Vec<u8> = (0..draw_room(&mut random)).map(|_| random.number() as u8).collect();
            let mut out = held.clone();
            let fed = feeding(&self.text[start..end], at_end, standing, &mut book, &mut sums, &mut out);
            let (wanted, answers) = self.wanted(start..end, at_end, standing, out.len());
            let wanted_out = [&answers[..], &held[answers.len()..]].concat();
            if fed != wanted || out != wanted_out {
                let [piece, answers, out] = [&self.text[start..end], &answers, &out[..fed.wrote.min(out.len())]].map(String::from_utf8_lossy);
                let given = format!("{piece:?}, {standing:?}, at the end {at_end}, with room for {} bytes", held.len());
                return Err(format!("{given}\nshould give {wanted:?} and {answers:?} and nothing behind it\nand gives {fed:?} and {out:?}"));
            }
            if !self.leaves_what_it_may(&before, (&book, &sums)) {
                return Err("words are changed that no event may change".to_string());
            }
            (start, standing, pieces, stopped) = (start + fed.taken, fed.standing, pieces + 1, stopped + u64::from(fed.full));
            if at_end && !fed.full {
                return Ok((pieces, stopped));
            }
        }
    }

    /// "leaves DC and all lent memory untouched", where each line is refused; else "its excess never touched".
    fn leaves_what_it_may(&self, before: &(Vec<u32>, Vec<i64>), (book, sums): (&[u32], &[i64])) -> bool {
        let (words, amounts) = if self.beginning.refuses_all() { (0, 0) } else { (BOOK, SUMS) };
        before.0[words..] == book[words..] && before.1[amounts..] == sums[amounts..]
    }

    fn tables(&self, random: &mut Random) -> (Vec<u32>, Vec<i64>, Standing) {
        let excess = random.one_of(&[0, 0, 1, 3_000]);
        let (mut book, mut sums) = (vec![random.number() as u32; BOOK + excess], vec![random.number() as i64; SUMS + excess]);
        let mut standing = Standing::default();
        match self.beginning {
            Beginning::Unopened => {}
            Beginning::Opened => {
                lent::open(Sizes { partitions: 2, own: 0, k: 1 }, &mut book, &mut sums).expect("the sizes fit");
                standing.opened = true;
            }
            Beginning::Unsound => standing.opened = true,
            Beginning::Short if random.chance(500) => book.truncate(BOOK - 1),
            Beginning::Short => sums.truncate(SUMS - 1),
        }
        (book, sums, standing)
    }

    /// Lines are taken while there is room for the answers of one event more. One that is too long is answered as soon as that can be seen, and then its
    /// bytes are taken as they come.
    fn wanted(&self, piece: Range<usize>, at_end: bool, standing: Standing, room: usize) -> (Fed, Vec<u8>) {
        let mut answers = Vec::new();
        let mut fed = Fed { taken: 0, wrote: 0, full: false, standing };
        let mut place = piece.start;
        for line in self.lines.iter().filter(|line| line.end > piece.start) {
            let here = line.end.min(piece.end) - place;
            let ends = line.end <= piece.end && self.text[line.end - 1] == b'\n';
            let too_long = here - usize::from(ends) > LINE;
            if !fed.standing.skipping {
                if here == 0 || !(ends || too_long || at_end) {
                    break;
                }
                if room - answers.len() < ANSWERS {
                    fed.full = true;
                    break;
                }
                answers.extend_from_slice(&line.answer);
                fed.standing.opened |= line.answer.starts_with(b"O");
                fed.standing.skipping = too_long;
            }
            fed.standing.skipping &= !ends;
            place += here;
        }
        (fed.taken, fed.wrote) = (place - piece.start, answers.len());
        (fed, answers)
    }
}

/// Mostly some lines, and lengths around that of the longest line.
fn draw_piece(random: &mut Random) -> usize {
    match random.below(10) {
        0 => random.one_of(&[0, 1, 2]),
        1 => LINE - 1 + random.below(4) as usize,
        2 => random.below(5_000) as usize,
        3 if random.chance(100) => 70_000,
        _ => random.below(300) as usize,
    }
}

/// From none at all to more than is needed, and each side of what one event may need.
fn draw_room(random: &mut Random) -> usize {
    match random.below(8) {
        0 => random.one_of(&[0, 1, ANSWERS - 1]),
        1 => ANSWERS,
        2 => ANSWERS + random.below(100) as usize,
        3 => 70_000,
        _ => ANSWERS + random.below(10_000) as usize,
    }
}
