//! What `feed` is to do with a chunk: the second program's answers to its lines, as far as the room goes.

use std::io::BufRead as _;

use second::Program;
use telvrang::lent::{Fed, Standing};
use telvrang::ANSWERS;

/// "A line over 512 bytes without its newline (skipped whole) [..] is 14"
const LINE: usize = 512;

/// How the log stands, by the second program.
pub struct Wanted {
    program: Program,
    /// Whether the lent tables are of any use: where they are too short, or no sound ledger where one is said to be, every event is 13.
    usable: bool,
    standing: Standing,
}

/// The rest of a chunk, and the text so far.
struct Chunk<'a> {
    rest: &'a [u8],
    text: Vec<u8>,
    room: usize,
}

impl Chunk<'_> {
    /// There is room for the answers of one event more.
    fn has_room(&self) -> bool {
        self.room - self.text.len().min(self.room) >= ANSWERS
    }
}

impl Wanted {
    pub fn new(program: Program, usable: bool, standing: Standing) -> Self {
        Wanted { program, usable, standing }
    }

    pub fn feed(&mut self, input: &[u8], at_end: bool, room: usize) -> (Fed, Vec<u8>) {
        let mut chunk = Chunk { rest: input, text: Vec::new(), room };
        let full = self.whole_lines(&mut chunk) || self.tail(&mut chunk, at_end);
        let fed = Fed { taken: input.len() - chunk.rest.len(), wrote: chunk.text.len(), full, standing: self.standing };
        (fed, chunk.text)
    }

    /// Whether it stopped for want of room.
    fn whole_lines(&mut self, chunk: &mut Chunk) -> bool {
        while let Some((line, behind)) = first_line(chunk.rest) {
            if !self.standing.skipping {
                if !chunk.has_room() {
                    return true;
                }
                self.answer(line, &mut chunk.text);
            }
            self.standing.skipping = false;
            chunk.rest = behind;
        }
        false
    }

    /// What stands behind the last newline is left for the next chunk, unless it is too long already, or the log ends.
    fn tail(&mut self, chunk: &mut Chunk, at_end: bool) -> bool {
        let tail = chunk.rest;
        let long = tail.len() > LINE;
        if !self.standing.skipping {
            if !long && (!at_end || tail.is_empty()) {
                return false;
            }
            if !chunk.has_room() {
                return true;
            }
            self.answer(tail, &mut chunk.text);
            self.standing.skipping = long;
        }
        chunk.rest = &[];
        false
    }

    fn answer(&mut self, line: &[u8], text: &mut Vec<u8>) {
        let start = text.len();
        if self.usable {
            self.program.answer_line(line, text);
            self.standing.opened |= text[start..].starts_with(b"O");
            return;
        }
        // "The program looks at 14 first."
        <Program>::default().answer_line(line, text);
        let unreadable = text[start..] == *b"X\t14\n";
        text.truncate(start);
        text.extend_from_slice(if unreadable { b"X\t14\n" } else { b"X\t13\n" });
    }
}

/// Without its newline, and what stands behind that, if there is one.
fn first_line(bytes: &[u8]) -> Option<(&[u8], &[u8])> {
    let mut behind = bytes;
    let length = behind.skip_until(b'\n').expect("memory can be read");
    Some((bytes[..length].strip_suffix(b"\n")?, behind))
}
