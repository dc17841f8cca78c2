//! A log given to the library piece by piece, and each call held against what is wanted.

use telvrang::lent::{self, Fed, Standing};
use telvrang::ANSWERS;

use super::lent::Lent;
use super::plan::{Plan, MOST_ROOM};
use super::wanted::Wanted;

/// What the buffer of answers holds before a call.
const BEFORE: [u8; MOST_ROOM] = [0x5A; MOST_ROOM];

pub struct Run<'a> {
    pub plan: &'a Plan,
    pub wanted: Wanted,
    pub lent: &'a mut Lent,
    pub standing: Standing,
    /// All that the library has answered.
    pub answers: Vec<u8>,
}

impl Run<'_> {
    /// The whole log; an error says what isn't as it is wanted.
    pub fn give(&mut self, log: &[u8]) -> Result<(), String> {
        let (mut rest, mut held, mut turn) = (log, Vec::new(), 0);
        loop {
            let (piece, behind) = rest.split_at(self.plan.piece(turn).min(rest.len()));
            let at_end = behind.is_empty() && (self.plan.ends_with_last || piece.is_empty());
            held.extend_from_slice(piece);
            rest = behind;
            self.give_held(&mut held, at_end, turn)?;
            turn += 1;
            if at_end {
                return Ok(());
            }
        }
    }

    /// As often as it stops for want of room. What is left then is the beginning of a line, and at the end nothing.
    fn give_held(&mut self, held: &mut Vec<u8>, at_end: bool, turn: usize) -> Result<(), String> {
        let mut room = self.plan.room(turn);
        loop {
            let fed = self.call(held, at_end, room)?;
            held.drain(..fed.taken);
            if !fed.full {
                return if at_end && !held.is_empty() { Err("at the end something is left".to_string()) } else { Ok(()) };
            }
            room = room.max(ANSWERS);
        }
    }

    fn call(&mut self, input: &[u8], at_end: bool, room: usize) -> Result<Fed, String> {
        let Lent { input: lent_input, book, sums, out } = &mut *self.lent;
        lent_input.hold(input, self.plan.neighbour);
        out.hold(&BEFORE[..room], self.plan.neighbour);
        let fed = lent::feed(lent_input.row(), at_end, self.standing, book.lend(), sums.lend(), out.lend());
        let (wanted, text) = self.wanted.feed(input, at_end, room);
        let out = self.lent.out.row();
        let given = &out[..fed.wrote.min(room)];
        if fed != wanted || given != text {
            return Err(format!("wanted {wanted:?} and \"{}\"\ngiven  {fed:?} and \"{}\"", text.escape_ascii(), given.escape_ascii()));
        }
        self.answers.extend_from_slice(given);
        self.standing = fed.standing;
        if out[fed.wrote..] != BEFORE[fed.wrote..room] || self.lent.input.row() != input || !self.lent.patterns_stand() {
            return Err("memory was written that isn't the call's to write".to_string());
        }
        Ok(fed)
    }
}
