//! The program over an engine: lines of a log in, lines of answers out.

use std::io::{self, BufRead, ErrorKind, Read};

use crate::answers::AnswerLine;
use crate::desk::{Delivery, Desk, Finish, Outcome};
use crate::engine::Engine;
use crate::records::{read_record, Lists, Record};
use crate::refusal::Refusal;
use crate::sizes::{LINE, READ};

/// An engine that may not be open yet, and what one line needs.
#[derive(Debug)]
pub struct Program<D = Engine> {
    engine: Option<D>,
    lists: Lists,
    finishes: Vec<Finish>,
}

impl<D> Default for Program<D> {
    fn default() -> Self {
        Program { engine: None, lists: Lists::default(), finishes: Vec::new() }
    }
}

impl<D: Desk> Program<D> {
    /// Adds the answer to one line, without its newline, and "after its event, one line a finish".
    pub fn answer_line(&mut self, line: &[u8], text: &mut Vec<u8>) {
        if let Err(refusal) = self.answer(line, text) {
            AnswerLine::new(text, b'X').number(refusal.number()).end();
        }
        for finish in self.finishes.drain(..) {
            match finish {
                Finish::Committed { identity, version } => AnswerLine::new(text, b'C').number(identity).number(version).end(),
                Finish::Aborted { identity } => AnswerLine::new(text, b'B').number(identity).end(),
            }
        }
    }

    /// "Answers: O, V (identity, partition) and K repeated; W identity, DC, place; A identity, DC, reason; R key, st, value; X number."
    ///
    /// "The program looks at 14 first. Then come 15 and 13, in that order, then those of the event in rising order."
    fn answer(&mut self, line: &[u8], text: &mut Vec<u8>) -> Result<(), Refusal> {
        if line.len() > LINE {
            return Err(Refusal::Unreadable);
        }
        let record = read_record(line, &mut self.lists).ok_or(Refusal::Unreadable)?;
        if let Record::Opening { partitions, own, k } = record {
            return self.open(partitions, own, k, text);
        }
        // "program: event before opening"
        let engine = self.engine.as_mut().ok_or(Refusal::Opening)?;
        match record {
            Record::Opening { .. } => unreachable!("an opening has been answered"),
            Record::Delivery { identity, partitions, st } => {
                let delivery = Delivery { identity, partitions, st, reads: &self.lists.reads, writes: &self.lists.writes };
                match engine.deliver(&delivery, &mut self.finishes)? {
                    Outcome::Waits { place } => AnswerLine::new(text, b'W').number(identity).number(engine.dc()).number(place as u64).end(),
                    Outcome::Aborted { reason } => AnswerLine::new(text, b'A').number(identity).number(engine.dc()).number(reason as u8).end(),
                }
            }
            Record::Vote { identity, partition, yes } => {
                engine.vote(identity, partition, yes, &mut self.finishes)?;
                AnswerLine::new(text, b'V').number(identity).number(partition).end();
            }
            Record::Change { k } => {
                engine.change(k, &mut self.finishes)?;
                AnswerLine::new(text, b'K').number(k).end();
            }
            Record::Read { key, st } => {
                let st = st.unwrap_or(engine.sc());
                let value = engine.read(key, st)?;
                AnswerLine::new(text, b'R').number(key).number(st).value(value).end();
            }
        }
        Ok(())
    }

    /// "program: [..] a second opening": only one that was accepted is a first.
    fn open(&mut self, partitions: u8, own: u8, k: u16, text: &mut Vec<u8>) -> Result<(), Refusal> {
        if self.engine.is_some() {
            return Err(Refusal::Opening);
        }
        self.engine = Some(D::open(partitions, own, k)?);
        AnswerLine::new(text, b'O').number(partitions).number(own).number(k).end();
        Ok(())
    }

    /// Answers a whole log. What has been answered is written before more is asked of the input, and at the end. "No input gives no output."
    pub fn answer_log(&mut self, input: &mut impl Read, output: &mut impl io::Write) -> io::Result<()> {
        let mut text = Vec::with_capacity(READ);
        let mut buffer = vec![0; LINE + READ];
        let mut held = 0; // bytes at the buffer's start of a line whose newline hasn't come: LINE or fewer
        let mut skipping = false; // of a line that was too long and is answered: its newline hasn't come
        loop {
            let got = read(input, &mut buffer[held..held + READ])?;
            if got == 0 {
                break;
            }
            let end = held + got;
            let mut start = 0;
            while let Some(line) = whole_line(&buffer[start..end]) {
                if !std::mem::take(&mut skipping) {
                    self.answer_line(line, &mut text);
                }
                start += line.len() + 1;
            }
            if end - start > LINE && !skipping {
                self.answer_line(&buffer[start..end], &mut text);
                skipping = true;
            }
            held = if skipping { 0 } else { end - start };
            buffer.copy_within(start..start + held, 0);
            write(output, &mut text)?;
        }
        // "The last line may lack its newline."
        if held > 0 {
            self.answer_line(&buffer[..held], &mut text);
        }
        write(output, &mut text)
    }
}

/// Answers a whole log by this program's own engine.
pub fn answer_log(input: &mut impl Read, output: &mut impl io::Write) -> io::Result<()> {
    Program::<Engine>::default().answer_log(input, output)
}

/// The first line, without its newline, if the newline is there.
fn whole_line(mut bytes: &[u8]) -> Option<&[u8]> {
    let all = bytes;
    let length = bytes.skip_until(b'\n').unwrap_or(0);
    all[..length].strip_suffix(b"\n")
}

fn read(input: &mut impl Read, buffer: &mut [u8]) -> io::Result<usize> {
    loop {
        match input.read(buffer) {
            Err(error) if error.kind() == ErrorKind::Interrupted => {}
            result => return result,
        }
    }
}

fn write(output: &mut impl io::Write, text: &mut Vec<u8>) -> io::Result<()> {
    output.write_all(text)?;
    text.clear();
    output.flush()
}
