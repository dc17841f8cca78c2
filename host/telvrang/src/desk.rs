//! The log as text, in chunks of any size.

use std::fmt::{self, Debug, Formatter};
use std::io::{self, Write};

use crate::answers::Standing;
use crate::engine::Engine;
use crate::lent;
use crate::tables::Tables;

/// So many bytes are held at most, and so many of answers are written at once.
const CHUNK: usize = 65_536;

/// What is left of a chunk where there was room: a line has no more bytes before its newline, or is too long.
const LINE: usize = 512;

/// Answers a log as text: what goes in may be cut anywhere, and the answers are the same.
///
/// The answers of a chunk are written before [`feed`](Desk::feed) returns, so that whoever types at a desk gets each at once; of a line that isn't
/// whole yet the beginning is kept. An error is the writer's own. The lines whose answers it then lost are taken all the same, and the rest of the chunk
/// isn't: such a desk is of no more use.
///
/// The scope document's whole run, cut in the midst of its lines:
///
/// ```
/// use telvrang::Desk;
///
/// fn main() -> std::io::Result<()> {
///     let log = "O\t2\t0\t1\nD\t10\t3\t0\t7\t7=500\nD\t11\t1\t0\t8\t8=-40\nV\t10\t1\tY\nR\t8\t-\nR\t7\t1\nD\t12\t1\t1\t7\t7=600\n";
///     let mut desk = Desk::new();
///     let mut answers = Vec::new();
///     for chunk in log.as_bytes().chunks(10) {
///         desk.feed(chunk, &mut answers)?;
///     }
///     desk.finish(&mut answers)?;
///     let wanted = "O\t2\t0\t1\nW\t10\t1\t0\nW\t11\t2\t0\nC\t11\t1\nV\t10\t1\nC\t10\t2\nR\t8\t2\t-40\nR\t7\t1\t0\nA\t12\t3\t1\n";
///     assert_eq!(answers, wanted.as_bytes());
///     Ok(())
/// }
/// ```
pub struct Desk {
    tables: Tables,
    standing: Standing,
    held: Vec<u8>,
    answers: Box<[u8]>,
}

impl Desk {
    /// At the beginning of a log.
    pub fn new() -> Self {
        Desk { tables: Tables::unopened(), standing: Standing::default(), held: Vec::with_capacity(CHUNK), answers: vec![0; CHUNK].into_boxed_slice() }
    }

    /// Answers the lines of the next chunk, of any size.
    pub fn feed(&mut self, chunk: &[u8], answers: &mut (impl Write + ?Sized)) -> io::Result<()> {
        for part in chunk.chunks(CHUNK - LINE) {
            self.held.extend_from_slice(part);
            self.answer(false, answers)?;
        }
        Ok(())
    }

    /// Ends the log: "The last line may lack its newline." The engine that the log leaves is handed over, if it opened one.
    ///
    /// ```
    /// use telvrang::Desk;
    ///
    /// let mut desk = Desk::new();
    /// desk.feed(b"O\t1\t0\t0\nD\t1\t1\t0\t-\t3=-1", &mut std::io::sink())?;
    /// let engine = desk.finish(&mut std::io::sink())?.expect("the log opens one");
    /// assert_eq!((engine.sc(), engine.dc()), (1, 1));
    /// # Ok::<(), std::io::Error>(())
    /// ```
    pub fn finish(mut self, answers: &mut (impl Write + ?Sized)) -> io::Result<Option<Engine>> {
        self.answer(true, answers)?;
        answers.flush()?;
        Ok(self.standing.opened.then(|| Engine::of(self.tables)))
    }

    /// The lines that are held, answered; at most the beginning of one is left.
    fn answer(&mut self, at_end: bool, answers: &mut (impl Write + ?Sized)) -> io::Result<()> {
        let mut full = true;
        while full {
            let Tables { book, sums } = &mut self.tables;
            let fed = lent::feed(&self.held, at_end, self.standing, &mut book[..], &mut sums[..], &mut self.answers);
            self.held.drain(..fed.taken);
            self.standing = fed.standing;
            full = fed.full;
            answers.write_all(&self.answers[..fed.wrote])?;
        }
        Ok(())
    }
}

impl Default for Desk {
    fn default() -> Self {
        Desk::new()
    }
}

impl Debug for Desk {
    fn fmt(&self, f: &mut Formatter<'_>) -> fmt::Result {
        f.debug_struct("Desk").field("standing", &self.standing).field("held", &self.held.len()).finish_non_exhaustive()
    }
}
