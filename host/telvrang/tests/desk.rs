//! A desk as its host meets it: when the answers come, what it does with a writer, and what the log leaves.

use std::io::{self, Write};

use telvrang::{Ballot, Desk, Engine, Finish, Reading};

/// Answers come with the line's newline, whole, and of a line that lacks it at the end.
#[test]
fn answers_come_at_once() {
    let (mut desk, mut answers) = (Desk::new(), Vec::new());
    let mut after = |piece: &[u8]| {
        answers.clear();
        desk.feed(piece, &mut answers).expect("a list takes all");
        String::from_utf8_lossy(&answers).into_owned()
    };
    assert_eq!(after(b"O\t2\t0\t1\nK\t5"), "O\t2\t0\t1\n");
    assert_eq!(after(b""), "");
    assert_eq!(after(b"\n"), "K\t5\n");
    assert_eq!(after(b"K\t32\nK\t31\nR\t7"), "X\t12\nK\t31\n");
    let mut last = Vec::new();
    desk.finish(&mut last).expect("a list takes all");
    assert_eq!(last, b"X\t14\n");
}

/// "A line over 512 bytes without its newline (skipped whole)": its answer comes as soon as it is too long, and none at its end.
#[test]
fn a_line_too_long() {
    let (mut desk, mut answers) = (Desk::new(), Vec::new());
    for byte in 1..=2_000 {
        desk.feed(b"K", &mut answers).expect("a list takes all");
        assert_eq!(answers, if byte <= 512 { &b""[..] } else { b"X\t14\n" });
    }
    desk.feed(b"\nO\t1\t0\t0\n", &mut answers).expect("a list takes all");
    assert_eq!(answers, b"X\t14\nO\t1\t0\t0\n");
}

/// One chunk far longer than a desk holds, whose answers are longer than what is written at once: those of the changes are the log itself, and each
/// delivery's are longer than its line.
#[test]
fn one_long_chunk() {
    let (mut log, mut wanted) = (String::from("O\t2\t0\t1\n"), String::from("O\t2\t0\t1\n"));
    for version in 1..=20_000 {
        for k in [version % 32, 7] {
            log += &format!("K\t{k}\n");
            wanted += &format!("K\t{k}\n");
        }
        log += &format!("D\t{version}\t1\t{}\t-\t-\n", version - 1);
        wanted += &format!("W\t{version}\t{version}\t0\nC\t{version}\t{version}\n");
    }
    let (mut desk, mut answers) = (Desk::new(), Vec::new());
    desk.feed(log.as_bytes(), &mut answers).expect("a list takes all");
    assert!(answers == wanted.as_bytes());
    let engine = desk.finish(&mut answers).expect("a list takes all").expect("the log opens an engine");
    assert_eq!((engine.sc(), engine.dc()), (20_000, 20_000));
    assert!(answers == wanted.as_bytes());
}

/// Takes a byte at a time, and counts the flushes.
#[derive(Default)]
struct Narrow {
    bytes: Vec<u8>,
    flushes: usize,
}

impl Write for Narrow {
    fn write(&mut self, bytes: &[u8]) -> io::Result<usize> {
        let taken = bytes.len().min(1);
        self.bytes.extend_from_slice(&bytes[..taken]);
        Ok(taken)
    }

    fn flush(&mut self) -> io::Result<()> {
        self.flushes += 1;
        Ok(())
    }
}

#[test]
fn a_narrow_writer() {
    let (mut desk, mut writer) = (Desk::new(), Narrow::default());
    desk.feed(b"O\t2\t0\t1\nR\t7\t-\n", &mut writer).expect("it takes all, in time");
    desk.finish(&mut writer).expect("it takes all, in time");
    assert_eq!((&writer.bytes[..], writer.flushes), (&b"O\t2\t0\t1\nR\t7\t0\t0\n"[..], 1));
}

/// Takes so many bytes, and then no more.
struct Closing(usize);

impl Write for Closing {
    fn write(&mut self, bytes: &[u8]) -> io::Result<usize> {
        if self.0 == 0 {
            return Err(io::ErrorKind::BrokenPipe.into());
        }
        let taken = bytes.len().min(self.0);
        self.0 -= taken;
        Ok(taken)
    }

    fn flush(&mut self) -> io::Result<()> {
        Ok(())
    }
}

/// "An error is the writer's own", whichever call meets it.
#[test]
fn a_writer_that_closes() {
    let log = b"O\t2\t0\t1\nR\t7\t-\nK\t5";
    let answered = |room: usize| {
        let (mut desk, mut writer) = (Desk::new(), Closing(room));
        let fed = desk.feed(log, &mut writer).map_err(|error| error.kind());
        (fed, desk.finish(&mut writer).map(|engine| engine.is_some()).map_err(|error| error.kind()))
    };
    assert_eq!(answered(20), (Ok(()), Ok(true)));
    assert_eq!(answered(19), (Ok(()), Err(io::ErrorKind::BrokenPipe)));
    assert_eq!(answered(15).0, Err(io::ErrorKind::BrokenPipe));
}

/// The engine that a log leaves goes on where the log ended; and a copy of it goes another way.
#[test]
fn the_engine_of_a_log() {
    let mut desk = Desk::new();
    desk.feed(b"O\t2\t0\t1\nD\t10\t3\t0\t7\t7=500\nD\t11\t1\t0\t8\t8=-40\n", &mut io::sink()).expect("a sink takes all");
    let mut engine = desk.finish(&mut io::sink()).expect("a sink takes all").expect("the log opens an engine");
    let mut copy = engine.clone();
    assert!(engine.vote(10, 1, Ballot::Yes).expect("10 waits").eq([Finish::Committed { identity: 10, version: 2 }]));
    assert!(copy.vote(10, 1, Ballot::No).expect("10 waits").eq([Finish::Aborted { identity: 10 }]));
    assert_eq!(engine.read_newest(7), Ok(Reading { value: 500, version: 2 }));
    assert_eq!(copy.read_newest(7), Ok(Reading { value: 0, version: 1 }));
}

#[test]
fn no_engine() {
    for log in ["", "K\t5\n", "O\t9\t0\t0\n", "O\t2\t2\t0"] {
        let mut desk = Desk::default();
        desk.feed(log.as_bytes(), &mut io::sink()).expect("a sink takes all");
        assert!(desk.finish(&mut io::sink()).expect("a sink takes all").is_none());
    }
}

/// Each may go to a thread of its own.
#[test]
fn goes_to_a_thread() {
    fn goes<T: Send + Sync + 'static>(_: &T) {}
    let engine = Engine::open(telvrang::Sizes { partitions: 1, own: 0, k: 0 }).expect("the sizes are in the table");
    goes(&engine);
    goes(&Desk::new());
    let reader = std::thread::spawn(move || engine.read_newest(7));
    assert_eq!(reader.join().expect("it ends"), Ok(Reading { value: 0, version: 0 }));
}
