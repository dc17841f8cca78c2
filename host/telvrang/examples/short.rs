use telvrang::{Ballot, Delivery, Engine, Fate, Finish, Refusal, Sizes};

fn main() -> Result<(), Refusal> {
    let mut engine = Engine::open(Sizes { partitions: 2, own: 0, k: 1 })?;
    let outcome = engine.deliver(&Delivery { identity: 10, set: 3, st: 0, reads: &[7], writes: &[(7, 500)] })?;
    assert_eq!((outcome.dc, outcome.fate, outcome.send), (1, Fate::Waits { place: 0 }, Some(Ballot::Yes)));
    engine.vote(10, 1, Ballot::Yes)?;
    let outcome = engine.deliver(&Delivery { identity: 11, set: 1, st: 0, reads: &[], writes: &[(8, -40)] })?;
    for finish in outcome.finishes {
        match finish {
            Finish::Committed { identity, version } => println!("{identity} commits as version {version}"),
            Finish::Aborted { identity } => println!("{identity} aborts"),
        }
    }
    println!("key 7 holds {}", engine.read_newest(7)?.value);
    Ok(())
}
