//! The first target: the bytes of an input are a log, behind a few that choose how it is given to the library's `feed`: in which pieces, with how much room
//! for the answers, on which tables. Every call is held against the second program's answers to the same lines.

mod plan;

mod lines;

mod ledger;
mod lent;

mod facts;
mod wanted;

mod run;
mod show;

use std::cell::RefCell;

use second::Program;
use telvrang::lent::Standing;
use telvrang::{BOOK, SUMS};
use trial::random::Random;

use facts::Counts;
use ledger::ledger;
use lent::{tables, Lent};
use plan::{Held, Lengths, Plan};
use run::Run;
use show::show_log;
use wanted::Wanted;

use crate::difference::{is_shown, tell};

thread_local! {
    static LENT: RefCell<Lent> = RefCell::new(Lent::new());
}

/// The input after a change by whole lines, which the seed settles.
pub fn changed(input: &[u8], seed: u64) -> Vec<u8> {
    lines::changed(input, &mut Random::new(seed))
}

/// Where the library doesn't answer the input as it is wanted, the difference is told, and that ends the process.
pub fn try_input(input: &[u8]) {
    let (plan, log) = Plan::read(input);
    let log = if plan.reads_behind { with_reads(log) } else { log.to_vec() };
    if is_shown() {
        show_log(&plan, &log);
    }
    LENT.with_borrow_mut(|lent| {
        if let Err(difference) = try_log(&plan, &log, lent) {
            tell(&difference);
        }
    });
}

fn try_log(plan: &Plan, log: &[u8], lent: &mut Lent) -> Result<(), String> {
    let (book, sums) = tables(plan);
    lent.book.hold(&book, plan.neighbour);
    lent.sums.hold(&sums, plan.neighbour);

    // The tables say how a log that is said to be opened stands; of any other they say nothing.
    let goes_on = plan.opened && plan.held == Held::Ledger;
    let suffice = !matches!(plan.lengths, Lengths::ShortBook | Lengths::ShortSums);
    let usable = suffice && (goes_on || !plan.opened);
    let program = if goes_on { ledger().answered().0 } else { Program::default() };
    let standing = Standing { opened: plan.opened, skipping: plan.skipping };

    let wanted = Wanted::new(program, usable, standing);
    let mut run = Run { plan, wanted, lent, standing, answers: Vec::new() };
    run.give(log)?;
    let Run { standing, answers, .. } = run;

    let (book_after, sums_after) = (lent.book.row(), lent.sums.row());
    if !usable || !standing.opened {
        return require(book_after == book && sums_after == sums, "tables that no event could use were written");
    }
    require(book_after[BOOK..] == book[BOOK..] && sums_after[SUMS..] == sums[SUMS..], "the excess of longer tables was written")?;
    let mut counts = if goes_on { Counts { dc: book[3], sc: book[2], waiting: book[5] } } else { Counts::default() };
    counts.add(&answers);
    counts.hold_in(book_after, sums_after)
}

fn require(holds: bool, otherwise: &str) -> Result<(), String> {
    if holds {
        return Ok(());
    }
    Err(otherwise.to_string())
}

/// Reads at SC of the keys that the log names, so that what the ledger then holds is seen.
fn with_reads(log: &[u8]) -> Vec<u8> {
    let mut keys = [false; 1_024];
    for digits in log.split(|byte| !byte.is_ascii_digit()).filter(|digits| (1..=4).contains(&digits.len())) {
        let number = digits.iter().fold(0, |number, digit| number * 10 + usize::from(digit - b'0'));
        if let Some(key) = keys.get_mut(number) {
            *key = true;
        }
    }
    let mut with_reads = log.to_vec();
    for key in (0..keys.len()).filter(|&key| keys[key]) {
        with_reads.extend(format!("\nR\t{key}\t-").into_bytes());
    }
    with_reads
}
