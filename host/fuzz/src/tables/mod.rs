//! The second target: an input says what three lent tables hold (an opened ledger, a sound state that no log need give, or any words), and then which calls
//! come, some of them as lines of a log, now and then with a word of the book spoilt before. Each call is held against the model: its answer, and all that it
//! leaves in what is lent.

mod keys;

mod calls;
mod sound;
mod spoil;

mod lent;
mod start;

mod lines;

mod compare;
mod show;

use std::cell::RefCell;

use model::decode;

use crate::bytes::Bytes;
use crate::difference::{is_shown, tell};
use calls::call;
use compare::{compare, compare_line};
use lent::Memory;
use lines::line;
use show::{show_call, show_lent};
use spoil::spoil;
use start::start;

/// So many calls are enough: an input that has more bytes says no more.
const CALLS: usize = 64;

thread_local! {
    static MEMORY: RefCell<Memory> = RefCell::new(Memory::new());
}

/// Where a call doesn't do as it is wanted, the difference is told, and that ends the process.
pub fn try_input(input: &[u8]) {
    MEMORY.with_borrow_mut(|memory| {
        if let Err(difference) = try_calls(&mut Bytes::new(input), memory) {
            tell(&difference);
        }
    });
}

fn try_calls(bytes: &mut Bytes, memory: &mut Memory) -> Result<(), String> {
    start(bytes, memory);
    if is_shown() {
        show_lent(&memory.copy());
    }
    let mut calls = 0;
    while !bytes.are_over() && calls < CALLS {
        calls += 1;
        let spoilt = if bytes.below(8) == 7 { spoil(memory.book.lend(), bytes) } else { None };
        let state = decode(memory.book.row(), memory.sums.row());
        let call = call(state.as_ref(), bytes);
        if is_shown() {
            show_call(spoilt, &call);
        }
        match line(&call) {
            Some(line) if bytes.below(4) == 0 => compare_line(&call, &line, memory)?,
            _ => compare(&call, memory)?,
        }
        if let Some(spoilt) = spoilt {
            spoilt.put_back(memory.book.lend(), bytes);
        }
    }
    Ok(())
}
