//! Coverage of the library's own machine code, which the kit's compiler makes without counters.
//!
//! `run` lists where its basic blocks begin. At the start, a breakpoint is written over the first byte of each; when the processor comes to one, its
//! handler counts the block, puts the byte back and lets the processor go on from there. So each block costs once, and after that the library is
//! byte for byte what it was.

use std::env::current_exe;
use std::ffi::{c_int, c_void};
use std::fs::read_to_string;
use std::ptr::null_mut;
use std::sync::OnceLock;

use crate::counters::{count_block, BLOCKS};

/// A block's first byte: where it is in the program's file and in memory, and what it is.
struct Block {
    listed: usize,
    at: usize,
    byte: u8,
}

static LIBRARY: OnceLock<Vec<Block>> = OnceLock::new();

/// Reads the list beside the program, and writes the breakpoints. Without a list the fuzzer is guided by what the library answers alone.
pub fn watch() {
    let path = current_exe().expect("the program has a path").with_extension("blocks");
    let Ok(list) = read_to_string(&path) else {
        eprintln!("there is no {}: the library's machine code is not watched", path.display());
        return;
    };
    let blocks = LIBRARY.get_or_init(|| read_blocks(&list));
    assert!(!blocks.is_empty() && blocks.len() <= BLOCKS, "{} blocks", blocks.len());
    // SAFETY: the pages hold code of this program, and stay readable and executable.
    let opened = unsafe { open_pages(blocks[0].at, blocks[blocks.len() - 1].at) };
    assert!(opened, "the library's code can't be written");
    handle_breakpoints();
    for block in blocks {
        write_code(block.at, BREAKPOINT);
    }
    // SAFETY: a function that takes nothing.
    unsafe { atexit(show_reached) };
}

/// The first line has the address of `telvrang_open_lent` in the program's file, and the others those of the blocks, in rising order.
fn read_blocks(list: &str) -> Vec<Block> {
    let mut addresses = list.lines().map(|line| usize::from_str_radix(line, 16).expect("an address"));
    let moved = (telvrang_open_lent as *const () as usize).wrapping_sub(addresses.next().expect("a line for each address"));
    let block = |listed: usize| {
        let at = listed.wrapping_add(moved);
        // SAFETY: the list is of this very program, so this is in its code.
        Block { listed, at, byte: unsafe { *(at as *const u8) } }
    };
    addresses.map(block).collect()
}

extern "C" fn show_reached() {
    let blocks = LIBRARY.get().map_or(&[][..], |blocks| blocks);
    // SAFETY: as when they were read.
    let left = blocks.iter().filter(|block| unsafe { *(block.at as *const u8) } != block.byte);
    let left: Vec<String> = left.map(|block| format!("{:x}", block.listed)).collect();
    eprintln!("library: {} of {} blocks reached, all but {}", blocks.len() - left.len(), blocks.len(), left.join(" "));
}

extern "C" fn on_breakpoint(_signal: c_int, _information: *mut c_void, context: *mut Context) {
    // SAFETY: the kernel's, and this thread's own until the handler returns.
    let next = unsafe { &mut (*context).next_instruction };
    *next -= 1; // back over the breakpoint
    let blocks = LIBRARY.get().expect("the breakpoints were written from it");
    let block = blocks.binary_search_by_key(next, |block| block.at).expect("nobody else writes breakpoints");
    write_code(*next, blocks[block].byte);
    count_block(block);
}

fn write_code(at: usize, byte: u8) {
    // SAFETY: the first byte of a block, in pages that were opened for this.
    unsafe { (at as *mut u8).write_volatile(byte) };
}

unsafe fn open_pages(first: usize, last: usize) -> bool {
    let start = first & !(PAGE - 1);
    // SAFETY: whoever calls this says so.
    unsafe { mprotect(start as *mut c_void, last + 1 - start, READ | WRITE | EXECUTE) == 0 }
}

fn handle_breakpoints() {
    let action = Action { handler: on_breakpoint, mask: [0; 16], flags: WITH_CONTEXT, restorer: null_mut() };
    // SAFETY: the C library's structure, and a handler of the form that its flags ask for.
    let handled = unsafe { sigaction(TRAP, &action, null_mut()) };
    assert!(handled == 0, "breakpoints can't be handled");
}

const BREAKPOINT: u8 = 0xCC;
const PAGE: usize = 4_096;
const READ: c_int = 1;
const WRITE: c_int = 2;
const EXECUTE: c_int = 4;
const TRAP: c_int = 5;
const WITH_CONTEXT: c_int = 4;

/// `struct sigaction` of the C library on x86-64.
#[repr(C)]
struct Action {
    handler: extern "C" fn(c_int, *mut c_void, *mut Context),
    mask: [u64; 16],
    flags: c_int,
    restorer: *mut c_void,
}

/// The part of `ucontext_t` up to the address of the next instruction.
#[repr(C)]
struct Context {
    before: [u64; 21],
    next_instruction: usize,
}

unsafe extern "C" {
    fn telvrang_open_lent();
    fn mprotect(address: *mut c_void, length: usize, protection: c_int) -> c_int;
    fn sigaction(signal: c_int, action: *const Action, before: *mut Action) -> c_int;
    fn atexit(function: extern "C" fn()) -> c_int;
}
