#!/usr/bin/env python3
"""Does the fuzzer find faults? Each slip is put into a copy of what the library is compared with, and the target runs on it until it finds the difference.

    host/fuzz/slips.py [SECONDS]    at most SECONDS (300) for each; the last line is 'N slips found, M failed', and the status is 0 only if M is 0

The targets begin from nothing, without the cases and the kept inputs that `run` gives them: many cases were written for these very slips.
"""

import os
import re
import shutil
import subprocess
import sys
import tempfile
from pathlib import Path

HERE = Path(__file__).resolve().parent
LIBRARY = HERE.parent.parent / "crates/host/out/libhost.a"
FOUND = 77  # libFuzzer's status where an input ended the process
OPTIONS = {"text": ["-max_len=4096", "-dict=text.dict"], "tables": ["-max_len=2048"]}

# Where the library has been called.
FED = "sums.lend(), out.lend());"
ANSWER = "answer.unwrap_or_else("
SLIPPED = """
fn slipped(transaction: &Transaction<'_>, book: &mut [u32], sums: &mut [i64], finishes: &mut [u32]) -> Result<Delivered, Refusal> {
    lent::deliver(transaction, book, sums, finishes).inspect_err(|_| book.iter_mut().skip(3).take(1).for_each(|dc| *dc += 1))
}"""

# Of each: the target, what slips, and the edits that make it slip: a file below host/, a text that stands there once, and what takes its place.
SLIPS = [
    # Document 01, "Slips that cost a fee".
    ("text", "passing tested with DC < rt", [("second/src/waiting.rs", "entry.global && dc <= entry.rt", "entry.global && dc < entry.rt")]),
    ("text", "finishing on DC = rt only", [("second/src/waiting.rs", "dc >= self.rt", "dc == self.rt")]),
    (
        "text",
        "testing commits from st on",
        [
            ("second/src/store.rs", "].written > st", "].written >= st.max(1)"),
            ("second/src/store.rs", "].read > st", "].read >= st.max(1)"),
        ],
    ),
    (
        "text",
        "testing a global one on its reads alone",
        [
            ("second/src/engine.rs", "(global && delivery", "(false && global && delivery"),
            ("second/src/engine.rs", "|| delivery.writes.iter().any(", "|| false && delivery.writes.iter().any("),
        ],
    ),
    (
        "text",
        "raising DC for a refused delivery",
        [("second/src/engine.rs", "self.admit(delivery)?;\n        self.dc += 1;", "self.dc += 1;\n        self.admit(delivery)?;")],
    ),
    ("text", "closing one head an event", [("second/src/engine.rs", "while let Some(head)", "if let Some(head)")]),
    ("tables", "passing tested with DC < rt", [("model/src/rules.rs", "state.dc <= entry.rt", "state.dc < entry.rt")]),
    ("tables", "finishing on DC = rt only", [("model/src/rules.rs", "state.dc >= entry.rt", "state.dc == entry.rt")]),
    ("tables", "testing commits from st on", [("model/src/rules.rs", "version > st", "version >= st")]),
    ("tables", "testing a global one on its reads alone", [("model/src/rules.rs", "(!local && share(", "(false && share(")]),
    # The model hands back a number and no state, so here it is the library's tables that slip.
    (
        "tables",
        "raising DC for a refused delivery",
        [("fuzz/src/tables/lent.rs", "lent::deliver(&transaction,", "slipped(&transaction,"), ("fuzz/src/tables/lent.rs", "impl Memory {", "SLIPPED\n\nimpl Memory {")],
    ),
    ("tables", "closing one head an event", [("model/src/rules.rs", "while self.head_is_ready(state) {", "if self.head_is_ready(state) {")]),
    # Slips of the reader of lines, and of what is kept and tested.
    ("text", "-0 is read", [("second/src/records.rs", "0 => None,", "0 => Some(0),")]),
    ("text", "a leading zero is read", [("second/src/records.rs", "length > 1 && self.rest[0] == b'0'", "false")]),
    ("text", "the smallest value is too small", [("second/src/records.rs", "0i64.checked_sub_unsigned(magnitude)", "i64::try_from(magnitude).ok().map(|value| -value)")]),
    ("text", "a line may have 513 bytes", [("second/src/sizes.rs", "LINE: usize = 512", "LINE: usize = 513")]),
    ("text", "a folded write is lost", [("second/src/store.rs", "].at_floor = old.value", "].at_floor += 0 * old.value")]),
    ("tables", "an rt beyond DC + 31 is sound", [("model/src/soundness.rs", "u64::from(entry.rt) <= ", "true || u64::from(entry.rt) <= ")]),
    ("tables", "votes against may come from anyone", [("model/src/soundness.rs", "members(entry.ayes | entry.nays)", "members(entry.ayes)")]),
    ("tables", "two that wait may have one identity", [("model/src/soundness.rs", "!identities[..place].contains(identity)", "true")]),
    ("tables", "a kept set in any order is sound", [("model/src/soundness.rs", "of_waiting.chain(of_kept)", "of_waiting.chain(of_kept.take(0))")]),
    ("tables", "a kept commit's reads are forgotten", [("model/src/rules.rs", "reads: transaction.reads,", "reads: Vec::new(),")]),
    # Slips of what is done with the memory that is lent.
    ("text", "room for just one event isn't enough", [("fuzz/src/text/wanted.rs", ">= ANSWERS", "> ANSWERS")]),
    ("text", "a byte behind the answers is written", [("fuzz/src/text/run.rs", FED, FED + "out.lend().iter_mut().skip(fed.wrote).take(1).for_each(|byte| *byte = 0);")]),
    ("text", "a word behind the book is written", [("fuzz/src/text/run.rs", FED, FED + "unsafe { *book.lend().as_mut_ptr_range().end = 0 };")]),
    ("tables", "a word of the excess is written", [("fuzz/src/tables/lent.rs", ANSWER, "self.book.lend().iter_mut().skip(2310).for_each(|word| *word += 1);" + ANSWER)]),
    ("tables", "a word behind the finish list is written", [("fuzz/src/tables/lent.rs", ANSWER, "unsafe { *self.finishes.lend().as_mut_ptr_range().end = 0 };" + ANSWER)]),
    ("tables", "a word before the book is written", [("fuzz/src/tables/lent.rs", ANSWER, "unsafe { *self.book.lend().as_mut_ptr().sub(1) = 0 };" + ANSWER)]),
    ("tables", "a refusal writes an amount", [("fuzz/src/tables/lent.rs", ANSWER, "if answer.is_err() { self.sums.lend().iter_mut().take(1).for_each(|amount| *amount += 1); }" + ANSWER)]),
]


def main():
    seconds = int(sys.argv[1]) if len(sys.argv) > 1 else 300
    failed = 0
    with tempfile.TemporaryDirectory() as folder:
        copy = Path(folder) / "host"
        for target, slip, edits in SLIPS:
            shutil.copytree(HERE.parent, copy, ignore=shutil.ignore_patterns("target", "out"), dirs_exist_ok=True)
            for file, old, new in edits:
                edit(copy / file, old, new)
            program = build(copy / "fuzz", target)
            found, inputs, took = fuzz(program, target, seconds)
            failed += not found
            print(f"{target:6}  {slip:40}  {'found' if found else 'NOT FOUND'} after {inputs:>9} inputs, {took:6.1f} seconds", flush=True)
    print(f"{len(SLIPS) - failed} slips found, {failed} failed")
    sys.exit(failed > 0)


def edit(path, old, new):
    text = path.read_text()
    if text.count(old) != 1:
        sys.exit(f"slips: {path.name} has {text.count(old)} times: {old}")
    path.write_text(text.replace(old, new.replace("SLIPPED", SLIPPED)))


def build(folder, target):
    environment = {name: value for name, value in os.environ.items() if "RUSTFLAGS" not in name}
    environment["TELVRANG_LIB_DIR"] = str(LIBRARY.parent)
    command = ["cargo", "build", "--release", "--offline", "--quiet", "--bin", target]
    subprocess.run(command, cwd=folder, env=environment, check=True, stderr=subprocess.DEVNULL)
    program = folder / "target/x86_64-unknown-linux-gnu/release" / target
    blocks = subprocess.run([folder / "list-blocks", program, LIBRARY], check=True, capture_output=True).stdout
    program.with_suffix(".blocks").write_bytes(blocks)
    return program


def fuzz(program, target, seconds):
    """Whether it found the difference, after how many inputs, and how long that took the processor."""
    corpus = tempfile.TemporaryDirectory()
    command = [program, *OPTIONS[target], f"-max_total_time={seconds}", "-print_final_stats=1", "-artifact_prefix=" + corpus.name + "/", corpus.name]
    before = processor_time()
    run = subprocess.run(command, cwd=HERE, capture_output=True, text=True, errors="replace")
    took = processor_time() - before
    inputs = re.search(r"number_of_executed_units: *(\d+)", run.stderr)
    return run.returncode == FOUND, inputs and inputs.group(1), took


def processor_time():
    """Of the processes that have ended."""
    times = os.times()
    return times.children_user + times.children_system


main()
