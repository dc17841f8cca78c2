#!/usr/bin/env python3
"""Measures the program against two in ordinary Rust, on the logs of tools/make_log.py: host/plain scans its lists as the engine does, host/second counts by key.

usage: tools/bench.py [--events N] [--runs N] [--program PATH]

Build first: ./telvrang --help, and cargo build --release in host/. Each log has a million events, or N. The three programs answer it in turn, five times each, or
N times, from a file and to /dev/null; a time is a run's user and system time, and the best run of each program counts. Where the machine has other work, it is
quieter on one processor: taskset -c 0 tools/bench.py. The logs stand in a temporary folder, one at a time.

It is no test of speed: it fails only where the answers differ, which it looks at once for each log, or where a program does not end well.
"""
import argparse
import filecmp
import os
import subprocess
import sys
import tempfile

HERE = os.path.dirname(os.path.dirname(os.path.abspath(__file__)))
ENGINE = os.path.join(HERE, "crates", "telvrang", "out", "telvrang")
PLAIN = os.path.join(HERE, "host", "target", "release", "plain")
SECOND = os.path.join(HERE, "host", "target", "release", "second")
MAKE_LOG = os.path.join(HERE, "tools", "make_log.py")
# A shape of make_log.py, and what the table calls it.
LOGS = (
    ("full", "full list"),
    ("local", "all local"),
    ("reads", "nine in ten are reads"),
    ("scattered", "28 wait, scattered keys"),
    ("scattered-local", "the same, nine in ten local"),
    ("scattered-reads", "the same, four in five are reads"),
)


def natural(text):
    number = int(text)
    if number < 1:
        raise argparse.ArgumentTypeError("must be 1 or more")
    return number


def options():
    parser = argparse.ArgumentParser(description=__doc__, formatter_class=argparse.RawDescriptionHelpFormatter)
    parser.add_argument("--events", type=natural, default=1_000_000, metavar="N", help="events of each log")
    parser.add_argument("--runs", type=natural, default=5, metavar="N", help="runs of each program on each log")
    parser.add_argument("--program", default=ENGINE, metavar="PATH", help="the program that is measured against the two")
    return parser.parse_args()


def seconds(program, log, output):
    """User and system time of one run, of this child alone."""
    with open(log, "rb") as source, open(output, "wb") as answers:
        child = subprocess.Popen([program], stdin=source, stdout=answers)
    _, status, usage = os.wait4(child.pid, 0)
    child.returncode = os.waitstatus_to_exitcode(status)
    if child.returncode != 0:
        sys.exit("bench: %s ended with status %d" % (program, child.returncode))
    return usage.ru_utime + usage.ru_stime


def compare(programs, log, folder):
    """Each program once, its answers kept: they have to be the same bytes."""
    outputs = [os.path.join(folder, "answers.%d" % at) for at in range(len(programs))]
    for program, output in zip(programs, outputs):
        seconds(program, log, output)
    for program, output in zip(programs, outputs):
        if not filecmp.cmp(outputs[0], output, shallow=False):
            sys.exit("bench: %s and %s answer this log differently" % (programs[0], program))
    for output in outputs:
        os.remove(output)


def measure(programs, log, runs):
    """The best time of each program, where they run in turn."""
    rounds = [[seconds(program, log, os.devnull) for program in programs] for _ in range(runs)]
    return [min(times) for times in zip(*rounds)]


def row(cells):
    print("| %s |" % " | ".join(cells), flush=True)


def bench(programs, events, runs, folder):
    row(["Log", "telvrang", "plain", "second", "telvrang / plain", "telvrang / second"])
    row(["---"] + ["---:"] * 5)
    for shape, name in LOGS:
        log = os.path.join(folder, "log")
        with open(log, "wb") as file:
            subprocess.run([sys.executable, MAKE_LOG, str(events), shape], stdout=file, check=True)
        compare(programs, log, folder)
        engine, plain, second = measure(programs, log, runs)
        times = ["%.2f s" % time for time in (engine, plain, second)]
        row(["%s (`%s`)" % (name, shape)] + times + ["%.2f" % (engine / other) if other > 0 else "-" for other in (plain, second)])


def machine():
    with open("/proc/cpuinfo", encoding="utf-8") as file:
        fields = [line.split(":", 1) for line in file if ":" in line]
    names = {value.strip() for name, value in fields if name.strip() == "model name"}
    return "%s, %d processors" % (", ".join(sorted(names)) or os.uname().machine, os.cpu_count())


def main():
    chosen = options()
    programs = [os.path.abspath(chosen.program), PLAIN, SECOND]
    for program in programs:
        if not os.access(program, os.X_OK):
            sys.exit("bench: %s is not there: ./telvrang --help builds the engine's program, cargo build --release in host/ the other two" % program)
    with tempfile.TemporaryDirectory() as folder:
        bench(programs, chosen.events, chosen.runs, folder)
    print("\n%d events a log; user and system time of the best of %d runs, in turn; %s" % (chosen.events, chosen.runs, machine()))


main()
