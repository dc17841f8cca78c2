#!/usr/bin/env python3
"""Runs every case of cases/ on a program: a log goes in, and what comes out must be the bytes of its answers.

usage: tools/cases.py PROGRAM

Each case is run whole from standard input, whole from a file named as argument, and cut into pieces. A piece is one packet of a socket of type
SOCK_SEQPACKET, so that each read of the program returns exactly one piece. Standard output is a file, so that nobody waits for anybody.
Behind the cases stands what they can't ask: a file that isn't there, two files, --help, a log far longer than a buffer, and an output that closes early.
A case is counted once for each way it was run. A line for each run that differs; the last line is 'N cases passed, M failed', and the status is 0
only if M is 0 and N is above 0.
"""
import os
import random
import socket
import subprocess
import sys
import tempfile
import threading
import time

CASES = os.path.join(os.path.dirname(os.path.dirname(os.path.abspath(__file__))), "cases")
SIZES = (1, 2, 3, 7, 64, 511, 512, 513, 4096)  # a piece has to fit the program's buffer: a read drops what a packet holds beyond it
SEED = 1  # of the random cuts
LIMIT = 10  # seconds for one run
SLOW = 3  # runs that may take so long before the rest is given up
EARLY = 1  # seconds for a program to end whose output has closed


def read(path):
    with open(path, "rb") as file:
        return file.read()


def cut(data, size):
    return [data[at:at + size] for at in range(0, len(data), size)]


def random_cut(data, name):
    chance = random.Random("%d %s" % (SEED, name))
    pieces, at = [], 0
    while at < len(data):
        size = chance.choice((1, 2, 5, 30, 300, 700, 4096))
        pieces.append(data[at:at + chance.randint(1, size)])
        at += len(pieces[-1])
    return pieces


def send(ours, pieces):
    try:
        for piece in pieces:
            ours.send(piece)
    except OSError:
        pass  # the program has ended, or took too long; what it wrote is looked at
    finally:
        ours.close()


def run(command, log, pieces, output):
    """The status of one run, or None if it took too long. Standard input is the file `log`, or the pieces where there is none."""
    sender = None
    if log is not None:
        theirs = open(log, "rb")
    else:
        ours, theirs = socket.socketpair(socket.AF_UNIX, socket.SOCK_SEQPACKET)
        ours.settimeout(LIMIT)
    with theirs, open(output, "wb") as out:
        child = subprocess.Popen(command, stdin=theirs, stdout=out, stderr=subprocess.DEVNULL)
    if log is None:
        sender = threading.Thread(target=send, args=(ours, pieces))
        sender.start()
    try:
        status = child.wait(LIMIT)
    except subprocess.TimeoutExpired:
        child.kill()
        child.wait()
        status = None
    if sender:
        sender.join()
    return status


def first_difference(got, want):
    """The first line that differs, as it should be and as it is."""
    ours, theirs = want.split(b"\n"), got.split(b"\n")
    at = next((i for i, (a, b) in enumerate(zip(ours, theirs)) if a != b), min(len(ours), len(theirs)))

    def shown(lines):
        return repr(lines[at][:80].decode("latin-1")) if at < len(lines) else "the end"

    return "line %d: should be %s, is %s" % (at + 1, shown(ours), shown(theirs))


def ways(program, log, name, data):
    """Each way to run a case: its name, the command, the file for standard input or None, the pieces."""
    yield "standard input", [program], log, None
    yield "a file", [program, log], os.devnull, None
    for size in SIZES:
        yield "pieces of %d" % size, [program], None, cut(data, size)
    yield "a random cut", [program], None, random_cut(data, name)


def run_cases(program, output):
    """How many runs passed, and how many failed."""
    passed = failed = 0
    files = sorted(os.listdir(CASES))
    names = [file[:-len(".log")] for file in files if file.endswith(".log")]
    known = ["README.md"] + [name + end for name in names for end in (".log", ".answers")]
    for file in files:
        if file not in known:
            print("cases: %s belongs to no case" % file)
            failed += 1
    if not names:
        print("cases: there is no case")
        failed += 1
    slow = 0
    for name in names:
        log, answers = os.path.join(CASES, name + ".log"), os.path.join(CASES, name + ".answers")
        if not os.path.exists(answers):
            print("%s: has no answers" % name)
            failed += 1
            continue
        data, want = read(log), read(answers)
        for way, command, source, pieces in ways(program, log, name, data):
            if slow == SLOW:
                failed += 1  # said once, below
                continue
            status = run(command, source, pieces, output)
            got = read(output)
            if status == 0 and got == want:
                passed += 1
                continue
            failed += 1
            slow += status is None
            wrong = first_difference(got, want) if got != want else "the answers are right"
            print("%s, %s: %s%s" % (name, way, wrong, "" if status == 0 else "; took too long" if status is None else "; status %d" % status))
    if slow == SLOW:
        print("cases: %d runs took too long; the runs behind them were not tried and count as failed" % SLOW)
    return passed, failed


def missing_file(program, output):
    absent = os.path.join(os.path.dirname(output), "absent.log")
    child = subprocess.run([program, absent], stdin=subprocess.DEVNULL, capture_output=True, timeout=LIMIT)
    return child.returncode != 0 and child.stderr != b"" and child.stdout == b""


def two_logs(program, output):
    log = os.path.join(CASES, "whole-run.log")
    child = subprocess.run([program, log, log], stdin=subprocess.DEVNULL, capture_output=True, timeout=LIMIT)
    return child.returncode != 0 and child.stderr != b"" and child.stdout == b""


def help_text(program, output):
    child = subprocess.run([program, "--help"], stdin=subprocess.DEVNULL, capture_output=True, timeout=LIMIT)
    return child.returncode == 0 and child.stdout != b""


def many_changes(output):
    """A log of an opening and 200,000 changes, in a file: its answers are the log itself."""
    chance = random.Random(SEED)
    log = output + ".log"
    with open(log, "wb") as file:
        file.write(b"O\t2\t0\t1\n" + b"".join(b"K\t%d\n" % chance.randrange(32) for _ in range(200000)))
    return log


def long_log(program, output):
    log = many_changes(output)
    return run([program], log, None, output) == 0 and read(output) == read(log)


def output_closes(program, output):
    """The reader takes one line of many and closes: the program ends by itself."""
    with open(many_changes(output), "rb") as source:
        child = subprocess.Popen([program], stdin=source, stdout=subprocess.PIPE, stderr=subprocess.DEVNULL)
    line = child.stdout.readline()
    child.stdout.close()
    start = time.monotonic()
    try:
        child.wait(EARLY)
    except subprocess.TimeoutExpired:
        child.kill()
        child.wait()
        return False
    return line == b"O\t2\t0\t1\n" and time.monotonic() - start < EARLY


def output_closed(program, output):
    """Nobody reads at all."""
    reader, writer = os.pipe()
    os.close(reader)
    try:
        log = os.path.join(CASES, "whole-run.log")
        subprocess.run([program, log], stdin=subprocess.DEVNULL, stdout=writer, stderr=subprocess.DEVNULL, timeout=EARLY)
    finally:
        os.close(writer)
    return True


MANNERS = (
    ("a file that isn't there", missing_file),
    ("two files", two_logs),
    ("--help", help_text),
    ("a log of 200,001 lines", long_log),
    ("output that closes after a line", output_closes),
    ("output that is closed", output_closed),
)


def run_manners(program, output):
    passed = failed = 0
    for name, manner in MANNERS:
        try:
            good = manner(program, output)
        except subprocess.TimeoutExpired:
            good = False
        if good:
            passed += 1
        else:
            failed += 1
            print("%s: the program does otherwise" % name)
    return passed, failed


def main():
    if len(sys.argv) != 2 or sys.argv[1] in ("-h", "--help"):
        print(__doc__)
        sys.exit(0 if sys.argv[1:] in (["-h"], ["--help"]) else 2)
    program = os.path.abspath(sys.argv[1])
    if not os.access(program, os.X_OK):
        print("cases: %s is no program" % program)
        print("0 cases passed, 1 failed")
        sys.exit(1)
    with tempfile.TemporaryDirectory() as folder:
        output = os.path.join(folder, "output")
        counts = [run_cases(program, output), run_manners(program, output)]
    passed, failed = sum(count[0] for count in counts), sum(count[1] for count in counts)
    print("%d cases passed, %d failed" % (passed, failed))
    sys.exit(0 if failed == 0 and passed > 0 else 1)


main()
