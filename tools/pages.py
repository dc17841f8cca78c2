#!/usr/bin/env python3
"""Holds the runs on the pages against a program, and the programs on them against the files that they are.

usage: tools/pages.py PROGRAM PAGE..

A run is a block of lines, each indented by four spaces, whose first line begins with O|. What goes in stands at the fifth place of a line, what comes out behind
two spaces or more, `|` for the tab; a line that has spaces there says another thing that came out; what stands behind that is comment. A program is a fenced block
behind a line that ends with its file's name, as "(`host/c/short.c`):". The last line is 'N runs passed, M failed', and the status is 0 only if M is 0 and N is above 0.
"""
import os
import re
import subprocess
import sys


TOP = os.path.dirname(os.path.dirname(os.path.abspath(__file__)))


def text(path):
    with open(path, encoding="utf-8") as file:
        return file.read()


def runs(page):
    blocks = re.findall(r"(?:^    .*\n)+", text(page), re.M)
    return [block.splitlines() for block in blocks if block.startswith("    O|")]


def programs(page):
    """The name of the file and the block; a block that names no file has an empty name."""
    return re.findall(r"^.*?(?:\(`([^`]*)`\):)?\n\n```(?:c|rust)\n(.*?)^```$", text(page), re.M | re.S)


def parts(lines):
    goes_in, comes_out = [], []
    for line in lines:
        words = line.split()
        if line[4] != " ":
            goes_in.append(words.pop(0))
        comes_out.append(words[0])
    return ["".join(word.replace("|", "\t") + "\n" for word in side).encode() for side in (goes_in, comes_out)]


def main():
    program, pages = sys.argv[1], sys.argv[2:]
    passed, failed = 0, 0
    for page in pages:
        for lines in runs(page):
            goes_in, comes_out = parts(lines)
            got = subprocess.run([program], input=goes_in, stdout=subprocess.PIPE, timeout=60, check=False).stdout
            if got == comes_out:
                passed += 1
            else:
                failed += 1
                print(f"{page}: the run differs: it gives\n{got.decode(errors='replace')}")
        for name, block in programs(page):
            if name and text(os.path.join(TOP, name)) == block:
                passed += 1
            else:
                failed += 1
                print(f"{page}: the program isn't the file that it names: {name or 'none'}")
    print(f"{passed} runs passed, {failed} failed")
    sys.exit(0 if failed == 0 and passed > 0 else 1)


main()
