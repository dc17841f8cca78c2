#!/usr/bin/env python3
"""Counts what a reader of the proofs has before them, and prints it as docs/SIZES.md.

usage: tools/sizes.py            prints the page
       tools/sizes.py --write    writes it to docs/SIZES.md
       tools/sizes.py --check    says whether the page that stands is the one it would write; status 1 if it isn't

A line counts if it is neither empty nor a comment alone. A contract is a function's `ensures`. The public operations are the functions that lib.rt of
engine and of feed offer, and those that host exports.
"""
import os
import re
import sys

TOP = os.path.dirname(os.path.dirname(os.path.abspath(__file__)))
PAGE = os.path.join(TOP, "docs", "SIZES.md")
CASES = ("Cases", "WholeRun", "WholeRunText", "BothSides", "Slips")  # of rules: what the definitions are tried on
HEAD = re.compile(r"^ *(pub )?(extern \"C\" )?fn .*?(?=\{$)", re.M | re.S)  # a function up to its body; the braces of a clause end no line


def crates():
    with open(os.path.join(TOP, "crates.txt")) as file:
        return [line.split(":")[0].split()[0] for line in file if line.strip() and not line.startswith("#")]


def files(crate, folder, ending):
    found = []
    for place, _, names in os.walk(os.path.join(TOP, "crates", crate, folder)):
        found += [os.path.join(place, name) for name in names if name.endswith(ending)]
    return sorted(found)


def text(path):
    with open(path, encoding="utf-8") as file:
        return file.read()


def lines(paths, comment):
    return sum(1 for path in paths for line in text(path).split("\n") if line.strip() and not line.strip().startswith(comment))


def functions(paths):
    """The heads of the functions, with their contracts."""
    return [head for path in paths for head in HEAD.finditer(text(path))]


def operations():
    offered = [head for name in ("engine", "feed") for head in functions([os.path.join(TOP, "crates", name, "src", "lib.rt")]) if head.group(1)]
    return offered + [head for head in functions(files("host", "src", ".rt")) if head.group(2)]


def table(names):
    yield "| Crate | Lines of code | Functions | With a contract | Lines of definitions and laws | Lines of proofs | Edits that must fail |"
    yield "|---|---|---|---|---|---|---|"
    total = [0] * 6
    for name in names:
        code = files(name, "src", ".rt")
        all_of_it = functions(code)
        row = [
            lines(code, "//"),
            len(all_of_it),
            sum("ensures" in head.group(0) for head in all_of_it),
            lines(files(name, "specs", ".antt"), "--"),
            lines(files(name, "proofs", ".antt"), "--"),
            len(files(name, "must-fail", ".edit")),
        ]
        total = [a + b for a, b in zip(total, row)]
        yield f"| {name} | " + " | ".join(f"{n:,}" for n in row) + " |"
    yield "| all | " + " | ".join(f"{n:,}" for n in total) + " |"


def page():
    names = crates()
    rules = files("rules", "specs", ".antt")
    cases = [path for path in rules if os.path.basename(path)[:-5] in CASES]
    rest = [path for path in rules if path not in cases]
    offered = operations()
    yield "# Sizes"
    yield ""
    yield "How much a reader has before them; made by `tools/sizes.py --write`, and held against the tree by `./check`. Empty lines and lines of comment alone don't count."
    yield ""
    yield "| What | How much |"
    yield "|---|---|"
    yield f"| Lines that have to be believed: the definitions of `crates/rules/specs` | {lines(rest, '--'):,} |"
    yield f"| .. and beside them the document's runs and cases, on which those definitions are computed | {lines(cases, '--'):,} |"
    yield f"| Axioms of this repository | {axioms(names)} |"
    yield f"| Public operations, on lent tables, on text and for C (`engine::looking`, the inner face, apart) | {len(offered)} |"
    yield f"| .. of them with a `requires`, or without an `ensures` | {sum('requires' in head.group(0) or 'ensures' not in head.group(0) for head in offered)} |"
    yield ""
    yield from table(names)


def axioms(names):
    proofs = [path for name in names for folder in ("specs", "proofs") for path in files(name, folder, ".antt")]
    return sum(len(re.findall(r"^\s*axiom\b", text(path), re.M)) for path in proofs)


def main():
    made = "\n".join(page()) + "\n"
    if sys.argv[1:] == ["--write"]:
        with open(PAGE, "w", encoding="utf-8") as file:
            file.write(made)
    elif sys.argv[1:] == ["--check"]:
        same = os.path.exists(PAGE) and text(PAGE) == made
        if not same:
            print("docs/SIZES.md isn't as the tree is: run tools/sizes.py --write")
        print(f"{int(same)} pages passed, {int(not same)} failed")
        sys.exit(0 if same else 1)
    else:
        sys.stdout.write(made)


main()
