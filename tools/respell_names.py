#!/usr/bin/env python3
"""Brings this repository's own names to the spelling of Rattle's library: words in snake case, `commits_after` for `commits-after`.

usage: python3 tools/respell_names.py, once, at the top of the repository, after the kit's own scripts.

An own name is one with a dash that a file of specs/ declares or binds; what comes from a library keeps its spelling. Two more go by a table:
`insertAt`, and `getD`, a word of the library that is `get_or` today, in the names of lemmas on it. The names are turned
in specs/, in proofs/, in the contracts of src/, in must-fail edits and in the pages. It stops before it writes where two names would fall together.
In the edits, projections are written tight too (`b.sc` for `b .sc`), as the kit's scripts write them everywhere else.
"""
import glob
import re
import sys

WORD = re.compile(r"(?<![\w'-])(?:[A-Za-z][\w']*(?:-[\w']+)+|insertAt)(?![\w'-])")
DECLARED = re.compile(r"\s*(?:(?:pub|abbrev|unfoldable|record|data|ruleset) )*([A-Za-z][\w'-]*) :")
IMPORT = re.compile(r"\s*use ([\w.+-]+)\.\{([^}]*)\}")
OURS = {line.split(":")[0].strip() for line in open("crates.txt") if ":" in line and not line.startswith("#")}


def spelled(name):
    return name.replace("insertAt", "insert_at").replace("getD", "get_or").replace("-", "_")


def code(text):
    return "\n".join(line.split("--")[0] for line in text.split("\n"))


def from_outside(path):
    parts = path.split(".")
    return not (parts[0] == "Rattle" and len(parts) > 1 and parts[1] in OURS)


def names():
    declared, seen, lent, plain = set(), set(), set(), set()  # plain: names that the kit's scripts turned already
    for path in glob.glob("crates/*/specs/*.antt"):
        text = code(open(path).read())
        seen.update(m.group(0) for m in WORD.finditer(text) if text[m.start() - 1] != ".")
        plain.update(re.findall(r"(?<![\w'-])[A-Za-z]\w*_[\w']*(?![\w'-])", text))
        for line in text.split("\n"):
            found = DECLARED.match(line)
            if found and WORD.fullmatch(found.group(1)):
                declared.add(found.group(1))
            found = IMPORT.match(line)
            if found and from_outside(found.group(1)):
                lent.update(name.strip().split(" as ")[0] for name in found.group(2).split(","))
    own = (declared | seen) - lent
    turned = {}
    for name in sorted(own):
        new = spelled(name)
        if new in turned.values() or new in plain:
            sys.exit("respell_names: %s falls together with another name; nothing was written" % name)
        turned[name] = new
    return declared, turned, plain


def tight(line):
    """`(b .sc)` and `b .sc` of an edit, as the kit's scripts write them."""
    line = re.sub(r"(?<=[\w)]) \.(?=[a-z])", ".", line)
    return re.sub(r"(?<![\w'.])\(([a-z]\w*(?:\.[a-z]\w*)+)\)", r"\1", line)


def main():
    declared, turned, plain = names()
    proofs = {name: turned[name] for name in declared if name in turned}

    def turn(path, words, kept=()):
        def turned_word(m):
            new = spelled(m.group(0))
            return words.get(m.group(0), new if new in kept else m.group(0))

        text = open(path).read()
        new = WORD.sub(turned_word, text)
        if path.endswith(".edit") and re.search(r"^file: specs/", new, flags=re.M):
            new = "\n".join(tight(line) if line.startswith(("old:", "new:")) else line for line in new.split("\n"))
        if new != text:
            open(path, "w").write(new)

    for path in glob.glob("crates/*/specs/*.antt"):
        turn(path, turned)
    for path in glob.glob("crates/*/proofs/**/*.antt", recursive=True) + glob.glob("crates/*/src/*.rt"):
        turn(path, proofs)
    for path in glob.glob("crates/*/must-fail/*.edit"):
        turn(path, turned, plain)
    for path in ["README.md", "docs/PROMISES.md", "docs/DECISIONS.md"]:
        turn(path, proofs, plain)
    print("respell_names: %d names" % len(turned))


main()
