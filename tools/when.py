#!/usr/bin/env python3
"""Gives the choice by a test of crates/theory a name of its own: `when b then x else y` for `if b then x else y`.

usage: tools/when.py FOLDER

The library has an operator `if◌then◌else◌`, which computes wherever it stands; the one of theory opens only where a proof says so, and
the gate lets no definition have the library's name. Below FOLDER/crates it turns in specs/ and proofs/, in clauses and in edits.
"""

import os
import re
import sys

NAME = re.compile(r"if◌then◌else◌")
WORD = re.compile(r"(?<![\w.'◌-])if(?![\w'◌-])")
CLAUSE = re.compile(r"(?<![\w.'◌-])if(?=\s[^{};]*(?<![\w-])then(?![\w-]))")


def code(line):
    """Where the comment of a line of antt begins."""
    m = re.search(r"(?<![^\s(){},])--(?=\s|-|$)", line)
    return m.start() if m else len(line)


def antt(text):
    out = []
    for line in text.split("\n"):
        at = code(line)
        out.append(WORD.sub("when", line[:at]) + line[at:])
    return "\n".join(out)


def edit(text):
    return "\n".join(CLAUSE.sub("when", l) if l.startswith(("old:", "new:")) else l for l in text.split("\n"))


def main(arguments):
    for at, folders, files in os.walk(os.path.join(arguments[0], "crates")):
        folders[:] = sorted(f for f in folders if f != "out")
        for f in sorted(files):
            path = os.path.join(at, f)
            if not f.endswith((".antt", ".rt", ".edit")):
                continue
            with open(path, encoding="utf-8") as it:
                text = it.read()
            new = NAME.sub("when◌then◌else◌", text)
            new = antt(new) if f.endswith(".antt") else edit(new) if f.endswith(".edit") else CLAUSE.sub("when", new)
            if new != text:
                with open(path, "w", encoding="utf-8") as it:
                    it.write(new)


if __name__ == "__main__":
    main(sys.argv[1:])
