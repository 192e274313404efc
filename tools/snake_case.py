#!/usr/bin/env python3
"""Spells definitions, laws and variables of specs/, proofs/ and clauses in snake case, as the language's library does.

usage: tools/snake_case.py [--check] FOLDER

Below FOLDER/crates each word in camel case that begins with a small letter turns, whole or as a part of a name between dashes: bytesAt
to bytes_at, length-bytesAt to length-bytes_at. So do these names in FOLDER/docs and in README.md. --check writes nothing and lists the
names that would fall together with one that is there already.
"""

import collections
import os
import re
import sys

CAMEL = re.compile(r"(?<![A-Za-z0-9_'])[a-z][a-z0-9]*(?:[A-Z][A-Za-z0-9]*)+(?![A-Za-z0-9_])")
WORD = re.compile(r"(?<![A-Za-z0-9_'])[A-Za-z_][A-Za-z0-9_']*")
# the library's name in the names of laws
LIBRARY = {"getD": "get_or"}
# texts of programs stay as they are
QUOTED = re.compile(r'b?"(?:[^"\\\n]|\\.)*"')
# laws that a definition would meet: they keep the dash that they had
LAWS = "count_fits first_count held_bytes in_use is_member marked_refused no_member not_written numbers_of offset_at read_back refused_as result_fits round_trip row_count same_end".split()
LAW = re.compile(r"(?<![\w.'-])(?:" + "|".join(LAWS) + r")(?![\w.'-])")


def snake(name):
    return LIBRARY.get(name) or re.sub(r"[A-Z]", lambda m: "_" + m[0].lower(), name)


def turned(text, names, kept):
    if kept is None:
        return CAMEL.sub(lambda m: snake(m[0]) if m[0] in names else m[0], text)
    out, at = [], 0
    for m in kept.finditer(text):
        out += [turned(text[at : m.start()], names, None), m[0]]
        at = m.end()
    return "".join(out) + turned(text[at:], names, None)


def below(folder, endings):
    for at, folders, files in os.walk(folder):
        folders[:] = sorted(f for f in folders if f not in ("out", "target", ".git"))
        for f in sorted(files):
            if f.endswith(endings):
                yield os.path.join(at, f)


def main(arguments):
    check = "--check" in arguments
    top = [a for a in arguments if a != "--check"][0]
    crates = list(below(os.path.join(top, "crates"), (".rt", ".antt")))
    there, names = collections.defaultdict(set), set()
    for path in crates:
        with open(path, encoding="utf-8") as f:
            text = f.read()
        names |= set(CAMEL.findall(text))
        for w in WORD.findall(text):
            there[w].add(path)
    if check:
        for n in sorted(names):
            if snake(n) in there:
                print(n, snake(n), len(there[snake(n)]), sorted(there[snake(n)])[:3])
        return 0
    pages = [p for p in below(os.path.join(top, "docs"), (".md",))] + [os.path.join(top, "README.md")]
    for path in crates + pages:
        with open(path, encoding="utf-8") as f:
            text = f.read()
        if path.endswith(".antt") and os.sep + "proofs" + os.sep in path:
            text = "\n".join(l if l.lstrip().startswith("--") else LAW.sub(lambda m: m[0].replace("_", "-"), l) for l in text.split("\n"))
        new = turned(text, names, QUOTED if path.endswith(".rt") else None)
        with open(path, encoding="utf-8") as f:
            old = f.read()
        if new != old:
            with open(path, "w", encoding="utf-8") as f:
                f.write(new)
    return 0


if __name__ == "__main__":
    raise SystemExit(main(sys.argv[1:]))
