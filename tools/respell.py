#!/usr/bin/env python3
"""Brings the repository's own definitions and lemmas to snake case, once, after the kit's port.py.

Run at the top of the repository. A name that specs/ or proofs/ declares with a dash gets an
underscore there, wherever antt is written: in specs/, in proofs/, and in the clauses and imports
of src/. Names that the kit's library declares, names of goals, strings and code stay. It refuses
to run where two names would fall together.
"""
import collections
import glob
import re
import sys

WORD = r"[A-Za-z0-9_'ℕℤμ-]+"
MARKS = r"(?:abbrev |unfoldable |pub |pattern )*"
DECLARES = re.compile(r"\s*" + MARKS + r"(?:record |data )?(" + WORD + r")\s*(?::|\(|\{)")
# A line that only begins like a declaration: a call of one of the library's lemmas.
LIBRARY = {"cond-true", "cond-false"}
# The library's own name for the first part of these lemmas' names is another now.
PARTS = {"getD": "get_or"}


def antt_files():
    for part in ("specs", "proofs"):
        yield from sorted(glob.glob(f"crates/*/{part}/**/*.antt", recursive=True))


def snake(name):
    return "_".join(PARTS.get(part, part) for part in name.split("-"))


def declared():
    names = set()
    for path in antt_files():
        for line in open(path):
            found = DECLARES.match(line)
            if found and not re.search(r":\s*goal\.", line):
                names.add(found.group(1))
    return names - LIBRARY


def main():
    names = declared()
    own = {name: snake(name) for name in names if "-" in name}
    to = collections.Counter(own.values())
    clash = [n for n, m in own.items() if to[m] > 1 or m in names]
    if clash:
        sys.exit(f"names fall together: {sorted(clash)}")
    word = re.compile(r"(?<![A-Za-z0-9_'ℕℤμ·-])" + WORD)

    def respell(line):
        if re.match(r"\s*(ghost )?use (Rattle\.std|borrow|denote|logic|lib|native)\.", line):
            return line
        quoted = re.split(r'("(?:[^"\\]|\\.)*")', line)
        return "".join(
            text if i % 2 else word.sub(lambda m: own.get(m.group(0), m.group(0)), text)
            for i, text in enumerate(quoted)
        )

    for path in list(antt_files()) + sorted(glob.glob("crates/*/src/**/*.rt", recursive=True)):
        old = open(path).read()
        new = "".join(respell(line) for line in old.splitlines(keepends=True))
        if new != old:
            open(path, "w").write(new)
            print(path)
    for name in sorted(own):
        print(f"{name} -> {own[name]}")


if __name__ == "__main__":
    main()
