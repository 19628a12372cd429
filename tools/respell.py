#!/usr/bin/env python3
"""Brings this repository's own names to snake case: definitions, fields of records, lemmas and local names.

usage, at the top of the repository: python3 tools/respell.py

tools/respelled.tsv has each old name and its new one. Names are replaced where they stand whole in .antt and .rt
files, in edits, and between backquotes in README.md and docs/. Names of functions, types and variants, texts and data
keep their spelling: none of them is in the table. It was run once; a second run changes nothing.
"""
import os
import re

HERE = os.path.dirname(os.path.abspath(__file__))
NAMES = dict(line.rstrip("\n").split("\t") for line in open(os.path.join(HERE, "respelled.tsv"), encoding="utf-8"))
# what a name of antt may be made of, dashes included
WORD = re.compile(r"[A-Za-z0-9_'₀-₉ℕℤ-]+")


def respelled(text):
    return WORD.sub(lambda m: NAMES.get(m.group(), m.group()), text)


def quoted(text):
    return re.sub(r"`[^`\n]*`", lambda m: respelled(m.group()), text)


def turn(path, change):
    with open(path, encoding="utf-8", newline="") as f:
        old = f.read()
    new = change(old)
    if new != old:
        with open(path, "w", encoding="utf-8", newline="") as f:
            f.write(new)


def main():
    for folder, dirs, files in os.walk("crates"):
        dirs[:] = sorted(d for d in dirs if d != "out")
        for name in sorted(files):
            if name.endswith((".antt", ".rt", ".edit")):
                turn(os.path.join(folder, name), respelled)
    for page in ["README.md"] + sorted(os.path.join("docs", p) for p in os.listdir("docs")):
        if page.endswith(".md"):
            turn(page, quoted)


if __name__ == "__main__":
    main()
