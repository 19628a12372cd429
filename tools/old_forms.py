#!/usr/bin/env python3
"""Lists the lines of crates/*/src that may still have an older form, by the points of docs/DESIGN-PASS.md.

    tools/old_forms.py [-q] [TREE]

With -q only the counts. A line that is listed is not yet a place: the page says which lines are.
"""
import pathlib
import re
import sys

POINTS = [
    (1, "own enums, flags beside a value, numbers for kinds or refusals",
     r"^\s*(pub )?enum \w"
     r"|fn (number|kind|answer_number|answer_kind)\("
     r"|Result<[^=]*, u(8|32)>"
     r"|\(&'static str, u(32|size)\)"
     r"|_stand\b.*\(\)"
     r"|^\s*(pub )?\w+: bool,"
     r"|\{ (\w+: \w+, )?\w+: bool \}"
     r"|-> bool$"
     r"|(willing|answer|kind): u32"),
    (2, "twins",
     r"fn (one|two|three)_fields|(one|two|three)_fields\(bytes\)|fields\(\w+\)\?"
     r"|fn try_\w+"
     r"|fn (keep|discard|put|standing|pending|spare)_in"
     r"|fn (keep|discard)\(&mut self"
     r"|fn (prepare|hold)\b"
     r"|rotate_left"
     r"|WEAR|fn put_wear|ghost wear"
     r"|fn (decimal|bits|sent|heard|slots|journal|done|stands|is_pending)\("),
    (3, "loops",
     r"^\s*('\w+: )?(while|loop|for)\b"
     r"|\+= 1;"),
    (4, "equality, order, copying, conversion and printing",
     r"fn (first|default|of_bits|part_of|store_of|part_name|shown|done|stands|is_pending|taken|from|try_from|fmt)\("
     r"|fn (worked|sent|heard|harness|feed)\(line"
     r"|fn (refusal_line|summary_line)\("
     r"|#\[derive\(Clone, Copy\)\]"
     r"|#\[derive\(Drop\)\]"),
    (5, "parameters that travel together, facts repeated in contracts",
     r"used: usize"
     r"|≤ 30 }"),
    (6, "buffers with a length beside, parallel arrays, indices",
     r"\[u8; \d+\]"
     r"|\b(len|used|back): usize"
     r"|let mut len\b"
     r"|taken: bool"),
    (7, "steps chosen by a value, tables of functions",
     r"\bfn\(|\bdyn\b|Box<|impl Fn"
     r"|\w+: EntryKind\b"),
]


def lines_of(tree):
    for path in sorted(tree.glob("crates/*/src/**/*.rt")):
        tests = False
        for number, line in enumerate(path.read_text().splitlines(), 1):
            tests = tests or "#[cfg(test)]" in line
            if not tests and not line.lstrip().startswith("//"):
                yield path.relative_to(tree), number, line


def main():
    args = [a for a in sys.argv[1:] if a != "-q"]
    tree = pathlib.Path(args[0]) if args else pathlib.Path(".")
    every = list(lines_of(tree))
    for point, name, pattern in POINTS:
        found = [x for x in every if re.search(pattern, x[2])]
        print(f"{point} {name}: {len(found)} lines")
        if "-q" not in sys.argv:
            for path, number, line in found:
                print(f"    {path}:{number}: {line.strip()}")
    proofs = [p for p in tree.glob("crates/*/proofs/**/*.antt")]
    print(f"8 proofs: {len(proofs)} files, {sum(len(p.read_text().splitlines()) for p in proofs)} lines")


main()
