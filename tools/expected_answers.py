#!/usr/bin/env python3
"""Answers a table of run files as crates/runfile_cases does, written apart from it, from
docs/RULES.md alone: its output is the table's expected output.

    python3 tools/expected_answers.py < crates/runfile_cases/stdin > crates/runfile_cases/stdout
"""
import re
import sys

NUMBER = r"(0|[1-9][0-9]*)"
FIELDS = {"W": 2, "S": 3, "D": 2, "C": 1, "R": 1, "X": 1, "U": 1, "N": 2}


def small(texts):
    return all(len(t) <= 10 and int(t) < 2**32 for t in texts)


def loom(line):
    m = re.fullmatch(rf"LOOM {NUMBER} ([SJ]) {NUMBER} ([HF])", line)
    if not m or not small((m[1], m[3])):
        return None
    n, e = int(m[1]), int(m[3])
    if not 1 <= n <= 19:
        return None
    if m[2] == "S":
        if e != 0:
            return None
        store = "slot store"
    else:
        if not n <= e <= 1024:
            return None
        store = f"journal of {e} places"
    return f"{n} boards, {store}, {'harness' if m[4] == 'H' else 'feed'} records, "


def is_turn(line):
    if not line or line[0] not in FIELDS:
        return False
    m = re.fullmatch(rf"[A-Z](?: {NUMBER})" + "{%d}" % FIELDS[line[0]], line)
    return bool(m) and small(line.split(" ")[1:])


def answer(data):
    if len(data) > 32768:
        return "REFUSED 20 0"
    parts = data.decode("latin-1").split("\n")
    lines, tail = parts[:-1], parts[-1]
    first = loom(lines[0]) if lines else None
    if first is None:
        return "REFUSED 21 1"
    for i, line in enumerate(lines[1:] + ([tail] if tail else []), 2):
        if i > 4097:
            return f"REFUSED 23 {i}"
        ended = i <= len(lines)
        if not ended or not is_turn(line):
            return f"REFUSED 22 {i}"
    return f"{first}{len(lines) - 1} turns"


def file_of(row):
    if row.startswith("@"):
        with open("examples/" + row[1:], "rb") as f:
            return f.read()
    out = ""
    for piece in row.split(";"):
        times, text = piece.split("*", 1) if "*" in piece else ("1", piece)
        out += int(times) * text
    return out.replace("|", "\n").replace("~", "\r").replace("^", "\t").encode("latin-1")


for row in sys.stdin.read().split("\n")[:-1]:
    print(answer(file_of(row)))
