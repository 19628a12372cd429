#!/usr/bin/env python3
"""Writes what crates/report_cases should write, apart from it, from docs/RULES.md alone.

    python3 tools/expected_reports.py > crates/report_cases/stdout
"""


def lines(answers, boards):
    out = [f"{i} {a} {k}\n" for i, (a, k) in enumerate(answers, 1)]
    offset = sum(map(len, out))
    out += [f"B {b} {s} {r}\n" for b, s, r in boards]
    return out + [f"END {len(answers)} {offset}\n"]


def write(report, size, turns, boards):
    """The memory, and what the writer answers. It writes whole lines while they fit."""
    memory = ""
    for i, line in enumerate(report):
        last = i == len(report) - 1
        if not last and (i >= 4096 if i < turns else i - turns >= 19):
            return memory.ljust(size, "#"), "refused 27"
        if len(memory) + len(line) > size:
            return memory.ljust(size, "#"), "refused 26"
        memory += line
    return memory.ljust(size, "#"), f"length {len(memory)}"


def tell(size, report, turns, boards):
    memory, answer = write(report, size, turns, boards)
    print(f"memory {size}: {answer}\n{memory}")


SAVE = [(0, 0), (0, 0), (0, 1), (0, 0), (0, 2), (0, 3), (0, 5), (0, 0), (3, 0)]
tell(110, lines(SAVE, [(0, 3, "1 5 00000009"), (1, 0, "0 0 00000009")]), 9, 2)
for size in range(50):
    tell(size, lines([(12, 0)], [(0, 2, "10 7fc00000 bf800000")]), 1, 1)
for turns, boards, size in [(4096, 19, 48000), (4097, 19, 48000), (4096, 20, 48000), (4097, 0, 39853), (4096, 0, 39853), (4096, 0, 39867), (4096, 0, 39868)]:
    report = lines([(52, 9)] * turns, [(b, 3, "4294967295 4294967295 ffffffff") for b in range(boards)])
    print(f"{turns} turns, {boards} boards, memory {size}: {write(report, size, turns, boards)[1]}")
