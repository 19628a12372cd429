#!/usr/bin/env python3
"""Answers the commands of crates/store_cases as it does, written apart from it, from docs/RULES.md alone.

    python3 tools/expected_stores.py < crates/store_cases/stdin > crates/store_cases/stdout
"""
import sys

boards = None
journal = None  # places and used entries of a journal


def spare():
    if journal is None:
        return 1
    places, used = journal
    return (places - used - sum(b[1] is not None for b in boards)) // 2


def use_place():
    if journal is not None:
        journal[1] += 1


for line in sys.stdin.read().split("\n")[:-1]:
    word, *numbers = line.split(" ")
    numbers = [int(n) for n in numbers]
    if word in ("slots", "journal"):
        places, n = numbers
        boards = None
        if not 1 <= n <= 64:
            print(f"{line}: refused 34")
        elif places < 2 * n if word == "slots" else not n <= places <= 1024:
            print(f"{line}: refused 35")
        else:
            journal = [places, n] if word == "journal" else None
            boards = [[0, None] for _ in range(n)]
            print(f"{line}: made {n}")
        continue
    if boards is None:
        continue
    if word == "spare":
        print(f"{line}: spare {spare()}")
        continue
    if numbers[0] >= len(boards):
        print(f"{line}: refused 31")
        continue
    board = boards[numbers[0]]
    if word == "standing":
        print(f"{line}: stands {board[0]}")
    elif word == "pending":
        print(f"{line}: pending {int(board[1] is not None)}")
    elif word == "put":
        if board[1] is not None:
            print(f"{line}: refused 32")
        elif spare() == 0:
            print(f"{line}: refused 33")
        else:
            board[1] = numbers[1]
            use_place()
            print(f"{line}: taken 0")
    else:
        if board[1] is None:
            print(f"{line}: refused 32")
        else:
            if word == "keep":
                board[0] = board[1]
            board[1] = None
            use_place()
            print(f"{line}: taken 0")
