#!/usr/bin/env python3
"""A square with row and column sums, written in clauses alone: each sum is hidden in a sequential counter (Sinz, 2005), as
encoders of other tools write it. The first variables are the squares, row by row; the others belong to the counters."""

import os
import sys

sys.path.insert(0, os.path.join(os.path.dirname(os.path.abspath(__file__)), ".."))
from answer import run  # noqa: E402


def sums(rows, word):
    return next([int(w) for w in row[1:]] for row in rows if row[0] == word)


def variable(rows, row, column):
    return row * len(sums(rows, "columns")) + column + 1


def counter(first, most, lits):
    """Clauses for "at most so many of these", whose further variables begin behind `first`, and how many these are."""
    if most >= len(lits):
        return [], 0
    if most == 0:
        return [[-lit] for lit in lits], 0

    def held(i, j):
        return first + (i - 1) * most + j

    clauses = []
    for i, lit in enumerate(lits, 1):
        if i < len(lits):
            clauses.append([-lit, held(i, 1)])
        for j in range(1, most + 1):
            if 1 < i < len(lits):
                clauses.append([-held(i - 1, j), held(i, j)])
                if j > 1:
                    clauses.append([-lit, -held(i - 1, j - 1), held(i, j)])
        if i > 1:
            clauses.append([-lit, -held(i - 1, most)])
    return clauses, (len(lits) - 1) * most


def write(rows):
    across, down = sums(rows, "rows"), sums(rows, "columns")
    lines = [([variable(rows, r, c) for c in range(len(down))], across[r]) for r in range(len(across))]
    lines += [([variable(rows, r, c) for r in range(len(across))], down[c]) for c in range(len(down))]
    last, found = len(across) * len(down), []
    for lits, count in lines:
        for chosen, most in ((lits, count), ([-lit for lit in lits], len(lits) - count)):
            clauses, more = counter(last, most, chosen)
            found += clauses
            last += more
    head = f"p cnf {last} {len(found)}\n"
    return head + "".join(" ".join(map(str, c)) + " 0\n" for c in found)


def tell(rows, model):
    if model is None:
        return ["there is no such square"]
    across, down = sums(rows, "rows"), sums(rows, "columns")
    return [" ".join("x" if variable(rows, r, c) in model else "." for c in range(len(down))) for r in range(len(across))]


if __name__ == "__main__":
    run(write, tell)
