#!/usr/bin/env python3
"""Queens on a board with holes (`o`) on which no queen stands: just one in each row and each column, at most one on each
diagonal. The variable of a square is true where a queen stands there."""

import os
import sys

sys.path.insert(0, os.path.join(os.path.dirname(os.path.abspath(__file__)), ".."))
from answer import run  # noqa: E402
from knftext import at_most, clause, exactly, text  # noqa: E402


def squares(rows):
    return [(row, column) for row in range(len(rows)) for column in range(len(rows[0][0]))]


def variable(rows, square):
    return square[0] * len(rows[0][0]) + square[1] + 1


def lines(rows, key):
    """The variables of the squares, by a number of the line on which they lie."""
    found = {}
    for square in squares(rows):
        found.setdefault(key(square), []).append(variable(rows, square))
    return [found[at] for at in sorted(found)]


def write(rows):
    found = []
    for line in lines(rows, lambda s: s[0]) + lines(rows, lambda s: s[1]):
        found += exactly(1, line)
    for line in lines(rows, lambda s: s[0] + s[1]) + lines(rows, lambda s: s[0] - s[1]):
        if len(line) > 1:
            found.append(at_most(1, line))
    found += [clause([-variable(rows, s)]) for s in squares(rows) if rows[s[0]][0][s[1]] == "o"]
    return text(len(squares(rows)), found)


def tell(rows, model):
    if model is None:
        return ["the queens have no place"]
    return ["".join("Q" if variable(rows, (r, c)) in model else rows[r][0][c] for c in range(len(rows[0][0]))) for r in range(len(rows))]


if __name__ == "__main__":
    run(write, tell)
