#!/usr/bin/env python3
"""Pigeons in holes: each sits in some hole, and no hole takes two. The variable of a pigeon and a hole is true where that
pigeon sits there."""

import os
import sys

sys.path.insert(0, os.path.join(os.path.dirname(os.path.abspath(__file__)), ".."))
from answer import run  # noqa: E402
from knftext import at_most, clause, text  # noqa: E402


def counts(rows):
    said = {row[0]: int(row[1]) for row in rows}
    return said["pigeons"], said["holes"]


def variable(rows, pigeon, hole):
    return (pigeon - 1) * counts(rows)[1] + hole


def write(rows):
    pigeons, holes = counts(rows)
    found = [clause([variable(rows, p, h) for h in range(1, holes + 1)]) for p in range(1, pigeons + 1)]
    found += [at_most(1, [variable(rows, p, h) for p in range(1, pigeons + 1)]) for h in range(1, holes + 1)]
    return text(pigeons * holes, found)


def tell(rows, model):
    if model is None:
        return ["they do not fit"]
    pigeons, holes = counts(rows)
    return [f"pigeon {p}: hole {h}" for p in range(1, pigeons + 1) for h in range(1, holes + 1) if variable(rows, p, h) in model]


if __name__ == "__main__":
    run(write, tell)
