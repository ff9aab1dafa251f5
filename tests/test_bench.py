"""The formulas of `bench/`: their clauses, made there apart from the program, are those that `convert` writes."""

import os
import sys

from knfcheck import TOP, Folder, run

sys.path.insert(0, os.path.join(TOP, "bench"))

import counters  # noqa: E402
import families  # noqa: E402

SIZES = {1: (57, 105), 20: (1469, 2730), 40: (2959, 5500), 200: (14879, 27660)}
CASES = {
    "pigeons": families.pigeons(3),
    "a grid": families.grid(6),
    "blocks": families.blocks(4),
    "counts": families.counts(7, 3, 2),
    "klauses and guards": families.mixed(15, 60),
}


def tests(tally):
    for count, (variables, clauses) in SIZES.items():
        made = counters.counted(families.blocks(count))
        tally.test(f"{count} blocks in clauses", (made[0], len(made[1])) == (variables, clauses))
    for name, formula in CASES.items():
        with Folder() as folder:
            folder.write("f", b"".join(families.text(formula)).decode())
            want = b"".join(families.text(counters.counted(formula))).decode()
            tally.test(f"the clauses of {name}", run(["convert", "f"], folder.path) == (0, want))
