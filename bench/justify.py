#!/usr/bin/env python3
"""Measures what it takes to justify klauses: `knf solve --conflicts 0` over counters of 12 to 128 literals and over "at most one" by
pairs of 10 to 256. With this budget nothing is learned, so that the proof is its opening: definitions, lemmas, the klauses, and the
deletion of the clauses that they stand for.

    justify.py [--small] [--limit SECONDS] [--only WORD]

It prints the clauses and klauses of a file, lines and bytes of the opening with their ratio to the clauses, seconds to write it and
lines and bytes a second, and the seconds of `knf check` over it with their ratio to writing."""

import argparse
import os
import sys

import counters
import families
import solvers
from measure import PROGRAM, spend, startup, temporary


def bounds(literals):
    """Some of the bounds that a counter with at most 256 further variables may have, which is half of the literals at most."""
    most = min(literals // 2, 256 // (literals - 1))
    return sorted({2, min(3, most), (2 + most) // 2, most})


def counts(given):
    for n in (12, 20) if given.small else (12, 16, 20, 24, 32, 50, 64, 86, 128):
        for most in bounds(n):
            yield f"at most {most} of {n}", counters.counted(families.counts(n, most, 1)), 1


def many(given):
    """Many counters in one file: seconds should grow as their number."""
    for copies in (1, 10) if given.small else (1, 10, 100, 400):
        yield f"at most 3 of 12, {copies} times", counters.counted(families.counts(12, 3, copies)), copies


def at_most_one(given):
    for n in (10, 30) if given.small else (10, 30, 100, 256):
        yield f"one of {n}, by pairs", families.pairs(families.at_most_one(n)), 1


FAMILIES = {"counters": counts, "many counters": many, "pairs": at_most_one}


def kinds(path):
    """How many lines of each kind a proof has."""
    found = {}
    with open(path, "rb") as file:
        for line in file:
            found[line[:1]] = found.get(line[:1], 0) + 1
    return found


def measure(name, formula, hidden, base, given, folder):
    """A row of the table."""
    solvers.put("f.cnf", families.text(formula), folder)
    status, said, seconds, peak = spend([PROGRAM, "solve", "f.cnf", "proof.kpf", "--conflicts", "0"], folder, given.limit)
    clauses = len(formula[1])
    if status in solvers.STOPPED:
        print(f"{name:>28} {clauses:>8} {'stopped':>7}", flush=True)
        return
    answer, path = solvers.answer_of(said), os.path.join(folder, "proof.kpf")
    if answer not in (0, 10):
        solvers.fail(name, f"status {status}, {said[:100]!r}")
    found, size = kinds(path), os.path.getsize(path)
    if found.get(b"k", 0) > hidden:
        solvers.fail(name, f"{found[b'k']} klauses where {hidden} are hidden")
    lines, net = sum(found.values()) - 1, max(seconds - base, 1e-6)
    print(f"{name:>28} {clauses:>8} {found.get(b'k', 0):>7} {lines:>9} {lines / clauses:>7.1f} {size:>11} {seconds:>9.3f} {lines / net / 1e6:>7.2f}"
          f" {size / net / 1e6:>7.1f} {peak / 1e6:>8.1f} {checked(answer, size, net, base, given, folder)}", flush=True)


def checked(answer, size, writing, base, given, folder):
    """The seconds of checking, and their ratio to those of writing."""
    if size > solvers.LONGEST:
        return f"{'too long':>9}"
    seconds = solvers.check("f.cnf", answer, folder, given.limit)
    return f"{'stopped':>9}" if seconds is None else f"{seconds:>9.3f} {max(seconds - base, 0) / writing:>7.2f}"


def justifies(folder):
    """Ends the script where `solve` takes no klause into its proof."""
    solvers.put("f.cnf", families.text(counters.counted(families.counts(12, 2, 1))), folder)
    spend([PROGRAM, "solve", "f.cnf", "proof.kpf", "--conflicts", "0"], folder)
    if b"k" not in kinds(os.path.join(folder, "proof.kpf")):
        sys.exit("`solve` of this program justifies no klause")


def arguments():
    words = argparse.ArgumentParser(description=__doc__, formatter_class=argparse.RawDescriptionHelpFormatter)
    words.add_argument("--small", action="store_true")
    words.add_argument("--limit", type=float, default=60.0)
    words.add_argument("--only", default="")
    return words.parse_args()


def main():
    given = arguments()
    with temporary() as folder:
        justifies(folder)
        base = startup(folder)
        for family, cases in FAMILIES.items():
            if given.only in family:
                print(f"\n{family} (start-up {base * 1000:.1f} ms)")
                print(f"{'file':>28} {'clauses':>8} {'klauses':>7} {'lines':>9} {'each':>7} {'bytes':>11} {'seconds':>9} {'Mline/s':>7}"
                      f" {'MB/s':>7} {'peak MB':>8} {'check s':>9} {'ratio':>7}")
                for name, formula, hidden in cases(given):
                    measure(name, formula, hidden, base, given, folder)


if __name__ == "__main__":
    main()
