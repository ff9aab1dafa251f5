#!/usr/bin/env python3
"""Measures `knf work N` for 1, 20, 40, 100 and 200 blocks: seconds, peak memory, learned clauses and bytes of the proof; then the seconds
of `knf check` over it, on the generated formula's clauses, and those of cadical on them, where that is installed. The clauses
are written here, from the same description and apart from the program.

    work.py [--small] [--limit SECONDS]"""

import argparse
import os

import counters
import families
import solvers
from measure import PROGRAM, asks, spend, temporary

SIZES = (1, 20, 40, 100, 200)


def summary(count, made, answer):
    """What is printed of so many blocks, whose clauses are given."""
    said = b"c blocks %d\nc variables %d\nc clauses %d\nc klauses %d\n" % (count, made[0], len(made[1]), 2 * count)
    return said + (b"c proof verified\ns UNSATISFIABLE\n" if answer == 20 else b"s UNKNOWN\n")


def checked(answer, folder, limit):
    """Words on the seconds of checking the proof that was written."""
    path = os.path.join(folder, "work.kpf")
    if os.path.getsize(path) > solvers.LONGEST:
        return "too long"
    os.rename(path, os.path.join(folder, "proof.kpf"))
    seconds = solvers.check("f.cnf", answer, folder, limit)
    return "stopped" if seconds is None else f"{seconds:.3f}"


def row(count, given, folder):
    name, made = f"{count} blocks", counters.counted(families.blocks(count))
    solvers.put("f.cnf", families.text(made), folder)
    status, said, seconds, peak = spend([PROGRAM, "work", str(count)], folder, given.limit)
    if status in solvers.STOPPED:
        print(f"{count:>7} {'stopped':>9}", flush=True)
        return
    answer = solvers.answer_of(said)
    if status not in (0, 20) or said != summary(count, made, answer):
        solvers.fail(name, f"status {status}, {said[:200]!r}")
    path = os.path.join(folder, "work.kpf")
    size, conflicts = os.path.getsize(path), solvers.learned(path)
    checking = checked(answer, folder, given.limit)
    print(f"{count:>7} {seconds:>9.3f} {peak / 1e6:>8.1f} {conflicts:>8} {size:>11} {checking:>9}"
          f" {beside(made, given, folder)}", flush=True)


def beside(made, given, folder):
    """The seconds of cadical on the clauses."""
    if not given.cadical:
        return ""
    run = solvers.other(made, "cadical", "f.cnf", folder, given.limit)
    return f"{run.seconds:>9.3f}" if run.answer else f"{'stopped':>9}"


def main():
    words = argparse.ArgumentParser(description=__doc__, formatter_class=argparse.RawDescriptionHelpFormatter)
    words.add_argument("--small", action="store_true")
    words.add_argument("--limit", type=float, default=60.0)
    given = words.parse_args()
    given.cadical = solvers.installed(("cadical",))
    with temporary() as folder:
        asks(["work", "1"], folder)
        print(f"{'blocks':>7} {'seconds':>9} {'peak MB':>8} {'learned':>8} {'proof bytes':>11} {'check s':>9}" + f" {'cadical':>9}" * bool(given.cadical))
        for count in SIZES[:2] if given.small else SIZES:
            row(count, given, folder)


if __name__ == "__main__":
    main()
