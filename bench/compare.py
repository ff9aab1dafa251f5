#!/usr/bin/env python3
"""`knf` beside other solvers that are installed (cadical, minisat, clasp, cryptominisat5), on growing formulas of a few
families, in one run. Each answer is checked: models are evaluated, and proofs of `knf` are given to `knf check`. The others
get the clauses that `knf convert` writes. Seconds are those of the processor. It prints a table, and writes plots where a
folder is named.

    compare.py [--limit SECONDS] [--small] [--plots FOLDER]"""

import argparse
import os

import families
import plot
import solvers
from measure import temporary

FAMILIES = {
    "random 3-SAT": (families.three_sat, [50, 75, 100, 125, 150, 175, 200]),
    "pigeons": (families.pigeons, [4, 5, 6, 7, 8, 9]),
    "grids": (families.grid, [6, 9, 12, 18, 24, 30]),
    "blocks": (families.blocks, [1, 20, 40, 100, 200]),
}
SMALL = {"random 3-SAT": [20, 30, 40], "pigeons": [3, 4, 5], "grids": [3, 6], "blocks": [1, 5, 20]}


def measure(formula, folder, limit):
    """What each solver did with a formula: its name, answer, seconds, and seconds of checking."""
    solvers.put("f.knf", families.text(formula), folder)
    made = solvers.convert(formula, "f.knf", "f.cnf", folder)
    rows = [own(formula, "knf, klauses", "f.knf", folder, limit), own(made, "knf, clauses", "f.cnf", folder, limit)]
    for program in solvers.installed():
        run = solvers.other(formula, program, "f.cnf", folder, limit)
        rows.append((program, run.answer, run.seconds, None))
    if len({answer for _, answer, _, _ in rows if answer}) > 1:
        raise SystemExit("two solvers gave different answers")
    return rows


def own(formula, name, file, folder, limit):
    run, proof = solvers.own(formula, file, folder, limit)
    return name, run.answer or None, run.seconds, proof.checking


def cactus(results):
    """For each solver how many formulas it solved within which time."""
    series = {}
    for _, _, rows in results:
        for name, status, seconds, _ in rows:
            if status:
                series.setdefault(name, []).append(seconds)
    return [(name, [(at, s) for at, s in enumerate(sorted(some), 1)]) for name, some in series.items()]


def growth(results, family):
    """The seconds of each solver by the size of a family's formulas."""
    series = {}
    for name_of, size, rows in results:
        if name_of == family:
            for name, status, seconds, _ in rows:
                if status:
                    series.setdefault(name, []).append((size, seconds))
    return list(series.items())


def show(family, size, rows):
    cells = []
    for name, status, seconds, checking in rows:
        answer = {10: "a model", 20: "none"}.get(status, "stopped")
        cells.append(f"{name}: {answer} {seconds:.3f} s" + (f" (checked in {checking:.3f} s)" if checking is not None else ""))
    print(f"{family} {size}: " + "; ".join(cells), flush=True)


def main():
    words = argparse.ArgumentParser(description=__doc__)
    words.add_argument("--limit", type=float, default=10.0)
    words.add_argument("--small", action="store_true")
    words.add_argument("--plots")
    given = words.parse_args()
    results = []
    with temporary() as folder:
        for family, (make, sizes) in FAMILIES.items():
            for size in SMALL[family] if given.small else sizes:
                results.append((family, size, measure(make(size), folder, given.limit)))
                show(*results[-1])
    if given.plots:
        write(given.plots, results)


def write(folder, results):
    plots = {"cactus.svg": ("Formulas solved", "formulas", "seconds", cactus(results))}
    for family in FAMILIES:
        plots[f"growth-{family.replace(' ', '-').lower()}.svg"] = (family, "size", "seconds", growth(results, family))
    for name, (title, across, up, series) in plots.items():
        with open(os.path.join(folder, name), "w", encoding="utf-8") as file:
            file.write(plot.lines(title, across, up, series))


if __name__ == "__main__":
    main()
