#!/usr/bin/env python3
"""Measures `knf solve` beside minisat and cadical, those that are installed, in one run: random clauses of three literals with both
answers, pigeons and grids as clauses, with counters and as klauses, blocks, and files that are large and easy. Each model is
evaluated, each proof is given to `knf check`, and two different answers end the script.

    solve.py [--small] [--limit SECONDS] [--forget N] [--only WORD]

A row is a file: the answer, seconds, conflicts (lines `l` of the proof), bytes of the proof and bytes a conflict, seconds of
checking it; then of each other solver seconds, conflicts, and the ratios of knf's to its. The klauses of a file are measured beside
the other solvers on its counters. The last table sums each family over the files that both answered. A run is stopped after
SECONDS of the processor, 60 where none are named and 5 with `--small`, which takes some two minutes in all; `--only` measures the
families with this word in their names."""

import argparse

import families
import solvers
from measure import temporary

RANDOM = {150: (1, 2, 3), 175: (1, 2, 3), 200: (1, 2), 225: (1, 3), 250: (2, 5, 7)}
SMALL_RANDOM = {50: (1, 2), 100: (2, 4), 150: (2, 6)}


def three_sat(given):
    """Random clauses at 4.26 a variable; the seeds are of both answers."""
    for variables, seeds in (SMALL_RANDOM if given.small else RANDOM).items():
        for seed in seeds:
            yield f"{variables} variables, {seed}", families.three_sat(variables, seed)


def pigeons(given):
    for birds in (5, 6, 7, 8) if given.small else range(5, 13):
        yield f"{birds} pigeons", families.pigeons(birds - 1)


def paired_pigeons(given):
    for name, formula in pigeons(given):
        yield name, families.pairs(formula)


def grids(given):
    for size in (6, 12, 18) if given.small else (6, 12, 18, 24, 30, 40):
        yield f"{size} rows and columns", families.grid(size)


def blocks(given):
    for count in (1, 20) if given.small else (1, 20, 200):
        yield f"{count} blocks", families.blocks(count)


def large(given):
    """Easy formulas of many variables."""
    n = 10_000 if given.small else 1_000_000
    yield f"chain of {n}", families.chain(n)
    yield f"chain of {n}, no model", families.chain(n, False)
    yield f"implications of {n}", families.implications(n)
    for variables in (n // 100, n // 10):
        yield f"planted, {variables} variables", families.planted(variables, 3.5)
    yield f"one clause of {n}", families.one_clause(n)


def mixed(given):
    """Small formulas with klauses and guards of every kind."""
    for variables, count in ((9, 12), (9, 36), (15, 20), (15, 60), (30, 60), (30, 100)):
        for seed in range(1, 3 if given.small else 5):
            yield f"{variables} variables, {count}, {seed}", families.mixed(variables, count, seed)


FAMILIES = {
    "random 3-SAT": three_sat,
    "pigeons as clauses": paired_pigeons,
    "pigeons": pigeons,
    "grids": grids,
    "blocks": blocks,
    "large": large,
    "random klauses": mixed,
}


class Row:
    """What was measured of one file."""

    def __init__(self, family, name, own, proof, others):
        self.family, self.name, self.own, self.proof, self.others = family, name, own, proof, others

    def show(self):
        own, proof = self.own, self.proof
        each = f"{proof.size / own.conflicts:.0f}" if own.conflicts else "-"
        checking = f"{proof.checking:.3f}" if proof.checking is not None else "-"
        cells = [f"{self.name:>36} {solvers.WORDS[own.answer]:>8} {own.seconds:>9.3f} {own.conflicts:>8} {proof.size:>11} {each:>7} {checking:>8}"]
        for run in self.others.values():
            seconds = f"{run.seconds:.3f}" if run.answer else "stopped"
            cells.append(f"{seconds:>9} {run.conflicts:>8} {ratio(own, run, 'seconds'):>7} {ratio(own, run, 'conflicts'):>7}")
        print(" |".join(cells), flush=True)


def ratio(own, run, field):
    """The ratio of knf's seconds or conflicts to those of another solver, where both answered."""
    mine, its = getattr(own, field), getattr(run, field)
    return f"{mine / its:.2f}" if own.answer in (10, 20) and run.answer and its > 0 else "-"


def measure(family, name, formula, given, folder):
    """The rows of a formula: one where it has clauses alone, else one as klauses and one with counters."""
    solvers.put("f.knf", families.text(formula), folder)
    files, cnf = [("", "f.knf", formula)], "f.knf"
    if not families.is_cnf(formula):
        cnf = "f.cnf"
        made = solvers.convert(formula, "f.knf", cnf, folder)
        files = [(" as klauses", "f.knf", formula), (" with counters", cnf, made)]
    others = {program: solvers.other(formula, program, cnf, folder, given.limit) for program in given.others}
    for form, file, spelled in files:
        own, proof = solvers.own(spelled, file, folder, given.limit, given.options)
        solvers.agree(name, [own, *others.values()])
        yield Row(family + form, name + form, own, proof, others)
    solvers.take_away({"f.knf", cnf}, folder)


def heading(given):
    cells = [f"{'file':>36} {'answer':>8} {'seconds':>9} {'conflicts':>8} {'proof bytes':>11} {'each':>7} {'check s':>8}"]
    cells += [f"{program:>9} {'conflicts':>8} {'time':>7} {'confl.':>7}" for program in given.others]
    print(" |".join(cells))


def totals(rows, given):
    """For each family and other solver the seconds and conflicts of the files that both answered."""
    print(f"\n{'answered by both':>36} {'files':>6} {'knf s':>9} {'its s':>9} {'ratio':>7} {'conflicts':>10} {'its':>10} {'ratio':>7}")
    for family in dict.fromkeys(row.family for row in rows):
        for program in given.others:
            both = [(r.own, r.others[program]) for r in rows if r.family == family and r.own.answer and r.others[program].answer]
            if both:
                cells = "".join(sums(both, field, form) for field, form in (("seconds", "9.3f"), ("conflicts", "10")))
                print(f"{family + ', ' + program:>36} {len(both):>6}{cells}")


def sums(both, field, form):
    mine, its = (sum(getattr(pair[side], field) for pair in both) for side in (0, 1))
    return f" {mine:{form}} {its:{form}} {mine / its if its else 0:>7.2f}"


def arguments():
    words = argparse.ArgumentParser(description=__doc__, formatter_class=argparse.RawDescriptionHelpFormatter)
    words.add_argument("--small", action="store_true")
    words.add_argument("--limit", type=float)
    words.add_argument("--forget", type=int)
    words.add_argument("--only", default="")
    given = words.parse_args()
    given.limit = given.limit or (5.0 if given.small else 60.0)
    given.options = ["--forget", str(given.forget)] if given.forget is not None else []
    given.others = solvers.installed(("minisat", "cadical"))
    return given


def main():
    given, rows = arguments(), []
    heading(given)
    with temporary() as folder:
        for family, make in FAMILIES.items():
            if given.only not in family:
                continue
            for name, formula in make(given):
                for row in measure(family, name, formula, given, folder):
                    row.show()
                    rows.append(row)
    totals(rows, given)


if __name__ == "__main__":
    main()
