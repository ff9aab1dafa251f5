#!/usr/bin/env python3
"""Measures `knf extract`: blocks and counters whose counts are hidden in clauses, "at most one" by pairs, and files in which
nothing is hidden: a variable that is a neighbour of all others, a chain of implications, random clauses of three literals, and of two
and three. It prints how many of the hidden klauses were found, seconds, bytes a second, peak memory, the ratio to `knf convert` on
the same file, which reads and writes it, and the seconds of cadical on it, where that is installed.

    extract.py [--small] [--limit SECONDS] [--only WORD]

What is printed has to be an extraction as far as can be seen: the file's clauses in their order, some left out, and klauses that were
hidden; no constraint names a variable of a `c group` line."""

import argparse

import counters
import families
import solvers
from measure import PROGRAM, asks, spend, startup, temporary


class Case:
    """A file of clauses; the klauses that are hidden in it, none where they are not known; whether all have to be found."""

    def __init__(self, name, formula, hidden=None, whole=False):
        self.name, self.formula, self.hidden, self.whole = name, formula, hidden, whole


def klauses(formula):
    return [(guard, bound, sorted(lits, key=abs)) for guard, bound, lits in formula[1] if bound != 1]


def blocks(given):
    for count in (1, 20) if given.small else (1, 20, 200):
        formula = families.blocks(count)
        yield Case(f"{count} blocks of 8", counters.counted(formula), klauses(formula), True)


def counts(given):
    """Ten counters each: all bounds up to the first whose counter has more than 256 further variables, which is too many."""
    for n in (12, 16) if given.small else (12, 16, 20, 24, 32, 40, 50, 64, 86, 128):
        for most in range(2, n // 2 + 1):
            formula = families.counts(n, most, 10)
            yield Case(f"at most {most} of {n}", counters.counted(formula), klauses(formula))
            if (n - 1) * most > 256:
                break


def at_most_two(given):
    """One counter each, whose elimination joins more and more clauses."""
    for n in (16, 32) if given.small else (16, 32, 64, 96, 128):
        formula = families.counts(n, 2, 1)
        yield Case(f"one at most 2 of {n}", counters.counted(formula), klauses(formula), True)


def at_most_one(given):
    for n in (10, 100) if given.small else (10, 30, 100, 256, 257, 1_000):
        formula = families.at_most_one(n)
        known = n <= 256
        yield Case(f"one of {n}, by pairs", families.pairs(formula), klauses(formula) if known else None, known)


def plain(given):
    """Nothing is hidden here, but perhaps by chance where clauses of two literals are random."""
    part = 10 if given.small else 1
    yield Case(f"hub of {1_000_000 // part}", families.hub(1_000_000 // part), [], True)
    yield Case(f"chain of {100_000 // part}", families.implications(100_000 // part + 1), [], True)
    for n in (40_000 // part, 400_000 // part):
        yield Case(f"3-SAT, {5 * n // 2} clauses", families.three_sat(n, ratio=2.5), [], True)
        yield Case(f"{n // 2} of 2, {2 * n} of 3", families.twos_and_threes(n, n // 2, 2 * n))


FAMILIES = {"blocks": blocks, "counters": counts, "twos": at_most_two, "pairs": at_most_one, "plain": plain}


def extraction(text):
    """The variables of the `c group` lines, and the constraints of the formula behind them."""
    groups, lines = [], text.split(b"\n")
    while lines and lines[0].startswith(b"c group "):
        groups.append([int(word) for word in lines.pop(0).split()[2:]])
    return groups, lines[0], [constraint(line.split()) for line in lines[1:-1]]


def constraint(words):
    if words[0] == b"k":
        return None, int(words[1]), [int(word) for word in words[2:-1]]
    return None, 1, [int(word) for word in words[:-1]]


def fault(case, groups, header, found):
    """What is wrong with an extraction; nothing where no fault is seen."""
    variables, clauses = case.formula
    new = klauses((variables, found))
    listed = [variable for group in groups for variable in group]
    if header != b"p knf %d %d" % (variables, len(found)):
        return f"the header is {header!r}"
    if len(set(listed)) < len(listed) or not set(listed).isdisjoint(abs(lit) for _, _, lits in found for lit in lits):
        return "an auxiliary variable stands in two groups or in a constraint"
    if found[len(found) - len(new):] != new or not is_part(found[:len(found) - len(new)], clauses):
        return "the clauses are not those of the file, or klauses stand before them"
    if case.hidden is not None and not is_part(new, case.hidden):
        return "a klause is none of those that are hidden, or they are in another order"
    return "a hidden klause was not found" if case.whole and len(new) < len(case.hidden) else None


def is_part(some, whole):
    """Whether the one list is the other, some left out."""
    rest = iter(whole)
    return all(any(one == other for other in rest) for one in some)


def unchanged(formula):
    """The text of an extraction in which nothing was found."""
    yield b"p knf %d %d\n" % (formula[0], len(formula[1]))
    for found in formula[1]:
        yield families.line(found)


def found_in(case, said):
    """How many klauses were found, in words. Ends the script where a fault is seen."""
    if case.hidden == []:
        if said != b"".join(unchanged(case.formula)):
            solvers.fail(case.name, "nothing is hidden, and something was changed")
        return "0 of 0"
    groups, header, found = extraction(said)
    if wrong := fault(case, groups, header, found):
        solvers.fail(case.name, wrong)
    return f"{len(klauses((0, found)))} of {'?' if case.hidden is None else len(case.hidden)}"


def measure(case, base, given, folder):
    """A row of the table."""
    size = solvers.put("f.cnf", families.text(case.formula), folder)
    status, said, seconds, peak = spend([PROGRAM, "extract", "f.cnf"], folder, given.limit)
    if status not in (0, *solvers.STOPPED):
        solvers.fail(case.name, f"status {status}, {said[:100]!r}")
    found = found_in(case, said) if status == 0 else "stopped"
    net = max(seconds - base, 1e-6)
    converting = max(spend([PROGRAM, "convert", "f.cnf"], folder)[2] - base, 1e-6)
    print(f"{case.name:>28} {size:>10} {found:>12} {seconds:>9.3f} {size / net / 1e6:>8.2f} {peak / 1e6:>8.1f} {net / converting:>8.1f}"
          f" {beside(case, given, folder)}", flush=True)


def beside(case, given, folder):
    """The seconds of cadical on the same file."""
    if not given.cadical:
        return ""
    run = solvers.other(case.formula, "cadical", "f.cnf", folder, given.limit)
    return f"{run.seconds:>9.3f}" if run.answer else f"{'stopped':>9}"


def arguments():
    words = argparse.ArgumentParser(description=__doc__, formatter_class=argparse.RawDescriptionHelpFormatter)
    words.add_argument("--small", action="store_true")
    words.add_argument("--limit", type=float, default=60.0)
    words.add_argument("--only", default="")
    given = words.parse_args()
    given.cadical = solvers.installed(("cadical",))
    return given


def main():
    given = arguments()
    with temporary() as folder:
        asks(["extract", "none"], folder)
        base = startup(folder)
        for family, cases in FAMILIES.items():
            if given.only in family:
                print(f"\n{family} (start-up {base * 1000:.1f} ms)")
                print(f"{'file':>28} {'bytes':>10} {'found':>12} {'seconds':>9} {'MB/s':>8} {'peak MB':>8} {'convert':>8}"
                      + f" {'cadical':>9}" * bool(given.cadical))
                for case in cases(given):
                    measure(case, base, given, folder)


if __name__ == "__main__":
    main()
