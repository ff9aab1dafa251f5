"""Clauses for klauses by sequential counters, made from their description in docs/FORMULAS.md and apart from the program, so that
`bench/` has the clauses of a formula without it."""

import families


def counter(base, most, lits):
    """At most so many of the literals, `most` being from 1 to one less than these: s(i, j) has the number
    base + (i - 1) * most + j."""
    n = len(lits)

    def s(i, j):
        return base + (i - 1) * most + j

    yield [-lits[0], s(1, 1)]
    for j in range(2, most + 1):
        yield [-s(1, j)]
    for i in range(2, n):
        x = lits[i - 1]
        yield [-x, s(i, 1)]
        yield [-s(i - 1, 1), s(i, 1)]
        for j in range(2, most + 1):
            yield [-x, -s(i - 1, j - 1), s(i, j)]
            yield [-s(i - 1, j), s(i, j)]
        yield [-x, -s(i - 1, most)]
    yield [-lits[n - 1], -s(n - 1, most)]


def clauses(base, bound, lits):
    """At least so many of the literals; a counter's further variables stand behind `base`."""
    if bound == 1:
        return [lits]
    if bound == 0:
        return []
    if bound > len(lits):
        return [[]]
    if bound == len(lits):
        return [[lit] for lit in lits]
    return counter(base, len(lits) - bound, [-lit for lit in lits])


def further(bound, lits):
    """How many further variables that takes."""
    return (len(lits) - 1) * (len(lits) - bound) if 1 < bound < len(lits) else 0


def counted(formula):
    """The formula of clauses."""
    variables, found = formula
    made = []
    for guard, bound, lits in found:
        front = [] if guard is None else [-guard]
        made += [families.clause(front + some) for some in clauses(variables, bound, lits)]
        variables += further(bound, lits)
    return variables, made
