#!/usr/bin/env python3
"""A duty rota as a formula. The variable of a person on a day is true where the person works then; a pair that is to
meet has a variable more a day, true only where both work."""

import os
import sys

sys.path.insert(0, os.path.join(os.path.dirname(os.path.abspath(__file__)), ".."))
from answer import run  # noqa: E402
from knftext import at_least, at_most, clause, text  # noqa: E402


def find(rows, word):
    """The words behind the one line that begins with this one."""
    return next(row[1:] for row in rows if row[0] == word)


def variable(rows, person, day):
    days, people = find(rows, "days"), find(rows, "people")
    return people.index(person) * len(days) + days.index(day) + 1


def pairs(rows):
    """The pairs that are to meet, each with the first of its further variables."""
    days, people = find(rows, "days"), find(rows, "people")
    first = len(days) * len(people) + 1
    return [(row[1], row[2], int(row[3]), first + at * len(days)) for at, row in enumerate(r for r in rows if r[0] == "together")]


def meetings(rows):
    """Both work where the further variable of a day is true, and enough of these are."""
    found = []
    days = find(rows, "days")
    for one, other, count, first in pairs(rows):
        both = [first + at for at in range(len(days))]
        for day, meet in zip(days, both):
            found += [clause([-meet, variable(rows, one, day)]), clause([-meet, variable(rows, other, day)])]
        found.append(at_least(count, both))
    return found


def write(rows):
    days, people = find(rows, "days"), find(rows, "people")
    found = []
    for word, lists in (
        ("each-day", [[variable(rows, p, d) for p in people] for d in days]),
        ("each", [[variable(rows, p, d) for d in days] for p in people]),
    ):
        least, most = map(int, find(rows, word))
        for lits in lists:
            found += [at_least(least, lits), at_most(most, lits)]
    for row in rows:
        if row[0] == "away":
            found += [clause([-variable(rows, row[1], day)]) for day in row[2:]]
    found += meetings(rows)
    return text((len(people) + len(pairs(rows))) * len(days), found)


def tell(rows, model):
    if model is None:
        return ["there is no such rota"]
    days, people = find(rows, "days"), find(rows, "people")
    lines = ["      " + " ".join(f"{day:>4}" for day in days)]
    for person in people:
        marks = ["   x" if variable(rows, person, day) in model else "   ." for day in days]
        lines.append(f"{person:<6}" + " ".join(marks))
    return lines


if __name__ == "__main__":
    run(write, tell)
