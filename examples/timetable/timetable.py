#!/usr/bin/env python3
"""Groups in rooms: each group is in just one room, and if a room is used, then enough groups are in it, and not too many.
A room's variable is the guard of its rules."""

import os
import sys

sys.path.insert(0, os.path.join(os.path.dirname(os.path.abspath(__file__)), ".."))
from answer import run  # noqa: E402
from knftext import at_least, at_most, clause, exactly, text  # noqa: E402


def rooms(rows):
    return [(row[1], int(row[2]), int(row[3])) for row in rows if row[0] == "room"]


def groups(rows):
    return next(row[1:] for row in rows if row[0] == "groups")


def used(at):
    return at + 1


def sits(rows, group, at):
    return len(rooms(rows)) + groups(rows).index(group) * len(rooms(rows)) + at + 1


def write(rows):
    found = []
    for group in groups(rows):
        found += exactly(1, [sits(rows, group, at) for at in range(len(rooms(rows)))])
    for at, (_, least, most) in enumerate(rooms(rows)):
        inside = [sits(rows, group, at) for group in groups(rows)]
        found += [at_least(least, inside, guard=used(at)), at_most(most, inside, guard=used(at))]
        found += [clause([-lit, used(at)]) for lit in inside]
        found += [clause([-sits(rows, g, at) for g in row[1:]]) for row in rows if row[0] == "apart"]
    return text((1 + len(groups(rows))) * len(rooms(rows)), found)


def tell(rows, model):
    if model is None:
        return ["there is no such timetable"]
    lines = []
    for at, (name, _, _) in enumerate(rooms(rows)):
        inside = [group for group in groups(rows) if sits(rows, group, at) in model]
        lines.append(f"{name}: {' '.join(inside) if inside else 'closed'}")
    return lines


if __name__ == "__main__":
    run(write, tell)
