"""The KNF text of a formula, as the tools write it. A constraint is a guard (a literal, or None), a bound and a
list of literals; literals are whole numbers other than 0, variables count from 1. A tool that turns another format into
KNF is `convert` over the function that reads it."""

import os
import sys


def clause(lits):
    """At least one of the literals."""
    return None, 1, list(lits)


def at_least(bound, lits, guard=None):
    """At least so many of the literals, where the guard is true or there is none."""
    return guard, bound, list(lits)


def at_most(bound, lits, guard=None):
    """At most so many of the literals: at least the rest of their negations."""
    lits = list(lits)
    return guard, max(0, len(lits) - bound), [-lit for lit in lits]


def exactly(bound, lits):
    """Two constraints: at least and at most so many."""
    lits = list(lits)
    return [at_least(bound, lits), at_most(bound, lits)]


def line(constraint):
    """The line of a constraint: a clause, `k`, or `q` where there is a guard."""
    guard, bound, lits = constraint
    words = [str(lit) for lit in lits] + ["0"]
    if guard is not None:
        words = ["q", str(guard), str(bound)] + words
    elif bound != 1:
        words = ["k", str(bound)] + words
    return " ".join(words)


def text(variables, constraints, comments=()):
    """The whole text, with comments at its head."""
    head = [f"c {comment}" for comment in comments]
    head.append(f"p knf {variables} {len(constraints)}")
    return "\n".join(head + [line(c) for c in constraints]) + "\n"


class Refused(Exception):
    """What cannot be turned into KNF, with the line where it stands, counted from 1."""

    def __init__(self, line, why):
        super().__init__(f"line {line}: {why}")


def convert(read, usage, arguments):
    """The program of a converter: its status. `read` takes a file to its number of variables and its constraints; `usage` is the
    text of `--help`."""
    name = os.path.basename(sys.argv[0])
    if arguments in (["-h"], ["--help"]):
        print(usage)
        return 0
    if len(arguments) > 1:
        print(f"usage: {name} [FILE]", file=sys.stderr)
        return 2
    try:
        with open(arguments[0], encoding="utf-8") if arguments else sys.stdin as source:
            variables, found = read(source)
    except Refused as refused:
        print(f"{name}: {refused}", file=sys.stderr)
        return 1
    except (OSError, UnicodeDecodeError) as error:
        why = getattr(error, "strerror", None) or "its bytes are not UTF-8"
        print(f"{name}: {arguments[0] if arguments else 'standard input'}: {why}", file=sys.stderr)
        return 1
    sys.stdout.write(text(variables, found))
    return 0
