#!/usr/bin/env python3
"""Turns a file of clauses and cardinalities as PySAT writes them (`p cnf+`) into KNF.

    cnfplus2knf.py [FILE]   reads FILE, or standard input, and writes KNF to standard output

A line is a clause (`1 -2 0`), or literals with `<= k` or `>= k` (`1 2 3 <= 1`). What is neither is refused with its line,
status 1; so is a literal above the number of variables of the problem line."""

import re
import sys

from knftext import Refused, at_least, at_most, clause, convert

CARDINALITY = re.compile(r"\s*((?:-?\d+\s+)*)(<=|>=)\s*(\d+)\s*$")


def literals(words, variables, number):
    """The literals of these words."""
    lits = []
    for word in words:
        if not re.fullmatch(r"-?\d+", word) or int(word) == 0:
            raise Refused(number, f"'{word}' is no literal")
        if abs(int(word)) > variables:
            raise Refused(number, f"'{word}' is above the {variables} variables of the problem line")
        lits.append(int(word))
    return lits


def constraint(content, variables, number):
    """The constraint of a line."""
    match = CARDINALITY.match(content)
    if match:
        lits = literals(match.group(1).split(), variables, number)
        if len({abs(lit) for lit in lits}) < len(lits):
            raise Refused(number, "a cardinality that names a variable twice")
        make = at_most if match.group(2) == "<=" else at_least
        return make(int(match.group(3)), lits)
    words = content.split()
    if words[-1] != "0":
        raise Refused(number, "a clause ends in 0, a cardinality in '<= k' or '>= k'")
    return clause(literals(words[:-1], variables, number))


def read(source):
    """The number of variables and the constraints of a file."""
    variables = None
    found = []
    for number, content in enumerate(source, 1):
        words = content.split()
        if not words or words[0].startswith("c"):
            continue
        if words[0] == "p":
            if len(words) != 4 or words[1] not in ("cnf+", "cnf") or not words[2].isdigit():
                raise Refused(number, "the problem line is 'p cnf+ V C'")
            variables = int(words[2])
        elif variables is None:
            raise Refused(number, "a constraint before the problem line")
        else:
            found.append(constraint(content, variables, number))
    if variables is None:
        raise Refused(0, "no problem line")
    return variables, found


if __name__ == "__main__":
    sys.exit(convert(read, __doc__, sys.argv[1:]))
