#!/usr/bin/env python3
"""Turns a pseudo-Boolean file (OPB) whose coefficients are all 1 or -1 into KNF.

    opb2knf.py [FILE]       reads FILE, or standard input, and writes KNF to standard output

Each constraint is `+1 x1 -1 ~x2 >= 1 ;`, with `>=`, `<=` or `=`. Like terms are collected first: `+1 x1 +1 ~x1` is 1. A
coefficient other than 1 or -1 that is left then is refused with its line, status 1. So are an objective (`min:`) and
products of variables. A variable `x17` is the KNF variable 17."""

import re
import sys

from knftext import Refused, convert

WORD = re.compile(r"[+-]?\d+|~?x\d+|>=|<=|=|;|\S+")


def words(source):
    """The words of a file with their lines, without comments (`*` at the head of a line)."""
    for number, content in enumerate(source, 1):
        if not content.lstrip().startswith("*"):
            for word in WORD.findall(content):
                yield number, word


def statements(source):
    """The words of each constraint, up to its `;`."""
    held = []
    last = 0
    for number, word in words(source):
        last = number
        if word == ";":
            yield held, number
            held = []
        else:
            held.append((number, word))
    if held:
        raise Refused(last, "a constraint that does not end in ';'")


def relation_of(held, number):
    """The place of the relation and the whole number behind it."""
    for place, (line, word) in enumerate(held):
        if word in (">=", "<=", "="):
            rest = [w for _, w in held[place + 1:]]
            if len(rest) != 1 or not re.fullmatch(r"[+-]?\d+", rest[0]):
                raise Refused(line, f"'{word}' wants one whole number behind it")
            return place, word, int(rest[0])
    raise Refused(number, "no '>=', '<=' or '='")


def terms(held):
    """The coefficient of each literal `x1`, with its line. `~x1` counts as 1 - x1, so there is a constant too."""
    weights = {}
    constant = 0
    coefficient = None
    for number, word in held:
        if re.fullmatch(r"[+-]?\d+", word):
            if coefficient is not None:
                raise Refused(number, f"'{word}' where a variable should stand")
            coefficient = int(word)
        elif re.fullmatch(r"~?x\d+", word):
            if coefficient is None:
                raise Refused(number, f"'{word}' has no coefficient, or is part of a product")
            variable = int(word.lstrip("~x"))
            if variable == 0:
                raise Refused(number, "variables count from 1")
            if word.startswith("~"):
                constant += coefficient
                coefficient = -coefficient
            weights[variable] = (weights.get(variable, (0, number))[0] + coefficient, number)
            coefficient = None
        else:
            raise Refused(number, f"'{word}' is nothing that may stand here")
    if coefficient is not None:
        raise Refused(held[-1][0], "a coefficient without a variable")
    return weights, constant


def at_least(weights, degree):
    """The sum is at least the degree, as a constraint: -x is not x, less 1."""
    lits = []
    for variable in sorted(weights):
        weight, number = weights[variable]
        if weight == 1:
            lits.append(variable)
        elif weight == -1:
            lits.append(-variable)
            degree += 1
        elif weight != 0:
            raise Refused(number, f"coefficient {weight} of x{variable}: only 1 and -1 can be counted")
    return None, max(0, degree), lits


def negative(weights):
    return {variable: (-weight, number) for variable, (weight, number) in weights.items()}


def constraints(source):
    """The greatest variable of a file, and all its constraints."""
    found = []
    greatest = 0
    for held, number in statements(source):
        if held and held[0][1].rstrip(":") in ("min", "max"):
            raise Refused(held[0][0], "an objective")
        place, relation, degree = relation_of(held, number)
        weights, constant = terms(held[:place])
        greatest = max([greatest, *weights])
        if relation in (">=", "="):
            found.append(at_least(weights, degree - constant))
        if relation in ("<=", "="):
            found.append(at_least(negative(weights), constant - degree))
    return greatest, found


if __name__ == "__main__":
    sys.exit(convert(constraints, __doc__, sys.argv[1:]))
