#!/usr/bin/env python3
"""Says in words what a refusal means, and shows the line.

    knf solve F P | explain.py F        explains `c refused line L cause W`: F is no formula
    knf check F P | explain.py F P      explains `c line L cause W` too: P is no proof of F

It reads the program's output from standard input and passes other lines on. Where it can be told which word is meant,
the word is marked."""

import re
import sys

FORMULA = {
    1: "the first line that is no comment does not begin with the word 'p', or there is none",
    2: "the problem line is not 'p cnf V C' or 'p knf V C' with two numbers",
    3: "more than 1,000,000 variables",
    4: "more than 10,000,000 constraints",
    5: "a word that may not stand here",
    6: "a variable above the number of the problem line",
    7: "a bound above 1,000,000",
    8: "a klause that names a variable twice, its guard counted",
    9: "more constraints than the problem line says",
    10: "the text ends within a constraint",
    11: "fewer constraints than the problem line says",
    12: "the clauses would need more than 10,000,000 variables",
}

PROOF = {
    1: "the first line is not 'p kpf V C' with the formula's numbers, or a later line is a header",
    2: "the line is none of a proof's",
    3: "a variable that is not known here",
    4: "an id that is not live here: it was not given yet, or is deleted",
    5: "the hints do not end in conflict, so the clause does not follow from them",
    6: "the id of a 'k' line is not the clause of its variable alone",
    7: "the variable does not stand for the count of these literals",
    8: "a klause that names a variable twice, or that has a guard",
    9: "no line gave the clause without literals",
}

REFUSED = re.compile(r"c refused line (\d+) cause (\d+)$")
WRONG = re.compile(r"c line (\d+) cause (\d+)$")


def line_at(name, number):
    """The line of a file, counted from 1; None where there is none."""
    try:
        with open(name, encoding="utf-8", errors="replace") as file:
            for at, content in enumerate(file, 1):
                if at == number:
                    return content.rstrip("\n")
    except OSError:
        pass
    return None


def header_variables(name):
    """The number of variables of a formula's problem line; None where there is none."""
    try:
        with open(name, encoding="utf-8", errors="replace") as file:
            for content in file:
                words = content.split()
                if words and not words[0].startswith("c"):
                    return int(words[2]) if len(words) == 4 and words[2].isdigit() else None
    except OSError:
        pass
    return None


def is_suspect(word, cause, variables):
    """Whether this word alone shows the cause."""
    number = re.fullmatch(r"-?(\d+)", word)
    if cause == 5:
        return not number and word not in ("k", "q")
    if cause == 6:
        return bool(number) and variables is not None and int(number.group(1)) > variables
    if cause == 7:
        return bool(number) and int(number.group(1)) > 1_000_000
    return False


def suspect(content, cause, variables):
    """Where the word begins and ends that shows the cause of a formula; None where it cannot be told."""
    found = [m for m in re.finditer(r"\S+", content) if is_suspect(m.group(), cause, variables)]
    return found[0].span() if found else None


def explain(name, number, why, span):
    """The lines that say what is wrong."""
    lines = [f"{name}: line {number}: {why}"]
    content = line_at(name, number)
    if content is not None:
        lines.append(f"    {content[:200]}")
        if span and span[1] <= 200:
            lines.append("    " + " " * span[0] + "^" * (span[1] - span[0]))
    return lines


def of_formula(name, number, cause):
    content = line_at(name, number) or ""
    why = FORMULA.get(cause, f"cause {cause}")
    return explain(name, number, why, suspect(content, cause, header_variables(name)))


def of_proof(name, number, cause):
    return explain(name, number, PROOF.get(cause, f"cause {cause}"), None)


def main(arguments):
    if arguments in (["-h"], ["--help"]):
        print(__doc__)
        return 0
    if not 1 <= len(arguments) <= 2:
        print("usage: explain.py F [P] < the program's output", file=sys.stderr)
        return 2
    for content in sys.stdin:
        content = content.rstrip("\n")
        print(content)
        refused, wrong = REFUSED.match(content), WRONG.match(content)
        if refused:
            print("\n".join(of_formula(arguments[0], int(refused.group(1)), int(refused.group(2)))))
        elif wrong and len(arguments) == 2:
            print("\n".join(of_proof(arguments[1], int(wrong.group(1)), int(wrong.group(2)))))
    return 0


if __name__ == "__main__":
    sys.exit(main(sys.argv[1:]))
