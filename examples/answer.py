"""The answer of `knf` for the examples: the true literals of a model, or None where there is none."""

import os
import sys

sys.path.insert(0, os.path.join(os.path.dirname(os.path.abspath(__file__)), "..", "tools"))


def read(file):
    """The set of true literals of a program's output; None at `s UNSATISFIABLE`. Any other output ends the script."""
    lines = file.read().splitlines()
    if "s UNSATISFIABLE" in lines:
        return None
    if "s SATISFIABLE" not in lines:
        sys.exit("no answer:\n" + "\n".join(lines))
    words = [word for line in lines if line.startswith("v") for word in line.split()[1:]]
    return {int(word) for word in words if word != "0"}


def rows(name):
    """The lines of a description, cut into words, without comments (`#`) and blank lines."""
    with open(name, encoding="utf-8") as file:
        lines = [line.split("#")[0].split() for line in file]
    return [line for line in lines if line]


def run(write, tell):
    """What each example's script does: `write FILE` or `read FILE`."""
    if len(sys.argv) != 3 or sys.argv[1] not in ("write", "read"):
        sys.exit(f"usage: {os.path.basename(sys.argv[0])} write FILE | read FILE < answer")
    described = rows(sys.argv[2])
    if sys.argv[1] == "write":
        sys.stdout.write(write(described))
    else:
        print("\n".join(tell(described, read(sys.stdin))))
