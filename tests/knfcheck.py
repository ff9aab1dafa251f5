"""What the tests share: the program, files in a folder of their own, formulas read and models evaluated."""

import os
import subprocess
import sys
import tempfile

TOP = os.path.abspath(os.path.join(os.path.dirname(os.path.abspath(__file__)), ".."))
PROGRAM = os.path.abspath(os.environ.get("KNF", os.path.join(TOP, "crates", "knf", "out", "knf")))

sys.path.insert(0, os.path.join(TOP, "tools"))


def build():
    """Builds the program, where it is not there and none is named."""
    if not os.path.exists(PROGRAM) and "KNF" not in os.environ:
        subprocess.run(
            ["rt", "run", "--", "check", "data/formula.cnf", "data/proof.kpf"],
            cwd=os.path.join(TOP, "crates", "knf"),
            stdout=subprocess.DEVNULL,
            check=False,
        )


def run(words, folder, **more):
    """The status and the text on standard output of one run."""
    more.setdefault("stdout", subprocess.PIPE)
    done = subprocess.run([PROGRAM, *words], cwd=folder, stderr=subprocess.DEVNULL, timeout=120, check=False, **more)
    return done.returncode, (done.stdout or b"").decode("ascii", "replace")


class Folder:
    """A folder of its own for one test, with files written into it."""

    def __init__(self):
        self._held = tempfile.TemporaryDirectory(prefix="knf-test")
        self.path = self._held.name

    def __enter__(self):
        return self

    def __exit__(self, *_):
        self._held.cleanup()

    def at(self, name):
        return os.path.join(self.path, name)

    def write(self, name, content):
        with open(self.at(name), "w", encoding="ascii") as file:
            file.write(content)
        return self.at(name)

    def read(self, name):
        with open(self.at(name), encoding="ascii") as file:
            return file.read()


def formula(content):
    """The number of variables and the constraints (guard or None, bound, literals) of an accepted text."""
    words = []
    for line in content.splitlines():
        cut = line.split()
        if cut and cut[0].startswith("%"):
            break
        if cut and not cut[0].startswith("c"):
            words += cut
    variables = int(words[2])
    return variables, constraints(words[4:])


def constraints(words):
    found = []
    at = 0
    while at < len(words):
        guard, bound = None, 1
        if words[at] == "q":
            guard, bound, at = int(words[at + 1]), int(words[at + 2]), at + 3
        elif words[at] == "k":
            bound, at = int(words[at + 1]), at + 2
        end = next(place for place in range(at, len(words)) if is_end(words[place]))
        found.append((guard, bound, [int(word) for word in words[at:end]]))
        at = end + 1
    return found


def is_end(word):
    return not word.startswith("-") and int(word) == 0


def values(said):
    """The literals of the `v` lines, without the 0 at the end."""
    return [int(w) for line in said.splitlines() if line.startswith("v") for w in line.split()[1:] if w != "0"]


def is_model(content, said):
    """Whether the `v` lines give each variable one value and satisfy each constraint."""
    variables, found = formula(content)
    literals = values(said)
    if [abs(lit) for lit in literals] != list(range(1, variables + 1)):
        return False
    held = set(literals)
    return all(holds(c, held) for c in found)


def holds(constraint, held):
    guard, bound, lits = constraint
    return (guard is not None and guard not in held) or sum(lit in held for lit in lits) >= bound


class Tally:
    """Counts tests, and says each that fails."""

    def __init__(self):
        self.passed = 0
        self.failed = 0

    def test(self, name, right, said=""):
        if right:
            self.passed += 1
        else:
            self.failed += 1
            print(f"failed: {name}{': ' + repr(said)[:300] if said != '' else ''}")

    def last_line(self):
        return f"{self.passed} passed, {self.failed} failed"
