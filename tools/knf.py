"""Calls the program `knf` as PySAT's solvers are called. With this folder in `PYTHONPATH`:

    from knf import Solver

    with Solver(bootstrap_with=[[1, 2], [-1, 3]]) as solver:
        solver.add_atleast([1, 2, 3], 2)
        if solver.solve():
            print(solver.get_model())

The program is the one that the environment variable `KNF` names, else `knf` of the search path, else the one that is built
in this repository. Each call of `solve` is a new run."""

import os
import shutil
import subprocess
import tempfile

from knftext import at_least, at_most, clause, text

BUILT = os.path.join(os.path.dirname(os.path.abspath(__file__)), "..", "crates", "knf", "out", "knf")

WORDS = {
    1: "the formula was refused",
    2: "the command line has no meaning",
    3: "a file could not be read",
    4: "a file could not be written",
    5: "memory was short",
    6: "a word of the command line is not UTF-8",
}


class KnfError(Exception):
    """The program gave no answer. `status` is how it ended, `said` what it wrote."""

    def __init__(self, status, said):
        super().__init__(f"{WORDS.get(status, f'status {status}')}: {said.strip() or 'nothing was said'}")
        self.status = status
        self.said = said


class ProofRefused(KnfError):
    """The proof was checked and is none."""


def program():
    """The program that is called."""
    named = os.environ.get("KNF")
    if named:
        return os.path.abspath(named)
    return shutil.which("knf") or BUILT


class Solver:
    """A formula that grows, and the answer of the last `solve`. Literals are whole numbers other than 0."""

    def __init__(self, bootstrap_with=(), conflicts=None, forget=None):
        self._constraints = []
        self._variables = 0
        self._folder = tempfile.TemporaryDirectory(prefix="knf")
        self._status = None
        self._model = None
        self._options = self._words(conflicts, forget)
        for lits in bootstrap_with:
            self.add_clause(lits)

    @staticmethod
    def _words(conflicts, forget):
        words = []
        if conflicts is not None:
            words += ["--conflicts", str(int(conflicts))]
        if forget is not None:
            words += ["--forget", str(int(forget))]
        return words

    def __enter__(self):
        return self

    def __exit__(self, *_):
        self.delete()

    def delete(self):
        """Removes the files of the last run."""
        self._folder.cleanup()

    def add_clause(self, lits):
        """At least one of the literals."""
        self._add(clause(lits))

    def add_atmost(self, lits, k, guard=None):
        """At most k of the literals, where the guard is true or there is none."""
        self._add(at_most(k, lits, guard))

    def add_atleast(self, lits, bound, guard=None):
        """At least so many of the literals, where the guard is true or there is none."""
        self._add(at_least(bound, lits, guard))

    def _add(self, constraint):
        guard, _, lits = constraint
        named = [abs(lit) for lit in lits] + ([abs(guard)] if guard is not None else [])
        if 0 in named:
            raise ValueError("0 is no literal")
        self._variables = max([self._variables, *named])
        self._constraints.append(constraint)
        self._status = self._model = None

    def nof_vars(self):
        """The greatest variable that was named."""
        return self._variables

    def _path(self, name):
        return os.path.join(self._folder.name, name)

    def _run(self, words):
        done = subprocess.run([program(), *words], stdout=subprocess.PIPE, check=False)
        return done.returncode, done.stdout.decode("ascii", "replace")

    def solve(self):
        """True where there is a model, False where there is none, None where the conflicts were spent."""
        with open(self._path("formula.knf"), "w", encoding="ascii") as file:
            file.write(text(self._variables, self._constraints))
        words = ["solve", self._path("formula.knf"), self._path("proof.kpf"), *self._options]
        self._status, said = self._run(words)
        self._model = None
        if self._status == 10:
            self._model = self._values(said)
            return True
        if self._status == 20:
            return False
        if self._status == 0:
            return None
        raise KnfError(self._status, said)

    @staticmethod
    def _values(said):
        words = [w for line in said.splitlines() if line.startswith("v") for w in line.split()[1:]]
        return [int(word) for word in words if word != "0"]

    def get_model(self):
        """The literals that are true, one of each variable; None where the last `solve` was not True."""
        return self._model

    def get_proof(self, check=False):
        """The lines of the proof of the last `solve`; None where it was not False. With `check` the program checks the
        proof first, and ProofRefused is raised where it is none."""
        if self._status != 20:
            return None
        if check:
            self.check()
        with open(self._path("proof.kpf"), encoding="ascii") as file:
            return file.read().splitlines()

    def check(self):
        """Has the proof of the last `solve` checked."""
        status, said = self._run(["check", self._path("formula.knf"), self._path("proof.kpf")])
        if status == 30:
            raise ProofRefused(status, said)
        if status != 0:
            raise KnfError(status, said)
