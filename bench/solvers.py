"""Runs `knf` and other solvers, those that are installed, on files in a folder, within a time limit, and checks what they
answer: models are evaluated, and proofs of `knf` are given to `knf check`. Used by `solve.py`, `compare.py` and others."""

import os
import re
import shutil
import signal
import subprocess
import sys
from typing import NamedTuple, Optional

import counters
import families
from measure import PROGRAM, remove, run, spend, write

SAID = {b"s SATISFIABLE": 10, b"s UNSATISFIABLE": 20, b"s UNKNOWN": 0, b"SATISFIABLE": 10, b"UNSATISFIABLE": 20}
WORDS = {10: "a model", 20: "none", 0: "unknown", None: "stopped"}
OTHERS = {
    "minisat": lambda name: ["-verb=1", name, "model.txt"],
    "cadical": lambda name: [name],
    "clasp": lambda name: ["--verbose=0", "--stats", name],
    "cryptominisat5": lambda name: ["--verb", "1", name],
}
CONFLICTS = re.compile(rb"^(?:c )?conflicts\s*:\s*(\d+)", re.MULTILINE | re.IGNORECASE)
STOPPED = (-signal.SIGXCPU, -signal.SIGKILL)
LONGEST = 2**28  # bytes that `knf check` reads


class Run(NamedTuple):
    """What a solver did: its answer (10, 20, 0 for unknown, none where it was stopped), seconds, conflicts, peak memory."""
    answer: Optional[int]
    seconds: float
    conflicts: int
    peak: int


class Proof(NamedTuple):
    """The proof of a run: its bytes, and the seconds of checking it, none where it was not checked."""
    size: int
    checking: Optional[float]


def installed(names=tuple(OTHERS)):
    return [name for name in names if shutil.which(name)]


def answer_of(said):
    """The answer that a text has as a line."""
    return next((SAID[line] for line in said.split(b"\n") if line in SAID), None)


def literals(said):
    """The literals of the `v` lines, without the 0 at the end."""
    return [int(w) for line in said.split(b"\n") if line.startswith(b"v") for w in line.split()[1:] if w != b"0"]


def is_model(formula, values):
    return families.is_whole(formula, values) and families.satisfies(formula, values)


def fail(name, what):
    sys.exit(f"{name}: {what}")


def learned(path):
    """How many lines of a proof are learned clauses."""
    count, before = 0, b"\n"
    with open(path, "rb") as file:
        while piece := file.read(1 << 22):
            count += (before + piece).count(b"\nl ")
            before = (before + piece)[-2:]
    return count


def own(formula, name, folder, limit, options=()):
    """What `knf solve` does with a file of a formula, and its proof."""
    path = os.path.join(folder, "proof.kpf")
    status, said, seconds, peak = spend([PROGRAM, "solve", name, "proof.kpf", *options], folder, limit)
    answer = answer_of(said)
    if answer is None and status not in STOPPED:
        fail(name, f"knf ends with status {status} and {said[:100]!r}")
    if answer == 10 and not is_model(formula, literals(said)):
        fail(name, "knf printed no model")
    if not os.path.exists(path):
        return Run(answer, seconds, 0, peak), Proof(0, None)
    size, conflicts = os.path.getsize(path), learned(path)
    checking = None if answer is None or size > LONGEST else check(name, answer, folder, limit)
    os.remove(path)
    return Run(answer, seconds, conflicts, peak), Proof(size, checking)


def check(name, answer, folder, limit):
    """The seconds of checking a proof. One of an answer "none" is accepted; any other lacks nothing but the clause without
    literals."""
    status, said, seconds, _ = spend([PROGRAM, "check", name, "proof.kpf"], folder, limit)
    if status in STOPPED:
        return None
    want = rb"s VERIFIED\n" if answer == 20 else rb"c line \d+ cause 9\ns NOT VERIFIED\n"
    if not re.fullmatch(want, said):
        fail(name, f"the check of knf's proof says {said[:100]!r}, status {status}")
    return seconds


def convert(formula, name, into, folder):
    """Writes the clauses of a formula, which a file spells, to another file by `knf convert`, and gives them. They are those of
    the description of counters."""
    status, said, _, _ = run(["convert", name], folder)
    made = counters.counted(formula)
    if status != 0 or said != b"".join(families.text(made)):
        fail(name, f"convert ends with status {status} and other clauses")
    put(into, [said], folder)
    return made


def other(formula, program, name, folder, limit):
    """What another solver does with a file of clauses, whose models, cut, are those of the formula. It may leave out variables
    that stand nowhere."""
    status, said, seconds, peak = spend([program, *OTHERS[program](name)], folder, limit, subprocess.DEVNULL)
    answer = answer_of(said)
    if answer == 10:
        values = literals(values_of(program, said, folder))
        if not families.satisfies(formula, [lit for lit in values if abs(lit) <= formula[0]]):
            fail(name, f"{program} printed no model")
    found = CONFLICTS.search(said)
    return Run(answer, seconds, int(found.group(1)) if found else 0, peak)


def values_of(program, said, folder):
    """What a solver printed; minisat writes its model to a file."""
    if program != "minisat":
        return said
    with open(os.path.join(folder, "model.txt"), "rb") as file:
        return b"v " + file.read().split(b"\n", 1)[1]


def agree(name, runs):
    """Ends the script where two of the runs gave different answers."""
    if len({done.answer for done in runs if done.answer}) > 1:
        fail(name, "two solvers gave different answers")


def put(name, pieces, folder):
    """Writes a file."""
    return write([(name, pieces)], folder)


def take_away(names, folder):
    remove([(name, None) for name in names], folder)
