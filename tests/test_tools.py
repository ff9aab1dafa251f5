"""The readers of other formats, the words of refusals, and the module."""

import os
import subprocess
import sys

from knfcheck import PROGRAM, TOP, Folder, run

os.environ.setdefault("KNF", PROGRAM)
TOOLS = os.path.join(TOP, "tools")


def tool(name, *words, given=""):
    done = subprocess.run([sys.executable, os.path.join(TOOLS, name), *words], input=given.encode(), capture_output=True, check=False)
    return done.returncode, done.stdout.decode(), done.stderr.decode()


OPB = [
    ("+1 x1 +1 x2 +1 x3 >= 2 ;\n", 0, "p knf 3 1\nk 2 1 2 3 0\n"),
    ("* a comment\n+1 x1 +1 ~x2 >= 1 ;\n", 0, "p knf 2 1\n1 -2 0\n"),
    ("+1 x1 +1 x2 +1 x3 <= 1 ;\n", 0, "p knf 3 1\nk 2 -1 -2 -3 0\n"),
    ("+1 x1 +1 x2 = 1 ;\n", 0, "p knf 2 2\n1 2 0\n-1 -2 0\n"),
    ("-1 x1 -1 x2 >= -1 ;\n", 0, "p knf 2 1\n-1 -2 0\n"),
    ("+1 x1 +1 x1 -1 x1 +1 x2 >= 1 ;\n", 0, "p knf 2 1\n1 2 0\n"),
    ("+1 x1 +1 ~x1 +1 x2 >= 2 ;\n", 0, "p knf 2 1\n2 0\n"),
    ("+1 x1 >= 2 ;\n", 0, "p knf 1 1\nk 2 1 0\n"),
    ("+2 x1 >= 1 ;\n", 1, "line 1"),
    ("+1 x1 >= 1 ;\nmin: +1 x1 ;\n", 1, "line 2"),
    ("+1 x1 x2 >= 1 ;\n", 1, "line 1"),
    ("+1 x1 >= 1\n", 1, "line 1"),
]

PLUS = [
    ("p cnf+ 3 2\n1 -2 0\n1 2 3 <= 1\n", 0, "p knf 3 2\n1 -2 0\nk 2 -1 -2 -3 0\n"),
    ("c x\np cnf+ 3 1\n1 2 -3 >= 2\n", 0, "p knf 3 1\nk 2 1 2 -3 0\n"),
    ("p cnf+ 3 1\n1 1 2 <= 1\n", 1, "line 2"),
    ("p cnf+ 2 1\n1 3 0\n", 1, "line 2"),
    ("p cnf+ 2 1\n1 2\n", 1, "line 2"),
]


def readers(tally, name, cases):
    for given, status, want in cases:
        got = tool(name, given=given)
        right = got[:2] == (0, want) if status == 0 else got[0] == 1 and want in got[2]
        tally.test(f"{name} on {given!r}", right, got)
        if status == 0:
            with Folder() as folder:
                folder.write("f", got[1])
                tally.test(f"{name} on {given!r} is read", run(["convert", "f"], folder.path)[0] == 0)
    status, _, said = tool(name, os.path.join(TOP, "no such file"))
    tally.test(f"{name} on no file", status == 1 and said.startswith(name) and "Traceback" not in said, said)


def explanations(tally):
    with Folder() as folder:
        folder.write("f", "p cnf 2 1\n1 x 0\n")
        status, said = run(["convert", "f"], folder.path)
        told = tool("explain.py", folder.at("f"), given=said)[1]
        tally.test("a word is marked", status == 1 and told.splitlines()[-2:] == ["    1 x 0", "      ^"], told)
        folder.write("g", "p cnf 1 2\n1 0\n-1 0\n")
        folder.write("p", "p kpf 1 2\nr 0 1 0\n")
        told = tool("explain.py", folder.at("g"), folder.at("p"), given=run(["check", "g", "p"], folder.path)[1])[1]
        tally.test("a wrong line is shown", "do not end in conflict" in told and "    r 0 1 0" in told, told)


def module(tally):
    from knf import KnfError, Solver

    days, people = 5, 4
    at = lambda person, day: person * days + day + 1  # noqa: E731
    with Solver() as rota:
        for day in range(days):
            rota.add_atleast([at(person, day) for person in range(people)], 2)
        for person in range(people):
            rota.add_atmost([at(person, day) for day in range(days)], 3)
        late = people * days + 1
        rota.add_atleast([at(0, day) for day in range(days)], 3, guard=late)
        rota.add_clause([late])
        tally.test("the module finds a rota", rota.solve() is True)
        held = set(rota.get_model() or [])
        tally.test("its guard binds", sum(at(0, day) in held for day in range(days)) == 3)
        tally.test("two a day", all(sum(at(p, d) in held for p in range(people)) >= 2 for d in range(days)))
        rota.add_atmost([at(person, day) for person in range(people) for day in range(days)], 9)
        tally.test("the module finds none", rota.solve() is False and rota.get_model() is None)
        proof = rota.get_proof(check=True)
        tally.test("its proof is checked", proof is not None and proof[0].startswith("p kpf "))
    with Solver([[1, 2]], conflicts=0) as solver:
        tally.test("no proof of a model", solver.solve() is True and solver.get_proof() is None)
    with Solver() as solver:
        solver.add_atleast([1, -1], 2)
        try:
            solver.solve()
            tally.test("a refusal is an exception", False)
        except KnfError as error:
            tally.test("a refusal is an exception", error.status == 1 and "cause 8" in error.said)


def tests(tally):
    readers(tally, "opb2knf.py", OPB)
    readers(tally, "cnfplus2knf.py", PLUS)
    explanations(tally)
    module(tally)
