"""Each example: its description gives the file that is kept, and the program's answer, read back, is right."""

import glob
import os
import subprocess
import sys

from knfcheck import TOP, Folder, is_model, run

WANT = {"rota": 10, "queens": 10, "pigeons": 20, "adders": 20, "timetable": 10, "hidden": 10}


def script(words, **more):
    done = subprocess.run([sys.executable, *words], stdout=subprocess.PIPE, check=False, **more)
    return done.returncode, done.stdout.decode()


def example(tally, name, want):
    folder = os.path.join(TOP, "examples", name)
    code = os.path.join(folder, f"{name}.py")
    described = glob.glob(os.path.join(folder, "*.txt"))[0]
    kept = glob.glob(os.path.join(folder, "*.knf")) + glob.glob(os.path.join(folder, "*.cnf"))
    status, written = script([code, "write", described])
    with open(kept[0], encoding="ascii") as file:
        tally.test(f"example {name}: the file", (status, written) == (0, file.read()))
    with Folder() as own:
        own.write("f", written)
        status, said = run(["solve", "f", "p"], own.path)
        tally.test(f"example {name}: status", status == want, said)
        if status == 10:
            tally.test(f"example {name}: model", is_model(written, said), said)
        elif status == 20:
            tally.test(f"example {name}: proof", run(["check", "f", "p"], own.path)[0] == 0)
        status, told = script([code, "read", described], input=said.encode())
        tally.test(f"example {name}: words", status == 0 and told.strip() != "", told)
        right(tally, name, told)


def right(tally, name, told):
    """What can be seen of an answer without the formula."""
    lines = told.splitlines()
    if name == "queens":
        tally.test("queens: eight", all(line.count("Q") == 1 for line in lines) and len(lines) == 8, told)
    elif name == "rota":
        tally.test("rota: ann away", lines[1].split()[6:] == [".", "."], told)
    elif name == "pigeons":
        tally.test("pigeons: none", lines == ["they do not fit"], told)
    elif name == "adders":
        tally.test("adders: alike", lines == ["the two add alike"], told)
    elif name == "timetable":
        rooms = {line.split(":")[0]: line.split()[1:] for line in lines}
        tally.test("timetable: all sit", sum(len(r) for r in rooms.values() if r != ["closed"]) == 6, told)
    elif name == "hidden":
        tally.test("hidden: sums", [line.count("x") for line in lines] == [2, 2, 1], told)


def faulty_adder(tally):
    """A second adder that drops a carry differs, and at the inputs that are told."""
    code = os.path.join(TOP, "examples", "adders", "adders.py")
    with Folder() as own:
        own.write("a.txt", "bits 3\nfault 1\n")
        _, written = script([code, "write", own.at("a.txt")])
        own.write("f", written)
        status, said = run(["solve", "f", "p"], own.path)
        _, told = script([code, "read", own.at("a.txt")], input=said.encode())
        tally.test("a faulty adder differs", status == 10 and told.startswith("they differ at "), told)


def tests(tally):
    for name, want in WANT.items():
        example(tally, name, want)
    faulty_adder(tally)
