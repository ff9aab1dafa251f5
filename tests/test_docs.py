"""The examples of README and docs, as they stand there."""

import os
import re
import shlex

from knfcheck import TOP, Folder, is_model, run

CODE = re.compile(r"`([^`]*)`")
FIRST = {
    "formula.cnf": "p cnf 1 2\n1 0\n-1 0\n",
    "hidden.cnf": "p cnf 5 6\n1 2 3 0\n-1 4 0\n-4 5 0\n-2 5 0\n-2 -4 0\n-3 -5 0\n",
    "pairs.cnf": "p cnf 3 6\n-1 -2 0\n-1 -3 0\n-2 -3 0\n1 2 0\n1 3 0\n2 3 0\n",
}


def fences(name):
    """The fenced blocks of a document, with the line at which each begins."""
    inside, held, begun = False, [], 0
    with open(name, encoding="utf-8") as file:
        for number, line in enumerate(file, 1):
            if line.startswith("```"):
                if inside:
                    yield begun, "".join(held)
                inside, held, begun = not inside, [], number
            elif inside:
                held.append(line)


def head(block):
    """The first two words that are no comment."""
    for line in block.splitlines():
        words = line.split()
        if words and not words[0].startswith("c"):
            return words[:2]
    return []


def table(name, heading):
    """The rows of the table below a heading, each a list of its cells."""
    with open(name, encoding="utf-8") as file:
        section = file.read().split(f"## {heading}\n", 1)[1].split("\n## ", 1)[0]
    rows = [[cell.strip() for cell in line.strip("|").split("|")] for line in section.splitlines() if line.startswith("|")]
    return rows[2:]


def blocks(tally, name):
    """A formula is one that the program reads; a proof is accepted for the formula above it; a session answers as it says."""
    above = None
    for number, block in fences(name):
        where = f"{os.path.relpath(name, TOP)}:{number}"
        kind = head(block)
        if kind in (["p", "cnf"], ["p", "knf"]):
            above = block
            with Folder() as folder:
                folder.write("f", block)
                tally.test(where, run(["convert", "f"], folder.path)[0] == 0)
        elif kind == ["p", "kpf"] and above:
            with Folder() as folder:
                folder.write("f", above)
                folder.write("p", block)
                said = run(["check", "f", "p"], folder.path)
                tally.test(where, said == (0, "s VERIFIED\n"), said)
        elif block.startswith("$ "):
            session(tally, where, block)


def session(tally, where, block):
    """Commands behind `$`, each with what it prints. A formula that is shown is the one that stands here; a proof's text may change
    with the search, so of that only that the file is there is compared; a model is evaluated."""
    with Folder() as folder:
        for name, content in FIRST.items():
            folder.write(name, content)
        for part in block.split("$ ")[1:]:
            command, _, want = part.partition("\n")
            words = shlex.split(command)
            if words[0] == "cat" and words[1] in FIRST:
                tally.test(f"{where} {command}", want == FIRST[words[1]])
            elif words[0] == "cat":
                tally.test(f"{where} {command}", all(os.path.exists(folder.at(w)) for w in words[1:]))
            elif words[0] == "knf":
                status, said = run(words[1:], folder.path)
                if want.startswith("s SATISFIABLE"):
                    tally.test(f"{where} {command}", status == 10 and is_model(folder.read(words[2]), said), said)
                else:
                    tally.test(f"{where} {command}", said == want, said)


def refusals(tally, name):
    """Each example of the causes of a formula."""
    for cause, _, _, example in table(name, "Refusals"):
        lines = CODE.findall(example)
        said = re.search(r": line (\d+)$", example)
        if cause == "12" or not (lines or "empty" in example):
            continue
        line = said.group(1) if said else "1"
        with Folder() as folder:
            folder.write("f", "".join(line + "\n" for line in lines))
            want = (1, f"c refused line {line} cause {cause}\n")
            given = run(["convert", "f"], folder.path)
            tally.test(f"cause {cause} of a formula: {example}", given == want, given)


def causes(tally, name):
    """Each example of the causes of a proof, for the file that its table names."""
    for cause, _, example in table(name, "Causes"):
        lines = CODE.findall(example)
        first = ["p kpf 1 2"] if cause != "1" else []
        with Folder() as folder:
            folder.write("f", FIRST["formula.cnf"])
            folder.write("p", "".join(line + "\n" for line in first + lines))
            want = (30, f"c line {len(first + lines)} cause {cause}\ns NOT VERIFIED\n")
            given = run(["check", "f", "p"], folder.path)
            tally.test(f"cause {cause} of a proof: {example}", given == want, given)


def tests(tally):
    docs = os.path.join(TOP, "docs")
    for name in [os.path.join(TOP, "README.md")] + sorted(os.path.join(docs, n) for n in os.listdir(docs) if n.endswith(".md")):
        blocks(tally, name)
    refusals(tally, os.path.join(docs, "FORMULAS.md"))
    causes(tally, os.path.join(docs, "PROOFS.md"))
