"""The crates of `crates.txt` are those that the documents speak of: each has its row, its neighbours and its functions are there."""

import glob
import os
import re

from knfcheck import TOP
from test_docs import CODE, table

WORD = re.compile(r"^(?:\w+::)*(\w+)$")


def crates():
    """Each crate with those that it stands on, libraries of others left out."""
    with open(os.path.join(TOP, "crates.txt"), encoding="utf-8") as file:
        lines = [line.split(":") for line in file if ":" in line and not line.startswith("#")]
    names = [name for name, _ in lines]
    return {name: {lower for lower in below.split() if lower in names} for name, below in lines}


def has_item(crate, name):
    """Whether the crate's code has an item of this name: a public one, or one at the beginning of a line, as in a trait."""
    item = re.compile(rf"(?:pub |^\s*)(?:fn|struct|enum|trait|const|type) {name}\b", re.MULTILINE)
    for path in glob.glob(os.path.join(TOP, "crates", crate, "src", "*.rt")):
        with open(path, encoding="utf-8") as file:
            if item.search(file.read()):
                return True
    return False


def layers(tally, found):
    """The table of ARCHITECTURE: a row for each crate, in which those below it are those of `crates.txt`."""
    page = os.path.join(TOP, "docs", "ARCHITECTURE.md")
    rows = {CODE.findall(row[0])[0]: row for row in table_of(page, "| crate | the question it answers |")}
    tally.test("ARCHITECTURE has each crate", set(rows) == set(found), sorted(set(rows) ^ set(found)))
    for name in set(rows) & set(found):
        below = set(CODE.findall(rows[name][2]))
        if below or rows[name][2] == "nothing":
            tally.test(f"ARCHITECTURE: what {name} stands on", below == found[name], sorted(below ^ found[name]))


def functions(tally, found):
    """The table of README: functions that the crate of their row has."""
    rows = table(os.path.join(TOP, "README.md"), "What is proved")
    crate = ""
    for row in rows:
        crate = (CODE.findall(row[0]) or [crate])[0]
        for name in filter(None, map(WORD.match, CODE.findall(row[1]))):
            tally.test(f"README: {crate} has {name.group()}", has_item(crate, name.group(1)))


def promises(tally, found):
    """The layers of PROMISES: an entry for each library."""
    with open(os.path.join(TOP, "docs", "PROMISES.md"), encoding="utf-8") as file:
        seen = set(re.findall(r"^- `(\w+)`:", file.read(), re.MULTILINE))
    tally.test("PROMISES has each library", seen == set(found) - {"knf"}, sorted(seen ^ set(found)))


def table_of(name, head):
    """The rows of the table that begins so."""
    with open(name, encoding="utf-8") as file:
        lines = file.read().split(head, 1)[1].splitlines()[2:]
    for line in lines:
        if not line.startswith("|"):
            return
        yield [cell.strip() for cell in line.strip("|").split("|")]


def tests(tally):
    found = crates()
    folders = {name for name in os.listdir(os.path.join(TOP, "crates")) if os.path.isdir(os.path.join(TOP, "crates", name))}
    tally.test("crates.txt has each crate", folders == set(found), sorted(folders ^ set(found)))
    layers(tally, found)
    functions(tally, found)
    promises(tally, found)
