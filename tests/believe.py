#!/usr/bin/env python3
"""What a reader must believe for an answer of the program: for each answer of `kn_tool::run`, the definitions in `specs/` that the clause of its
contract reaches, and how many lines they have, without comments and blank lines.

    believe.py                  prints the table, and compares it with the one in docs/PROMISES.md: status 1 where they differ
    believe.py --write          writes the table there
    believe.py --list WORD ..   prints, for each row whose first cells have these words, its definitions with file and lines

An answer's clause is `headline`, by its command, where that says something of it; else it is `tells`. Of a definition by cases on
the answer or on the command, and of a table of rows, only the cases that can be those of this answer are read. Names are
followed through the imports of each file; words of std, and types of the code, are named and not counted."""

import os
import re
import sys

from definitions import CLOSING, OPENING, PIECE, Book, Module, Type
from knfcheck import TOP

PAGE = os.path.join(TOP, "docs", "PROMISES.md")
HEADING = "## What to believe for an answer\n"
HEAD = "| answer | command | clause | lines | of these in the files of `crates/*/specs/` |\n|---|---|---|---|---|\n"
TOOL = os.path.join(TOP, "crates", "kn_tool", "src")
ANSWER = Type("kn_tool", "Answer")
ASKED = ("kn_tool.specs.Words", "Asked")
NAME = re.compile(r"[^\W\d][\w'-]*(\.\S+)?")
KEYWORDS = {"λ", "record", "if", "then", "else", "data", "where", "abbrev", "unfoldable", "pub", "Type", "Unit", "infixl", "let", "in", "_", "omega", "absurd", "cc"}


class Scope:
    """What the words of a part stand for, in its file."""

    def __init__(self, book, module):
        self._book, self._module = book, module

    def found(self, word):
        """A definition or a type and perhaps a constructor; nothing for other words."""
        try:
            return self._book.in_scope(self._module, word)
        except KeyError:
            return None

    def is_there(self, word):
        """Whether the word has a meaning here, one of std's counted."""
        front = word.partition(".")[0]
        known = (self._module.own, self._module.members, self._module.imported, self._module.fronts)
        return any(word in names or front in names for names in known)

    def constructor(self, word):
        found = self.found(word)
        return found if found and found[1] else None

    def operators(self):
        """The operators that are defined here or imported from files of definitions, by their signs."""
        names = [name for name in (*self._module.own, *self._module.imported) if name.startswith("◌") and name.endswith("◌")]
        return {name.strip("◌"): name for name in names}


def pattern_of(part):
    """The words before the `=` of an equation, without the function; behind the last arrow of a constructor's type."""
    words = part.words
    if part.kind == "equation":
        return words[1:outside(words, "=")[0]]
    ends = outside(words, "→")
    return words[(ends[-1] if ends else words.index(":")) + 1:]


def outside(words, sign):
    """The places of a sign outside of all brackets."""
    depth, places = 0, []
    for at, word in enumerate(words):
        depth += (word in OPENING) - (word in CLOSING)
        if word == sign and depth == 0:
            places.append(at)
    return places


def bound(words):
    """The names that binders of the words introduce: `λ x y. ..`, `(x y : T)`, `{x : T}`, `let x = ..`."""
    names = {words[at + 1] for at, word in enumerate(words) if word == "let"}
    for at, word in enumerate(words):
        if word == "λ":
            for name in words[at + 1:]:
                names.add(name.rstrip("."))
                if name.endswith("."):
                    break
        elif word in ("(", "{") and ":" in words[at:]:
            group = words[at + 1:words.index(":", at)]
            if all(NAME.fullmatch(name) for name in group):
                names.update(group)
    return names


def locals_of(definition, part, scope):
    """The names that stand for values within a part."""
    words = part.words
    names = bound(words)
    if part.kind == "equation":
        names.update(word for word in pattern_of(part) if NAME.fullmatch(word) and not scope.constructor(word) and "." not in word)
    if part.kind == "member":
        names |= bound(definition.parts[0].words) | {words[words.index(":") - 1]}
    if part.kind == "member" and definition.kind == "record":
        for name, other in definition.members():
            if other is part:
                break
            names.add(name)
    return names


def named(definition, part, scope):
    """The definitions and types that a part names."""
    words, inner = part.words, locals_of(definition, part, scope)
    signs = scope.operators()
    for at, word in enumerate(words):
        word = signs.get(word, word.rstrip("."))
        is_field = words[at + 1:at + 2] == ["="] or word.startswith(".")
        if is_field or word.partition(".")[0] in inner or word == definition.name:
            continue
        found = scope.found(word)
        if found:
            yield found[0]


class Reach:
    """The parts of definitions that are reached from names, where of some types only some constructors are asked for."""

    def __init__(self, book, roots, asked):
        self._book, self.asked, self.explicit = book, dict(asked), set()
        self._walk(list(roots))

    def _walk(self, roots):
        """Follows the names; anew, where a type has to be cut no longer."""
        self.parts, self.types = {}, set()
        todo = list(roots)
        while todo:
            found = todo.pop()
            if isinstance(found, Type):
                self.types.add(found)
            elif found not in self.parts:
                scope = Scope(self._book, found.module)
                self.parts[found] = list(self._kept(found, scope))
                if widened := self._widened(found, scope):
                    del self.asked[widened]
                    return self._walk(roots)
                for part in self.parts[found]:
                    todo += named(found, part, scope)
        return None

    def _cases(self, part, scope):
        """The constructors of the types that are cut, in a part's pattern; and how many of other types."""
        found = [scope.constructor(word) for word in pattern_of(part)]
        cut = [case for case in found if case and case[0] in self.asked]
        return cut, sum(case is not None for case in found) - len(cut)

    def _kept(self, definition, scope):
        """The parts that can be those of what is asked for. Behind an equation for it alone, one for anything is not read."""
        covered = False
        for part in definition.parts:
            if part.kind == "equation" or part.kind == "member" and definition.kind == "data":
                cut, others = self._cases(part, scope)
                if any(name not in self.asked[owner] for owner, name in cut) or covered and not cut:
                    continue
                self.explicit.update(name for _, name in cut)
                covered |= part.kind == "equation" and bool(cut) and others == 0
            yield part

    def _widened(self, definition, scope):
        """A type that is cut and that a row which is kept speaks of for any value: that of another answer, which is meant."""
        for part in self.parts[definition] if definition.kind == "data" else []:
            for name in re.findall(r"\(\w+ : (\w+)\)", part.text):
                found = scope.found(name)
                if part.kind == "member" and found and found[0] in self.asked:
                    return found[0]
        return None

    def join(self, other):
        """Takes in what is reached besides."""
        for definition, parts in other.parts.items():
            held = self.parts.setdefault(definition, [])
            held += [part for part in parts if part not in held]
        self.types |= other.types
        return self

    def lines(self):
        """How many lines the parts have, by crate and file."""
        counts = {}
        for definition, parts in self.parts.items():
            crate, _, file = definition.module.path.split(".")
            files = counts.setdefault(crate, {})
            files[file] = files.get(file, 0) + sum(len(part.lines) for part in parts)
        return {crate: dict(sorted(files.items())) for crate, files in sorted(counts.items())}


def unknown(book, reach):
    """Words of the parts that no import explains: an error of this script."""
    for definition, parts in reach.parts.items():
        scope = Scope(book, definition.module)
        for part in parts:
            inner = locals_of(definition, part, scope)
            for at, word in enumerate(words := part.words):
                word = word.rstrip(".")
                front = word.partition(".")[0]
                if NAME.fullmatch(word) and front not in inner | KEYWORDS | {definition.name} and words[at + 1:at + 2] != ["="] and not scope.is_there(word):
                    yield f"{definition.module.path}: {definition.name}: {word}"


def clauses_of(text):
    """The clauses of `run`, by name."""
    contract = text[text.index("pub fn run<"):]
    contract = contract[:contract.index("\n{\n")]
    return {clause.group(1): braced(contract[clause.end():]) for clause in re.finditer(r"ensures (\w+) \{", contract)}


def braced(text):
    """The text up to the brace that closes it."""
    depth = 1
    for at, letter in enumerate(text):
        depth += (letter == "{") - (letter == "}")
        if depth == 0:
            return text[:at]
    return text


def variants(text, name):
    """The variants of an enum of the code, in their order."""
    body = braced(text[text.index(f"pub enum {name} {{") + len(f"pub enum {name} {{"):])
    return re.findall(r"^    (\w+)\b", body, re.MULTILINE)


class Contract:
    """The clauses of `run`, its answers and commands, and what clauses reach."""

    def __init__(self):
        self.book = Book()
        text, answers = (read(os.path.join(TOOL, name)) for name in ("top.rt", "answer.rt"))
        self.module = Module("kn_tool.src.top", "")
        for use in re.findall(r"^ghost (use [^;]*);", text, re.MULTILINE):
            self.module.use(" ".join(use.split()))
        self.clauses, self.answers = clauses_of(text), variants(answers, ANSWER.name)
        self._asked = self.definition(*ASKED)
        self.commands = [name for name, _ in self._asked.members()]

    def definition(self, module, name):
        return self.book.module(module).own[name]

    def reach(self, names, answers=None, commands=None):
        """What these clauses reach, for these answers and commands, all where none are told."""
        scope = Scope(self.book, self.module)
        words = [word for name in names for word in PIECE.findall(self.clauses[name])]
        asked = {ANSWER: answers, self._asked: commands}
        asked = {owner: set(some) for owner, some in asked.items() if some is not None}
        return Reach(self.book, [found[0] for found in map(scope.found, words) if found], asked)

    def reach_of(self, *names):
        """What definitions reach, told by module and name."""
        return Reach(self.book, [self.definition(*name) for name in names], {})


def read(path):
    with open(path, encoding="utf-8") as file:
        return file.read()


class Row:
    """A row of the table: what it is about, and the reach."""

    def __init__(self, answer, command, clause, reach):
        self.cells, self.reach = [answer, command, clause], reach

    def text(self):
        counts = self.reach.lines()
        total = sum(sum(files.values()) for files in counts.values())
        files = "; ".join(f"`{crate}` " + ", ".join(f"{file} {count}" for file, count in some.items() if count) for crate, some in counts.items())
        return "| " + " | ".join([*self.cells, str(total), files]) + " |\n"

    def listed(self):
        """The definitions, each with its file and lines."""
        yield " | ".join(self.cells)
        for definition, parts in sorted(self.reach.parts.items(), key=lambda pair: (pair[0].module.path, pair[1] and pair[1][0].lines[0][0] or 0)):
            numbers = sorted(number for part in parts for number, _ in part.lines)
            if numbers:
                yield f"    crates/{definition.module.path.replace('.', '/')}.antt: {definition.name}: {ranges(numbers)}"
        yield "    types of the code: " + ", ".join(sorted(f"{found.crate}::{found.name}" for found in self.reach.types))


def ranges(numbers):
    """Numbers that ascend, in words: `3-5, 8`."""
    found = []
    for number in numbers:
        if found and found[-1][1] == number - 1:
            found[-1][1] = number
        else:
            found.append([number, number])
    return ", ".join(str(first) if first == last else f"{first}-{last}" for first, last in found)


def rows(contract):
    """The rows: all of the contract, two statements that several answers rest on, and the answers."""
    accepts, none = ("kn_tool.specs.Files", "Accepts"), ("kn_logic.specs.Formulas", "IsUnsatisfiable")
    yield Row("all of `run`", "any", "all", contract.reach(contract.clauses))
    yield Row("the file spells a formula that has no model", "", "`Accepts`, `IsUnsatisfiable`", contract.reach_of(accepts, none))
    yield Row("and the proof that was read is accepted", "", "`Verifies`", contract.reach_of(("kn_tool.specs.Checks", "Verifies")))
    for answer in contract.answers:
        heads = commands_of(contract, "headline", answer)
        for command in heads:
            yield Row(f"`{answer}`", f"`{command}`", "`headline`", contract.reach(["headline"], [answer], [command]))
        if not heads:
            yield told(contract, answer)


def commands_of(contract, clause, answer):
    """The commands of which the clause has a case for the answer."""
    return [command for command in contract.commands if answer in contract.reach([clause], [answer], [command]).explicit]


def told(contract, answer):
    """The row of an answer by the clause `tells`; one that no command has comes to words that ask for none."""
    commands = commands_of(contract, "tells", answer)
    reach = contract.reach(["tells"], [answer], commands)
    if not commands:
        return Row(f"`{answer}`", "none", "`usage`, `tells`", reach.join(contract.reach(["usage"])))
    every = len(commands) == len(contract.commands)
    return Row(f"`{answer}`", "any" if every else ", ".join(f"`{command}`" for command in commands), "`tells`", reach)


def table(contract):
    return HEAD + "".join(row.text() for row in rows(contract))


def kept(page):
    """The part of the page before the table, the table, and what is behind it."""
    at = page.index("\n|", page.index(HEADING)) + 1
    end = re.compile(r"^(?!\|)", re.MULTILINE).search(page, at).start()
    return page[:at], page[at:end], page[end:]


def main(arguments):
    contract = Contract()
    if arguments[:1] == ["--list"]:
        for row in rows(contract):
            if set(arguments[1:]) <= set(re.findall(r"\w+", " ".join(row.cells))):
                print("\n".join(row.listed()))
        return 0
    made, page = table(contract), read(PAGE)
    print(made, end="")
    strange = set(unknown(contract.book, contract.reach(contract.clauses)))
    if strange:
        print("\n".join(f"not found: {line}" for line in sorted(strange)))
        return 1
    before, held, behind = kept(page)
    if arguments == ["--write"]:
        with open(PAGE, "w", encoding="utf-8") as file:
            file.write(before + made + behind)
        return 0
    if held != made:
        print("the table in docs/PROMISES.md is another one: believe.py --write")
    return int(held != made)


if __name__ == "__main__":
    sys.exit(main(sys.argv[1:]))
