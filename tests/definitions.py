"""Reads the definitions of `specs/`: their parts, line by line, and what each part names. A part is the head of a definition, an equation, a
field, or a constructor; comments and blank lines are no lines of it."""

import os
import re

from knfcheck import TOP

PIECE = re.compile(r'"[^"]*"|[(){}\[\];,]|[^\s(){}\[\];,"]+')
SIGNATURE = re.compile(r"(?:(?:abbrev|unfoldable|pub) )*(\S+) :(?: |$)")
MEMBER = re.compile(r"(?:pub )?(\S+) :(?: |$)")
BLOCK = re.compile(r"(?:pub )?(record|data) (\S+)")
USE = re.compile(r"(?:pub )?use Rattle\.([\w.]+?)(?:\.\{(.*)\}| as (\S+))?$", re.DOTALL)
OPENING, CLOSING = "({[", ")}]"


class Part:
    """Some lines of a definition, each (number, text)."""

    def __init__(self, kind, lines):
        self.kind, self.lines = kind, lines
        self.text = "\n".join(text for _, text in lines)
        self.words = [word for word in PIECE.findall(self.text) if not word.startswith('"')]


class Definition:
    """A name of a file of definitions, and its parts."""

    def __init__(self, module, name, kind):
        self.module, self.name, self.kind = module, name, kind
        self.parts = []

    def add(self, kind, lines):
        self.parts.append(Part(kind, lines))

    def members(self):
        """The names of its fields or constructors, each with its part."""
        return [(MEMBER.match(part.lines[0][1].strip()).group(1), part) for part in self.parts if part.kind == "member"]


class Type:
    """A type of the code whose value definitions name, by its crate and name."""

    def __init__(self, crate, name):
        self.crate, self.name = crate, name

    def __eq__(self, other):
        return isinstance(other, Type) and (self.crate, self.name) == (other.crate, other.name)

    def __hash__(self):
        return hash((self.crate, self.name))


def code_of(line):
    """A line without its comment; `--` within a string begins none."""
    kept, inside = "", False
    for at, letter in enumerate(line):
        inside ^= letter == '"'
        if not inside and line.startswith("--", at) and (at == 0 or line[at - 1].isspace()):
            break
        kept += letter
    return kept.rstrip()


def items(lines):
    """Lists of lines: one that begins at the margin, and those behind it that do not, or that close it."""
    held = []
    for number, text in lines:
        if held and not text[0].isspace() and text[0] not in CLOSING:
            yield held
            held = []
        held.append((number, text))
    if held:
        yield held


def entries(lines):
    """The fields or constructors below the head of a block, each with the lines that go on with it."""
    held = []
    for number, text in lines:
        if held and not text.startswith("   "):
            yield held
            held = []
        held.append((number, text))
    if held:
        yield held


class Module:
    """A file of definitions: its own, and what it imports, by name and by the front of a name."""

    def __init__(self, path, text):
        self.path = path
        self.own, self.members, self.imported, self.fronts = {}, {}, {}, {}
        self._last = None
        lines = [(number, code_of(line)) for number, line in enumerate(text.split("\n"), 1)]
        for item in items([(number, line) for number, line in lines if line]):
            self._take(item)

    def _take(self, item):
        first = item[0][1]
        if USE.match(joined(item)):
            self.use(joined(item))
        elif block := BLOCK.match(first):
            self._block(block.group(1), block.group(2), item)
        elif found := SIGNATURE.match(first):
            self._begin(found.group(1), "function").add("head", item)
        elif first.startswith("infix"):
            self._begin(first.split()[-1], "function").add("head", item)
        elif not first.startswith(("pub mod ", "mod ")):
            self._last.add("equation", item)

    def use(self, text):
        """Takes an import in."""
        module, names, front = USE.match(text).groups()
        if names is None:
            self.fronts[front or module.rsplit(".", 1)[-1]] = module
            return
        for name in names.split(","):
            name, _, other = name.strip().partition(" as ")
            self.imported[other or name] = (module, name)

    def _begin(self, name, kind):
        self._last = self.own.setdefault(name, Definition(self, name, kind))
        return self._last

    def _block(self, kind, name, item):
        """A record or a data type; a head may go on over further lines, up to the one that ends with `where`."""
        at = next(at for at, (_, text) in enumerate(item) if text.endswith("where")) + 1
        made = self._begin(name, kind)
        made.add("head", item[:at])
        for entry in entries(item[at:]):
            made.add("member", entry)
        if kind == "data":
            for member, _ in made.members():
                self.members[member] = made


def joined(item):
    return " ".join(text.strip() for _, text in item)


class Book:
    """All files of definitions, read when they are asked for."""

    def __init__(self):
        self._modules = {}

    def module(self, path):
        """The module of a path such as `kn_logic.specs.Literals`."""
        if path not in self._modules:
            with open(os.path.join(TOP, "crates", *path.split(".")) + ".antt", encoding="utf-8") as file:
                self._modules[path] = Module(path, file.read())
        return self._modules[path]

    def in_module(self, path, name):
        """What a name of a module stands for: a definition or a type of the code, and the constructor's name where it is one; nothing
        where it is one of a library."""
        parts = path.split(".")
        if not os.path.isdir(os.path.join(TOP, "crates", parts[0])):
            return None
        if "declared" in parts:
            owner = parts[-2] if parts[-1] == "TheVariants" else parts[-1]
            return Type(parts[0], owner), name if parts[-1] == "TheVariants" else None
        return self.in_scope(self.module(path), name)

    def in_scope(self, module, name):
        """The same of a name as a module uses it. Raises KeyError where it has none."""
        if name in module.own:
            return module.own[name], None
        if name in module.members:
            return module.members[name], name
        front, _, rest = name.partition(".")
        if rest and front in module.fronts:
            return self.in_module(module.fronts[front], rest.split(".")[0])
        name = name if name in module.imported else front
        if name in module.own:
            return module.own[name], None
        path, other = module.imported[name]
        return self.in_module(path, other)
