"""Measures how formulas are read: `knf check` with an empty proof, over CNF files of 1, 10 and 100 MB of
random clauses with three literals, files of one long clause, KNF files with klauses, and one of klauses whose
variables collide in a hash table with a fixed seed."""

import random

from colliding import colliding
from measure import table, temporary

VARIABLES = 100_000


def clauses(size, seed=1):
    """About so many bytes of random clauses."""
    draw = random.Random(seed)
    block = []
    for _ in range(10_000):
        block.append(b"%d %d %d 0\n" % tuple(
            draw.choice((1, -1)) * draw.randint(1, VARIABLES) for _ in range(3)
        ))
    text = b"".join(block)
    times = max(1, size // len(text))
    yield b"p cnf %d %d\n" % (VARIABLES, 10_000 * times)
    for _ in range(times):
        yield text


def one_clause(size):
    count = size // 7
    yield b"p cnf %d 1\n" % VARIABLES
    for first in range(0, count, 10_000):
        yield b" ".join(b"%d" % (10_000 + i % 90_000) for i in range(first, min(first + 10_000, count)))
        yield b"\n"
    yield b"0\n"


def klauses(size):
    """Klauses of 100 literals."""
    line = b"k 50 " + b" ".join(b"%d" % i for i in range(1_000, 1_100)) + b" 0\n"
    times = size // len(line)
    yield b"p knf %d %d\n" % (VARIABLES, times)
    for _ in range(times):
        yield line


def colliding_klauses(count=10, literals=100_000):
    """Klauses over variables whose hashes collide."""
    line = b"k 1 " + b" ".join(b"%d" % v for v in colliding(range(1, 1_000_001), literals)) + b" 0\n"
    yield b"p knf 1000000 %d\n" % count
    for _ in range(count):
        yield line


def empty_proof():
    return [b""]


def main():
    words = ["check", "f.cnf", "p.kpf"]
    sizes = (1_000_000, 10_000_000, 100_000_000)
    with temporary() as folder:
        for title, make in (("clauses of 3 literals", clauses), ("one long clause", one_clause), ("klauses of 100 literals", klauses)):
            table(title, [
                (f"{size // 1_000_000} MB", [("f.cnf", make(size)), ("p.kpf", empty_proof())], words)
                for size in sizes
            ], folder, b"c line 0 cause 9")
        table("ten klauses of 100,000 literals that collide", [
            ("6 MB", [("f.cnf", colliding_klauses()), ("p.kpf", empty_proof())], words)
        ], folder, b"c line 0 cause 9")


if __name__ == "__main__":
    main()
