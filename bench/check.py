"""Measures `knf check` over proofs of growing size: chains of units, long clauses, many lines over many
variables, deletions. A line should cost in proportion to its own length and that of its hints'
constraints, so the seconds per byte should stay the same. Grids: a line that looks at the grid of a klause
should cost in proportion to its number of literals times its bound, however the arms are shared, and where it does not
stand too. Definitions: what each takes of memory, and that it makes no difference whether a hash table would have
been slow with their numbers."""

import random

from colliding import colliding
from measure import expect, fastest, remove, run, startup, table, tabulate, temporary, write


def chain(n):
    """1, and each variable implies the next, up to -n; each unit is a lemma of its own."""
    yield b"p cnf %d %d\n1 0\n" % (n, n + 1)
    for i in range(1, n):
        yield b"-%d %d 0\n" % (i, i + 1)
    yield b"-%d 0\n" % n


def chain_proof(n):
    yield b"p kpf %d %d\n" % (n, n + 1)
    unit = 1
    for i in range(1, n):
        yield b"r %d 0 %d %d 0\n" % (i + 1, unit, i + 1)
        unit = n + 1 + i
    yield b"r 0 %d %d 0\n" % (unit, n + 1)


def long_clause(n):
    """A clause of n literals, and the negation of each."""
    yield b"p cnf %d %d\n" % (n, n + 1)
    yield b" ".join(b"%d" % i for i in range(1, n + 1)) + b" 0\n"
    for i in range(1, n + 1):
        yield b"-%d 0\n" % i


def long_clause_proof(n):
    """Ten times a clause of half the literals, then the clause without literals."""
    yield b"p kpf %d %d\n" % (n, n + 1)
    half = n // 2
    lits = b" ".join(b"%d" % i for i in range(1, half + 1))
    hints = b" ".join(b"%d" % (i + 1) for i in range(half + 1, n + 1))
    for _ in range(10):
        yield b"r " + lits + b" 0 " + hints + b" 1 0\n"
    yield b"r 0 " + b" ".join(b"%d" % (i + 1) for i in range(1, n + 1)) + b" 1 0\n"


def short_lines(vars):
    yield b"p cnf %d 3\n1 2 0\n1 -2 0\n-1 0\n" % vars


def short_lines_proof(vars, lines):
    yield b"p kpf %d 3\n" % vars
    for _ in range(lines):
        yield b"r 1 0 1 2 0\n"
    yield b"r 0 4 3 0\n"


def deletions_proof(vars, lines):
    yield b"p kpf %d 3\n" % vars
    yield b"r 1 0 1 2 0\n"
    for i in range(lines):
        yield b"r 1 0 1 2 0\nx %d 0\n" % (5 + i)
    yield b"r 0 4 3 0\n"


def klause_words(n, bound):
    return b"k %d " % bound + b" ".join(b"%d" % i for i in range(1, n + 1)) + b" 0"


def contrary(n, bound):
    """So many literals are false that the klause "at least `bound` of 1 to n" cannot hold."""
    return [b"-%d 0\n" % i for i in range(1, n - bound + 2)]


def grid_formula(n, bound):
    units = contrary(n, bound)
    yield b"p knf %d %d\n" % (n, 1 + len(units))
    yield klause_words(n, bound) + b"\n"
    yield from units


def definitions(n, bound, copies, above=0):
    """The lines that define the nodes that the root (1, bound) leads to, from those of the last literal on, each
    so many times. Where a node is there more than once, arms are drawn from all that stand for it, and half
    of the lines test the literal's negation. Literals up to `above` are left out. Gives the lines, and the variables
    of the last nodes by their counts."""
    draw = random.Random(n * bound)
    lines, here, variable = [], {}, n
    for i in range(n, above, -1):
        below, here = here, {}
        for j in range(max(1, bound - i + 1), min(bound, n - i + 1) + 1):
            here[j] = range(variable + 1, variable + 1 + copies)
            variable += copies
            for _ in range(copies):
                arms = arm(draw, below, n - i, j - 1), arm(draw, below, n - i, j)
                negative = copies > 1 and draw.random() < 0.5
                lines.append(b"d -%d %s %s\n" % (i, *arms[::-1]) if negative else b"d %d %s %s\n" % (i, *arms))
    return lines, here


def arm(draw, below, left, j):
    """What stands for "at least j of the literals that are left"."""
    if j == 0:
        return b"T"
    return b"F" if j > left else b"%d" % draw.choice(below[j])


def grid_proof(n, bound, lines, root, unfoldings, klauses):
    """The root's unit clause by `g`, the klause again by `k`, each so many times, and the clause without literals
    from the klause that `k` gave and its contrary."""
    file = 1 + len(contrary(n, bound))
    unit = file + 4 * len(lines) + 1
    yield b"p kpf %d %d\n" % (n, file)
    yield from lines
    yield b"g 1 %d\n" % root * unfoldings
    yield (klause_words(n, bound) + b" %d %d\n" % (root, unit)) * klauses
    yield b"r 0 " + b" ".join(b"%d" % (i + 1) for i in range(1, file)) + b" %d 0\n" % (unit + unfoldings)


def grid_seconds(files, folder, name):
    """The seconds of a check that accepts, and its peak memory."""
    write(files, folder)
    status, text, seconds, peak = fastest(["check", "f.knf", "p.kpf"], folder, 3)
    expect(name, status, text, b"s VERIFIED")
    remove(files, folder)
    return seconds, peak


def grid_row(n, bound, copies, base, folder):
    name = f"n = {n}, b = {bound}" + f", {copies} copies" * (copies > 1)
    lines, nodes = definitions(n, bound, copies)
    root = nodes[bound][0]
    more = max(4, min(20_000, 4_000_000 // len(lines)))

    def took(unfoldings, klauses):
        proof = grid_proof(n, bound, lines, root, unfoldings, klauses)
        return grid_seconds([("f.knf", grid_formula(n, bound)), ("p.kpf", proof)], folder, name)

    def line(seconds):
        each = (seconds - once) / more
        return f"{each * 1e6:>9.1f} {each / n / bound * 1e9:>7.1f} {each / len(lines) * 1e9:>7.1f}"

    once, peak = took(1, 1)
    definition = (once - base) / len(lines)
    print(f"{name:>28} {len(lines):>8} {definition * 1e6:>7.2f} {peak / 1e6:>8.1f} {line(took(1 + more, 1)[0])}"
          f" {line(took(1, 1 + more)[0])}", flush=True)


def grid_table(title, rows, folder):
    """Rows of the number of literals n, the bound b, and how often each node is defined. Seconds are told of a
    definition, and of a line `g` and a line `k`: in millionths, and in billionths by n * b and by the number of
    definitions."""
    base = startup(folder)
    print(f"\n{title} (start-up {base * 1000:.1f} ms)")
    print(f"{'case':>28} {'d lines':>8} {'us a d':>7} {'peak MB':>8} {'us a g':>9} {'ns / nb':>7} {'ns / d':>7}"
          f" {'us a k':>9} {'ns / nb':>7} {'ns / d':>7}")
    for n, bound, copies in rows:
        grid_row(n, bound, copies, base, folder)


def lines_alone(vars, lines):
    """These lines, and the clause without literals from two units."""
    yield b"p kpf %d 2\n" % vars
    yield from lines
    yield b"r 0 1 2 0\n"


def two_units(vars):
    yield b"p cnf %d 2\n1 0\n-1 0\n" % vars


def alike(count):
    """Lines that define so many variables in the same way."""
    block = b"d 1 1 1\n" * 1024
    for _ in range(count // 1024):
        yield block


def memory_table(folder):
    base, least = startup(folder), run([], folder)[3]
    print(f"\ndefinitions `d 1 1 1` (start-up {base * 1000:.1f} ms, {least / 1e6:.1f} MB)")
    print(f"{'d lines':>10} {'bytes':>10} {'seconds':>9} {'us a d':>7} {'peak MB':>8} {'bytes a d':>10} {'a byte':>7}")
    for count in (2**17, 2**18, 2**19, 2**20):
        files = [("f.cnf", two_units(1)), ("p.kpf", lines_alone(1, alike(count)))]
        size = write(files, folder)
        status, text, seconds, peak = fastest(["check", "f.cnf", "p.kpf"], folder, 3)
        expect(f"{count} definitions", status, text, b"s VERIFIED")
        remove(files, folder)
        print(f"{count:>10} {size:>10} {seconds:>9.3f} {(seconds - base) / count * 1e6:>7.2f} {peak / 1e6:>8.1f}"
              f" {peak / count:>10.1f} {peak / size:>7.1f}", flush=True)


def same_arms(n, ends):
    """Definitions of a chain, each with both arms the next: each would have to stand for two nodes of a level. With `ends`
    a klause by it, "at least half of n literals", which does not stand."""
    yield b"p kpf %d 2\n" % n
    arm = b"T"
    for i in range(n, 0, -1):
        yield b"d %d %s %s\n" % (i, arm, arm)
        arm = b"%d" % (2 * n - i + 1)
    yield klause_words(n, n // 2) + b" %d 1\n" % (2 * n) if ends else b"r 0 1 2 0\n"


def same_arms_rows(ends, want):
    for n in (250, 1_000, 10_000, 100_000, 1_000_000):
        files = [("f.cnf", two_units(n)), ("p.kpf", same_arms(n, ends))]
        yield f"n = {n}", files, ["check", "f.cnf", "p.kpf"], want(n)


def drawn(choices, count, front=()):
    """So many of the choices, by chance."""
    return random.Random(count).sample(choices, count)


def definitions_by(choose):
    """200,000 definitions "1 or v" over variables v that were chosen, with which a table by what is defined would be slow."""
    return (b"d 1 T %d\n" % v for v in choose(range(1, 1_000_001), 200_000, (1, 0, 0, 2)))


def wide_levels(choose, n=40, bound=20, depth=17, spare=2**19):
    """Definitions for "at least 20 of 40" that are a tree down to level 17: the variables of this level, 2^16 of them, are
    chosen among 2^19 that are defined. Gives the lines and the variable of the root."""
    lines, below = definitions(n, bound, 1, depth)
    first = n + len(lines) + 1
    level = choose(range(first, first + spare), 2 ** (depth - 1))
    counts = {variable: bound - place.bit_count() for place, variable in enumerate(level)}
    for variable in range(first, first + spare):
        count = counts.get(variable, bound)
        lines.append(b"d %d %d %d\n" % (depth, below[count - 1][0], below[count][0]))
    for i in range(depth - 1, 0, -1):
        lines += [b"d %d %d %d\n" % (i, high, low) for low, high in zip(level[::2], level[1::2])]
        last = n + len(lines)
        level = range(last - len(level) // 2 + 1, last + 1)
    return lines, level[0]


def wide_grid(choose):
    lines, root = wide_levels(choose)
    return [("f.knf", grid_formula(40, 20)), ("p.kpf", grid_proof(40, 20, lines, root, 1, 1))]


def choice_rows(make):
    for name, choose in (("drawn by chance", drawn), ("that collide", colliding)):
        yield name, make(choose)


def read_size(read, _text):
    return read


def main():
    words = ["check", "f.cnf", "p.kpf"]
    with temporary() as folder:
        table("chain of units", [
            (f"n = {n}", [("f.cnf", chain(n)), ("p.kpf", chain_proof(n))], words)
            for n in (1_000, 10_000, 100_000, 300_000)
        ], folder, b"s VERIFIED")
        table("long clauses", [
            (f"n = {n}", [("f.cnf", long_clause(n)), ("p.kpf", long_clause_proof(n))], words)
            for n in (1_000, 10_000, 100_000, 300_000)
        ], folder, b"s VERIFIED")
        table("10,000 lines over many variables", [
            (f"{v} variables", [("f.cnf", short_lines(v)), ("p.kpf", short_lines_proof(v, 10_000))], words)
            for v in (10, 1_000, 100_000, 1_000_000)
        ], folder, b"s VERIFIED")
        table("many lines", [
            (f"{n} lines", [("f.cnf", short_lines(10)), ("p.kpf", short_lines_proof(10, n))], words)
            for n in (10_000, 100_000, 1_000_000)
        ], folder, b"s VERIFIED")
        table("deletions", [
            (f"{n} lemmas", [("f.cnf", short_lines(10)), ("p.kpf", deletions_proof(10, n))], words)
            for n in (10_000, 100_000, 1_000_000)
        ], folder, b"s VERIFIED")
        sizes = (16, 64, 256, 1_000)
        grid_table("grids, the bound half the literals", [(n, n // 2, 1) for n in sizes], folder)
        grid_table("grids, bound 3", [(n, 3, 1) for n in sizes], folder)
        grid_table("grids, the bound near the literals", [(n, n - 2, 1) for n in sizes], folder)
        grid_table("grids with nodes defined more than once", [(64, 32, copies) for copies in (1, 2, 8, 64)], folder)
        memory_table(folder)
        tabulate("definitions with both arms alike", [
            *same_arms_rows(False, lambda n: b"s VERIFIED")
        ], folder, read_size)
        tabulate("the same, and a klause by them that does not stand", [
            *same_arms_rows(True, lambda n: b"c line %d cause 7\n" % (n + 2))
        ], folder, read_size)
        table("200,000 definitions over variables", [
            (name, [("f.cnf", two_units(1_000_000)), ("p.kpf", lines_alone(1_000_000, lines))], words)
            for name, lines in choice_rows(definitions_by)
        ], folder, b"s VERIFIED")
        table("levels of up to 65,536 variables", [
            (name, files, ["check", "f.knf", "p.kpf"]) for name, files in choice_rows(wide_grid)
        ], folder, b"s VERIFIED")


if __name__ == "__main__":
    main()
