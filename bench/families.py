"""Families of formulas by size, as KNF: a number of variables and the constraints, each (guard or None, bound, literals).
`pairs` and `counters.counted` make clauses of klauses, as `knf convert` does, for solvers that know no klauses."""

import random


class Stream:
    """Constraints that are made anew each time they are walked, so that a large formula takes no memory."""

    def __init__(self, count, make):
        self._count = count
        self._make = make

    def __len__(self):
        return self._count

    def __iter__(self):
        return self._make()


def clause(lits):
    return None, 1, lits


def at_least(bound, lits):
    return None, bound, lits


def at_most(bound, lits):
    return None, len(lits) - bound, [-lit for lit in lits]


def signed(draw, variables):
    return [draw.choice((1, -1)) * v for v in variables]


def three_sat(variables, seed=1, ratio=4.26):
    """Random clauses of three literals; at 4.26 clauses a variable both answers are common."""
    draw = random.Random(f"{variables} {seed}")
    count = round(ratio * variables)
    picks = [draw.sample(range(1, variables + 1), 3) for _ in range(count)]
    return variables, [clause(signed(draw, pick)) for pick in picks]


def planted(variables, ratio, seed=1):
    """Random clauses of three literals, of which one at least is true under values that were drawn first."""
    draw = random.Random(f"planted {variables} {seed}")
    hidden = {v if draw.random() < 0.5 else -v for v in range(1, variables + 1)}

    def held():
        while True:
            lits = signed(draw, draw.sample(range(1, variables + 1), 3))
            if any(lit in hidden for lit in lits):
                return clause(lits)

    return variables, [held() for _ in range(round(ratio * variables))]


def twos_and_threes(variables, twos, threes, seed=1):
    """Random clauses of two literals and of three."""
    draw = random.Random(f"{variables} {twos} {threes} {seed}")
    sizes = [2] * twos + [3] * threes
    draw.shuffle(sizes)
    return variables, [clause(signed(draw, draw.sample(range(1, variables + 1), size))) for size in sizes]


def mixed(variables, count, seed=1):
    """Random clauses, klauses and guarded klauses of up to eight literals, with any bound that can hold."""
    draw = random.Random(f"{variables} {count} {seed}")
    return variables, [mixed_constraint(draw, variables) for _ in range(count)]


def mixed_constraint(draw, variables):
    guard, *lits = signed(draw, draw.sample(range(1, variables + 1), draw.randint(4, min(9, variables))))
    kind = draw.choice(("clause", "klause", "guarded"))
    if kind == "clause":
        return clause(lits[:3])
    bound = draw.randint(0, min(len(lits), len(lits) // 2 + 1))
    return guard if kind == "guarded" else None, bound, lits


def pigeons(holes):
    """One pigeon more than holes, no hole takes two: no model."""
    birds = range(holes + 1)
    found = [clause([b * holes + h + 1 for h in range(holes)]) for b in birds]
    found += [at_most(1, [b * holes + h + 1 for b in birds]) for h in range(holes)]
    return (holes + 1) * holes, found


def grid(size):
    """A square with a third of each row and each column true."""
    third = size // 3
    rows = [[r * size + c + 1 for c in range(size)] for r in range(size)]
    lines = rows + [list(column) for column in zip(*rows)]
    return size * size, [c for line in lines for c in (at_least(third, line), at_most(third, line))]


def blocks(count):
    """Blocks of eight variables with a most and a least number of true ones, and a clause between neighbours. In the last
    block the two contradict each other. With counters it is the formula of `knf work`."""
    found = []
    for t in range(1, count + 1):
        block = list(range(8 * t - 7, 8 * t + 1))
        most, least = (3, 4) if t == count else (3 + t % 3, 2 + t % 2)
        found += [at_most(most, block), at_least(least, block)]
    found += [clause([8 * t - 7, -(8 * t + 1)]) for t in range(1, count)]
    return 8 * count, found


def implications(variables):
    """Each variable implies the next."""
    return variables, Stream(variables - 1, lambda: (clause([-i, i + 1]) for i in range(1, variables)))


def chain(variables, has_model=True):
    """Variable 1, and each implies the next; without a model, the last is false besides."""
    def make():
        yield clause([1])
        yield from implications(variables)[1]
        if not has_model:
            yield clause([-variables])

    return variables, Stream(variables + (not has_model), make)


def hub(variables):
    """The last variable with each other one, in both polarities: it is a neighbour of all."""
    def make():
        for i in range(1, variables):
            yield clause([i, variables])
            yield clause([-i, variables])

    return variables, Stream(2 * (variables - 1), make)


def one_clause(variables):
    """One clause with all variables."""
    return variables, [clause(list(range(1, variables + 1)))]


def counts(literals, most, copies):
    """At most so many of each of several lists of other variables."""
    lists = [list(range(c * literals + 1, (c + 1) * literals + 1)) for c in range(copies)]
    return copies * literals, [at_most(most, lits) for lits in lists]


def at_most_one(literals):
    return literals, [at_most(1, list(range(1, literals + 1)))]


def pairs(formula):
    """Each "all but one of these" as clauses of two literals, any other constraint as it is."""
    variables, found = formula
    return variables, [c for constraint in found for c in in_pairs(constraint)]


def in_pairs(constraint):
    guard, bound, lits = constraint
    if guard is not None or bound < 2 or bound != len(lits) - 1:
        return [constraint]
    return [clause([a, b]) for i, a in enumerate(lits) for b in lits[i + 1:]]


def is_cnf(formula):
    """Whether all are clauses."""
    return all(guard is None and bound == 1 for guard, bound, _ in formula[1])


def text(formula):
    """The text: CNF where all are clauses, else KNF."""
    variables, found = formula
    yield b"p %s %d %d\n" % (b"cnf" if is_cnf(formula) else b"knf", variables, len(found))
    for constraint in found:
        yield line(constraint)


def line(constraint):
    guard, bound, lits = constraint
    if (guard, bound) == (None, 1):
        front = []
    else:
        front = [b"k"] if guard is None else [b"q", b"%d" % guard]
        front.append(b"%d" % bound)
    return b" ".join(front + [b"%d" % lit for lit in lits] + [b"0\n"])


def holds(constraint, held):
    guard, bound, lits = constraint
    return (guard is not None and guard not in held) or sum(lit in held for lit in lits) >= bound


def satisfies(formula, literals):
    """Whether no literal is there with its negation, and each constraint holds."""
    held = set(literals)
    return not any(-lit in held for lit in held) and all(holds(c, held) for c in formula[1])


def is_whole(formula, literals):
    """Whether each variable has one literal, in their order."""
    return [abs(lit) for lit in literals] == list(range(1, formula[0] + 1))
