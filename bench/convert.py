"""Measures `knf convert`: klauses of 10, 100 and 1,000 literals, with the bound at half and near both ends,
with and without guards, as many as make texts of about 10 and 100 MB. A counter costs in proportion to its
clauses, so the seconds per byte written should stay the same."""

from measure import output_table, temporary

SIZES = (10_000_000, 100_000_000)


def klauses(n, bound, guarded, count):
    """The same klause over n literals, so many times; the guard is a variable of its own."""
    front = b"q %d " % (n + 1) if guarded else b"k "
    line = front + b"%d " % bound + b" ".join(b"%d" % i for i in range(1, n + 1)) + b" 0\n"
    yield b"p knf %d %d\n" % (n + 1, count)
    for _ in range(count):
        yield line


def further_variables(n, bound):
    """How many variables the counter of a klause has, where the bound is above 1 and below n."""
    return (n - 1) * (n - bound)


def clauses(n, bound):
    """How many clauses it has: the first row, those in the middle, and the last."""
    most = n - bound
    return most + (n - 2) * (2 * most + 1) + 1


def problem_line(n, bound, count):
    return b"p cnf %d %d\n" % (n + 1 + count * further_variables(n, bound), count * clauses(n, bound))


def counts(n, bound, guarded):
    """How many klauses make about each of the sizes; a clause takes about 18 bytes."""
    bytes_each = clauses(n, bound) * (18 + guarded * 4)
    return sorted({max(1, size // bytes_each) for size in SIZES})


def rows(n, bound, guarded):
    for count in counts(n, bound, guarded):
        files = [("f.knf", klauses(n, bound, guarded, count))]
        yield f"{count} klauses", files, ["convert", "f.knf"], problem_line(n, bound, count)


def main():
    with temporary() as folder:
        for n in (10, 100, 1_000):
            for bound in (n // 2, 2, n - 1):
                for guarded in (False, True):
                    title = f"klauses of {n} literals, bound {bound}" + ", guarded" * guarded
                    output_table(title, list(rows(n, bound, guarded)), folder)


if __name__ == "__main__":
    main()
