"""Measures propagation, by the test program of `kn_propagate`, which `rt test` in its crate builds. The environment
variable `PROPAGATE_TESTS` names another one. Each load is a pair of tests of `src/tests/load.rt`, which are run
alone: one fills an engine, the other fills it and then makes so many literals true, by decisions by chance and what
follows from them. A test that fails ends the script."""

from alone import Tests

TESTS = Tests("kn_propagate", "PROPAGATE_TESTS")

# the name of a test, what the engine is filled with, and how many literals are made true
LOADS = [
    ("clauses_of_250_variables", "250 variables, 1,065 clauses of 3 literals, 3,000 of 10", 2_000_000),
    ("clauses_of_2000_variables", "2,000 variables, 8,520 clauses of 3 literals, 8,000 of 15", 1_000_000),
    ("clauses_of_20000_variables", "20,000 variables, 85,200 clauses of 3 literals, 40,000 of 20", 500_000),
    ("klauses_of_10_literals", "2,000 variables, 4,000 klauses, at least 5 of 10 literals", 1_000_000),
    ("klauses_of_100_literals", "2,000 variables, 400 klauses, at least 50 of 100 literals", 1_000_000),
    ("klauses_of_1000_literals", "2,000 variables, 40 klauses, at least 500 of 1,000 literals", 1_000_000),
]


def main():
    print(f"{'load':<62} {'literals':>10} {'filling, s':>10} {'running, s':>10} {'million a second':>17}")
    for test, load, literals in LOADS:
        filling = TESTS.least(f"tests::load::{test}_alone")
        running = max(TESTS.least(f"tests::load::{test}") - filling, 1e-6)
        print(f"{load:<62} {literals:>10,} {filling:>10.3f} {running:>10.3f} {literals / running / 1e6:>17.2f}", flush=True)


if __name__ == "__main__":
    main()
