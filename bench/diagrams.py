"""Measures operations on decision diagrams, by the test program of `kn_diagram`, which `rt test` in its crate
builds. The environment variable `DIAGRAM_TESTS` names another one. Each case is a test of `src/grids.rt`, which
is run alone; a test that fails ends the script."""

from alone import Tests

TESTS = Tests("kn_diagram", "DIAGRAM_TESTS")
SMALL = "tests::calls_on_a_small_diagram"


def below(n, bound):
    """The sum, over the nodes of the grid of "at least `bound` of `n`", of the nodes at and below each."""
    return sum(b * (m - b + 1) for m in range(1, n + 1) for b in range(max(1, bound - n + m), min(bound, m) + 1))


def grids(base):
    print(f"\ngrids of half of n literals, by `and` and `or` (start-up {base * 1000:.1f} ms)")
    print(f"{'n':>6} {'nodes':>8} {'below each':>12} {'seconds':>9} {'us/node':>9} {'ns/below':>9} {'ratio':>7}")
    first = None
    for n in (16, 32, 64, 128):
        nodes, walked = n // 2 * (n - n // 2 + 1), below(n, n // 2)
        net = max(TESTS.least(f"grids::grid_of_{n}_literals") - base, 1e-6)
        first = first or net / nodes
        by_node = net / nodes
        print(f"{n:>6} {nodes:>8} {walked:>12} {net:>9.4f} {by_node * 1e6:>9.2f} {net / walked * 1e9:>9.0f} {by_node / first:>7.2f}", flush=True)


def main():
    grids(TESTS.least(SMALL))


if __name__ == "__main__":
    main()
