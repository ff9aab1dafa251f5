"""Measures `knf trim` over proofs of growing size, of which a half, a tenth and a hundredth of the lines are
needed: a chain of units, each of which is followed by copies that nothing uses. Trimming should cost in
proportion to the proof, so the seconds per byte should stay the same. What it writes is given to `knf check`,
and to `knf trim` again, which gives it back."""

import os

from check import chain
from measure import expect, fastest, remove, run, startup, temporary, write

SIZES = (10_000, 100_000, 1_000_000)
SHARES = (2, 10, 100)


def chain_proof(units, copies):
    """Each unit so many times; the first of them serves for the next unit."""
    yield b"p kpf %d %d\n" % (units, units + 1)
    unit = 1
    for i in range(1, units):
        yield b"r %d 0 %d %d 0\n" % (i + 1, unit, i + 1) * copies
        unit = units + 2 + (i - 1) * copies
    yield b"r 0 %d %d 0\n" % (unit, units + 1)


def seconds(name, words, folder, want):
    """The output, the seconds and the peak memory of a command, whose output begins as wanted."""
    status, text, took, peak = run(words, folder)
    expect(name, status, text, want)
    if took < 1:
        took = min(took, fastest(words, folder, 2)[2])
    return text, took, peak


def row(lines, copies, base, folder):
    units = lines // copies
    files = [("f.cnf", chain(units)), ("p.kpf", chain_proof(units, copies))]
    write(files, folder)
    before = os.path.getsize(os.path.join(folder, "p.kpf"))
    checked = seconds("check", ["check", "f.cnf", "p.kpf"], folder, b"s VERIFIED")[1]
    text, took, peak = seconds("trim", ["trim", "f.cnf", "p.kpf"], folder, b"p kpf %d " % units)
    write([("t.kpf", [text])], folder)
    again = seconds("check again", ["check", "f.cnf", "t.kpf"], folder, b"s VERIFIED")[1]
    seconds("trim again", ["trim", "f.cnf", "t.kpf"], folder, text)
    remove([*files, ("t.kpf", None)], folder)
    net = max(took - base, 1e-6)
    print(f"{lines:>10} {before:>12} {len(text):>12} {took:>9.3f} {net / before * 1e9:>9.1f} {peak / 1e6:>8.1f}"
          f" {checked:>9.3f} {again:>9.3f}", flush=True)


def main():
    with temporary() as folder:
        base = startup(folder)
        for copies in SHARES:
            print(f"\none line in {copies} is needed (start-up {base * 1000:.1f} ms)")
            print(f"{'lines':>10} {'bytes':>12} {'trimmed':>12} {'seconds':>9} {'ns/byte':>9} {'peak MB':>8}"
                  f" {'check':>9} {'check it':>9}")
            for lines in SIZES:
                row(lines, copies, base, folder)


if __name__ == "__main__":
    main()
