#!/usr/bin/env python3
"""Follows a proof that grows: lines, learned clauses and bytes, once a second, until it is interrupted or has the clause
without literals.

    watch.py P [SECONDS]"""

import sys
import time


class Counts:
    """What was read of a proof so far."""

    def __init__(self):
        self.lines = self.learned = self.size = 0
        self.ended = False
        self._rest = b""

    def take(self, piece):
        """Counts whole lines; the last, which may grow, is kept for the next piece."""
        self.size += len(piece)
        *whole, self._rest = (self._rest + piece).split(b"\n")
        self.lines += len(whole)
        for line in whole:
            words = line.split()
            if words[:1] == [b"l"]:
                self.learned += 1
            if words[:2] in ([b"l", b"0"], [b"r", b"0"]):
                self.ended = True


def follow(name, pause):
    counts = Counts()
    with open(name, "rb") as file:
        while True:
            before, begun = counts.learned, time.monotonic()
            while piece := file.read(1 << 20):
                counts.take(piece)
            time.sleep(pause)
            passed = time.monotonic() - begun
            rate = (counts.learned - before) / passed
            print(f"{counts.lines:>12} lines {counts.learned:>12} learned {rate:>10.0f} a second {counts.size:>14} bytes", flush=True)
            if counts.ended:
                return


def main(arguments):
    if arguments in (["-h"], ["--help"]):
        print(__doc__)
        return
    if not 1 <= len(arguments) <= 2:
        sys.exit("usage: watch.py P [SECONDS]")
    try:
        follow(arguments[0], float(arguments[1]) if len(arguments) == 2 else 1.0)
    except KeyboardInterrupt:
        print()


if __name__ == "__main__":
    main(sys.argv[1:])
