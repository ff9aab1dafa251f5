#!/usr/bin/env python3
"""Runs the built program over every example of README and docs, over `examples/`, over files that cannot be read or
written, and over the tools. Its last line is `N passed, M failed`; its status is 1 where a test failed.

The program is `crates/knf/out/knf`, built first where it is not there, or the one that the environment variable `KNF` names."""

import importlib
import os
import sys

from knfcheck import PROGRAM, Tally, build


def main():
    build()
    if not os.path.exists(PROGRAM):
        sys.exit(f"there is no program {PROGRAM}")
    tally = Tally()
    here = os.path.dirname(os.path.abspath(__file__))
    for name in sorted(os.listdir(here)):
        if name.startswith("test_") and name.endswith(".py"):
            importlib.import_module(name[:-3]).tests(tally)
    print(tally.last_line())
    return 1 if tally.failed else 0


if __name__ == "__main__":
    sys.exit(main())
