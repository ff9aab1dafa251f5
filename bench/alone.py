"""Runs one test of a crate alone, by the crate's test program, and measures it."""

import os
import subprocess
import sys


class Tests:
    """The test program of a crate, which `rt test` makes there, or the one that an environment variable names."""

    def __init__(self, crate, variable):
        built = os.path.join(os.path.dirname(__file__), "..", "crates", crate, "out", f"{crate}_tests")
        self._program = os.path.abspath(os.environ.get(variable, built))

    def run(self, test):
        """The seconds of the processor that a test takes, with the program's start. A test that fails ends the script."""
        child = subprocess.Popen([self._program, test], stdout=subprocess.PIPE)
        text = child.stdout.read()
        _, status, usage = os.wait4(child.pid, 0)
        child.returncode = os.waitstatus_to_exitcode(status)
        if child.returncode != 0 or b"test result: ok" not in text or b" 0 passed" in text:
            sys.exit(f"{test}: status {child.returncode}, {text[-200:]!r}")
        return usage.ru_utime + usage.ru_stime

    def least(self, test, tries=3):
        """The least of so many runs."""
        return min(self.run(test) for _ in range(tries))
