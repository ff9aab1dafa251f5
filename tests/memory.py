#!/usr/bin/env python3
"""Refuses each request of the program for memory, one after the other: in one run only that request, in another that one and all
behind it. Every run has to end as with ample memory, or with status 5 and nothing on standard output; and a proof that was begun is
the first part of the one that is written with ample memory. It takes about a minute, so `tests/run.py` does not call it. Linux, with a
C compiler `cc`.

    memory.py [ROW]     all rows, or those whose name has this word"""

import os
import subprocess
import sys

from knfcheck import PROGRAM, Folder, build

REFUSING = """
#define _GNU_SOURCE
#include <dlfcn.h>
#include <errno.h>
#include <fcntl.h>
#include <stdlib.h>
#include <unistd.h>
static long seen, refused, more;
static void *(*first)(size_t), *(*again)(void *, size_t);
__attribute__((constructor)) static void start(void) {
    first = (void *(*)(size_t)) dlsym(RTLD_NEXT, "malloc");
    again = (void *(*)(void *, size_t)) dlsym(RTLD_NEXT, "realloc");
    const char *number = getenv("REFUSE"), *all = getenv("REFUSE_ALL");
    refused = number ? atol(number) : 0;
    more = all != 0;
    seen = 0;
}
static int refuses(void) {
    seen++;
    if (refused == 0 || seen < refused || (seen > refused && !more)) return 0;
    int told = open(getenv("REFUSED"), O_CREAT | O_WRONLY, 0600);
    if (told >= 0) close(told);
    errno = ENOMEM;
    return 1;
}
void *malloc(size_t size) { if (!first) start(); return refuses() ? 0 : first(size); }
void *realloc(void *old, size_t size) { if (!again) start(); return refuses() ? 0 : again(old, size); }
"""
HIDDEN = "p cnf 5 6\n1 2 3 0\n-1 4 0\n-4 5 0\n-2 5 0\n-2 -4 0\n-3 -5 0\n"
PAIRS = "p cnf 4 7\n-1 -2 0\n-1 -3 0\n-1 -4 0\n-2 -3 0\n-2 -4 0\n-3 -4 0\n1 2 3 4 0\n"
KLAUSES = "p knf 3 2\nk 2 1 2 3 0\nk 2 -1 -2 -3 0\n"
PROOF = "p kpf 3 2\nd 3 T F\nd 2 4 F\nd 2 T 4\nd 1 6 5\ng 1 7\nr 1 0 1 2 0\nr 2 0 1 2 0\nx 19 0\nr 0 20 21 2 0\n"
WRONG = "p kpf 3 2\nd 3 T F\nr 0 1 2 0\n"


def pigeons(holes):
    """One pigeon more than holes, as klauses."""
    birds = range(holes + 1)
    lines = [" ".join(str(b * holes + h + 1) for h in range(holes)) + " 0" for b in birds]
    lines += [f"k {holes} " + " ".join(str(-(b * holes + h + 1)) for b in birds) + " 0" for h in range(holes)]
    return f"p knf {(holes + 1) * holes} {len(lines)}\n" + "\n".join(lines) + "\n"


ROWS = (
    ("check, accepted", ["check", "f", "p"], KLAUSES, PROOF),
    ("check, wrong", ["check", "f", "p"], KLAUSES, WRONG),
    ("check, refused", ["check", "f", "p"], "p knf 2 1\nk 2 1 -1 0\n", PROOF),
    ("solve, a model", ["solve", "f", "q"], HIDDEN, ""),
    ("solve, none", ["solve", "f", "q"], KLAUSES, ""),
    ("solve, pigeons", ["solve", "f", "q", "--forget", "5"], pigeons(4), ""),
    ("solve, spent", ["solve", "f", "q", "--conflicts", "3"], pigeons(4), ""),
    ("extract, a counter", ["extract", "f"], HIDDEN, ""),
    ("extract, pairs", ["extract", "f"], PAIRS, ""),
    ("convert", ["convert", "f"], KLAUSES, ""),
    ("trim", ["trim", "f", "p"], KLAUSES, PROOF),
)


class Row:
    """A command over two files, in a folder with the library that refuses."""

    def __init__(self, words, folder):
        self._words, self._folder = words, folder
        self.unmoved = 0

    def run(self, number=0, more=False):
        """Status, standard output, the proof that was written, and whether a request was refused."""
        given = {"LD_PRELOAD": self._folder.at("refusing.so"), "REFUSE": str(number), "REFUSED": self._folder.at("refused")}
        if more:
            given["REFUSE_ALL"] = "1"
        for name in ("q", "refused"):
            if os.path.exists(self._folder.at(name)):
                os.remove(self._folder.at(name))
        done = subprocess.run([PROGRAM, *self._words], cwd=self._folder.path, env=given, capture_output=True, timeout=60, check=False)
        proof = self._folder.read("q") if os.path.exists(self._folder.at("q")) else ""
        return done.returncode, done.stdout.decode("ascii"), proof, os.path.exists(self._folder.at("refused"))

    def fault(self, ample, number, more):
        """What is wrong with a run, nothing where all is right; none where no request was refused."""
        status, said, proof, refused = self.run(number, more)
        if not refused:
            return None
        if (status, said, proof) == ample:
            self.unmoved += 1
            return ""
        if (status, said) != (5, ""):
            return f"status {status}, {said[:60]!r}"
        return "" if ample[2].startswith(proof) else f"the proof {proof[-60:]!r} is no first part"


def measure(name, row):
    """Refuses each request of a row, and gives the number of faults."""
    ample = row.run()[:3]
    requests, faults = 0, 0
    for more in (False, True):
        number, fault = 1, ""
        while (fault := row.fault(ample, number, more)) is not None:
            faults += fault != ""
            if fault:
                print(f"{name}: request {number}{' and all behind it' * more}: {fault}")
            number += 1
        requests = number - 1
    print(f"{name}: status {ample[0]}, {requests} requests, {row.unmoved} refused in vain, {faults} faults", flush=True)
    return faults


def main():
    build()
    faults = 0
    with Folder() as folder:
        folder.write("refusing.c", REFUSING)
        words = ["cc", "-shared", "-fPIC", "-O1", "-o", "refusing.so", "refusing.c", "-ldl"]
        subprocess.run(words, cwd=folder.path, check=True)
        for name, words, formula, proof in ROWS:
            if len(sys.argv) < 2 or sys.argv[1] in name:
                folder.write("f", formula)
                folder.write("p", proof)
                faults += measure(name, Row(words, folder))
    return 1 if faults else 0


if __name__ == "__main__":
    sys.exit(main())
