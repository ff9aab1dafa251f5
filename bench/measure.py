"""Runs the built program and measures it. Seconds are those of the processor, in the program and in the
system for it, so that other work on the machine changes them little. The environment variable `KNF` names
another program to measure."""

import math
import os
import resource
import subprocess
import sys
import tempfile

BUILT = os.path.join(os.path.dirname(__file__), "..", "crates", "knf", "out", "knf")
PROGRAM = os.path.abspath(os.environ.get("KNF", BUILT))


def run(words, folder):
    """The status, the text on standard output, the seconds and the peak memory in bytes of one run."""
    return spend([PROGRAM, *words], folder)


def spend(words, folder, limit=None, errors=None):
    """The same of any program, which is stopped once it has taken so many seconds of the processor."""
    with open(os.path.join(folder, "out.txt"), "wb") as out:
        child = subprocess.Popen(words, stdout=out, stderr=errors, cwd=folder, preexec_fn=lambda: stop_after(limit))
        _, status, usage = os.wait4(child.pid, 0)
        child.returncode = os.waitstatus_to_exitcode(status)
    with open(os.path.join(folder, "out.txt"), "rb") as out:
        text = out.read()
    return child.returncode, text, usage.ru_utime + usage.ru_stime, usage.ru_maxrss * 1024


def stop_after(limit):
    """Bounds the seconds of the processor of this process, in whole seconds; where it is stopped, no core is written."""
    if limit is not None:
        resource.setrlimit(resource.RLIMIT_CORE, (0, 0))
        resource.setrlimit(resource.RLIMIT_CPU, (math.ceil(limit), math.ceil(limit) + 1))


def startup(folder):
    """The seconds that a run takes that does nothing: the least of five."""
    return min(run([], folder)[2] for _ in range(5))


def fastest(words, folder, tries):
    """Of so many runs the one that took the fewest seconds."""
    return min((run(words, folder) for _ in range(tries)), key=lambda t: t[2])


def write(files, folder):
    """Writes a list of (file name, text) and gives the number of bytes."""
    size = 0
    for file, text in files:
        path = os.path.join(folder, file)
        with open(path, "wb") as out:
            for piece in text:
                out.write(piece)
        size += os.path.getsize(path)
    return size


def remove(files, folder):
    for file, _ in files:
        os.remove(os.path.join(folder, file))


def table(title, rows, folder, want):
    """Measures rows of a name, a list of (file name, text) and words, and prints them with the ratios of
    seconds per byte of these files to the first row's. Each output has to begin with `want`."""
    tabulate(title, [(*row, want) for row in rows], folder, lambda read, text: read)


def output_table(title, rows, folder):
    """The same, of the bytes that are written. A row has its own beginning of the output at its end."""
    tabulate(title, rows, folder, lambda read, text: len(text))


def tabulate(title, rows, folder, counted):
    """`counted` gives the bytes of a row from the size of its files and its output."""
    base = startup(folder)
    print(f"\n{title} (start-up {base * 1000:.1f} ms)")
    print(f"{'case':>28} {'bytes':>12} {'seconds':>9} {'MB/s':>8} {'peak MB':>8} {'per byte':>9}")
    first = None
    for name, files, words, want in rows:
        read = write(files, folder)
        status, text, seconds, peak = run(words, folder)
        expect(name, status, text, want)
        size = counted(read, text)
        if size < 20_000_000:
            seconds = min(seconds, fastest(words, folder, 2)[2])
        net = max(seconds - base, 1e-6)
        first = first or net / size
        ratio = net / size / first
        print(f"{name:>28} {size:>12} {seconds:>9.3f} {size / net / 1e6:>8.1f} {peak / 1e6:>8.1f} {ratio:>9.2f}", flush=True)
        remove(files, folder)


def expect(name, status, text, want):
    """Ends the script where the output does not begin with what is wanted."""
    if not text.startswith(want):
        sys.exit(f"{name}: status {status}, {text[:200]!r} in place of {want!r}")


def temporary():
    """A temporary folder, removed at the end."""
    return tempfile.TemporaryDirectory(prefix="knf-bench-")


def asks(words, folder):
    """Ends the script where the program does not know the first of these words: it answers the usage line."""
    status, text, _, _ = run(words, folder)
    if status == 2 and text.startswith(b"c usage"):
        sys.exit(f"this program has no command `{words[0]}`")
