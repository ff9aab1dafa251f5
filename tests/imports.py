#!/usr/bin/env python3
"""The rule on imports: from the proofs of another crate of this repository, a crate imports its module Public alone."""
import pathlib
import re
import sys

top = pathlib.Path(__file__).resolve().parent.parent
crates = [line.split(":")[0] for line in (top / "crates.txt").read_text().splitlines() if ":" in line and not line.startswith("#")]
crates = [name.split()[0] for name in crates]
cited = re.compile(r"\bRattle\.(%s)\.proofs\b(?!\.Public\b)|\b(%s)::proofs\b(?!::Public\b)" % ("|".join(crates), "|".join(crates)))


def strangers(crate):
    """The lines of a crate that cite the inner proofs of another one."""
    for folder in ("src", "specs", "proofs"):
        for path in sorted((top / "crates" / crate / folder).rglob("*")):
            if path.suffix not in (".antt", ".rt"):
                continue
            for number, line in enumerate(path.read_text().splitlines(), 1):
                if any(crate not in found.groups() for found in cited.finditer(line)):
                    yield f"{path.relative_to(top)}:{number}: {line.strip()}"


found = [line for crate in crates for line in strangers(crate)]
for line in found:
    print(line)
print(f"imports: {len(found)} of the inner proofs of another crate")
sys.exit(1 if found else 0)
