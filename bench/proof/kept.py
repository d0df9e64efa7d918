#!/usr/bin/env python3
"""Which functions of a crate are dear to prove: what a check kept of each, in MB, the largest first.

kept.py CRATE [COUNT]: reads crates/CRATE/out/incremental, which `rt check` fills, with `--test` for its tests too, and tells the
COUNT (30) largest. A function keeps about a megabyte for each processor second of its proof, on any machine and beside anything;
one that keeps ten is worth another form (docs/proving.md). What is gone from the sources stays listed until the folder is removed.
"""

import collections
import pathlib
import re
import sys

CRATES = pathlib.Path(__file__).resolve().parent.parent.parent / "crates"
# The modules that a check makes of each function, under its name.
PARTS = {"Code", "Kinds", "Layout", "Lts", "Met", "Named", "Proof", "Reads", "Statement", "Symbol", "TheLink", "Tie", "View"}


def function_of(file):
    """The function whose module the file keeps, or none: one by the declarations of another file is left out."""
    found = re.fullmatch(r"Rattle-\w+-proofs\.(.+)\.oantt", file.name)
    if not found or found[1].endswith(".decls"):
        return None
    words = found[1].split(".")
    while words and (words[-1] in PARTS or words[-1] == "Mir"):
        words.pop()
    return ".".join(words)


def main():
    crate, count = sys.argv[1], int((sys.argv[2:] or ["30"])[0])
    kept = collections.Counter()
    for file in (CRATES / crate / "out/incremental").rglob("*.oantt"):
        function = function_of(file)
        if function:
            kept[function] += file.stat().st_size
    print(f"{crate}: {sum(kept.values()) / 1e6:.0f} MB")
    for function, size in kept.most_common(count):
        print(f"{size / 1e6:8.2f} {function}")


if __name__ == "__main__":
    main()
