#!/usr/bin/env python3
"""Tells how long each call of the library for C takes, in microseconds.

Run as `bench/library.py [ROWS]` on a quiet machine that has `cc` and the kit; the library is built unless it is current. The ledger has
ROWS rows (100,000), and then takes 20 blocks of 500 transactions, of which each reads two keys and writes two others.
`clients/c/times.c` times the calls: those of a block are a median over the blocks, the others over 1,000 turns. Behind the table
stands what else the machine did.
"""

import pathlib
import subprocess
import sys
import tempfile

import peer
from scratch import TOP, UNDER, Machine

sys.path.append(str(TOP / "clients"))

from archive import archives


def main():
    built = archives()
    with tempfile.TemporaryDirectory() as folder:
        folder = pathlib.Path(folder)
        source, times = TOP / "clients" / "c" / "times.c", folder / "times"
        subprocess.run(["cc", "-O2", "-std=c11", f"-I{TOP / 'include'}", source, *built, "-o", times], check=True)
        blocks = peer.Blocks(folder / "blocks", int(sys.argv[1]) if len(sys.argv) > 1 else 100_000)
        peer.mixed(blocks, 20, 500)
        machine = Machine()
        words = [*UNDER, times, str(blocks.setup), "channel.txt", "keys.txt", *blocks.paths]
        subprocess.run(words, cwd=blocks.folder, check=True)
        print(machine)


if __name__ == "__main__":
    main()
