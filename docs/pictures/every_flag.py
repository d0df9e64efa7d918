#!/usr/bin/env python3
"""Draws the conflicts of the sample's last block, `every_flag`, in every_flag.svg beside it, by Graphviz (Debian's graphviz).

The graph is what `fabcommit explain --dot` prints, which tests compare with the one from `vectors/drawing.py` that is drawn here.
"""

import pathlib
import subprocess
import sys

sys.dont_write_bytecode = True
HERE = pathlib.Path(__file__).resolve().parent
TOP = HERE.parent.parent
sys.path.append(str(TOP / "vectors"))

import sample
from drawing import drawn
from explaining import explained


def graph():
    for title, _, block, world in sample.blocks(TOP / "crates/fabcommit/data"):
        if title == "every_flag":
            return drawn(len(world.blocks), explained(world, block)[1:])


def main():
    picture = subprocess.run(["dot", "-Tsvg"], input=graph().encode(), capture_output=True, check=True).stdout
    (HERE / "every_flag.svg").write_bytes(picture)


if __name__ == "__main__":
    main()
