#!/usr/bin/env python3
"""Measures a change before it is proved: the table of `peer.py --beside`, of two programs that are built from sources alone.

Run as `bench/unproved.py --beside FOLDER [WORKLOAD ..]` from anywhere, on a quiet machine with four cores that has the kit. FOLDER is
another checkout of this repository; neither needs a built library. `peer.py` tells the workloads and the table.

Each is built as the launcher builds a quick program (`launch/quick.py`), in a minute or two. Such a program is about as fast as the
proved one, but not the same, so it is compared with another such alone; what is told of a change is measured of proved programs.
"""

import argparse
import importlib.util
import pathlib
import shutil
import sys
import tempfile

import peer
import scratch

sys.path.append(str(scratch.TOP / "launch"))

import quick
from processes import Running


def peer_of(top):
    """`peer.py` of a checkout, whose program calls that one's crates."""
    found = importlib.util.spec_from_file_location("peer_of_checkout", pathlib.Path(top) / "bench" / "peer.py")
    module = importlib.util.module_from_spec(found)
    found.loader.exec_module(module)
    return module


def program_of(top, folder, has_frames=False):
    """The path of `peer.py`'s program over the crates of a checkout, which nothing proved."""
    crates, work, its = folder / "crates", folder / "work", peer_of(top)
    work.mkdir(parents=True)
    scratch.TOP = pathlib.Path(top)
    needed = scratch.needed_lines(its.CRATES)
    (folder / "crates.txt").write_text("\n".join([*needed.values(), f"peer: {' '.join([*needed, 'anyhow'])}"]) + "\n")
    for crate in needed:
        shutil.copytree(scratch.TOP / "crates" / crate / "src", crates / crate / "src")
    (crates / "peer" / "src").mkdir(parents=True)
    (crates / "peer" / "src" / "main.rt").write_text(its.PROGRAM.lstrip())
    try:
        return str(quick.build(Running(), work, "peer", folder, has_frames))
    except (quick.Refused, quick.NoKit) as error:
        sys.exit(f"the program of {top} isn't built:\n{error}")


def main():
    words = argparse.ArgumentParser()
    words.add_argument("--beside", metavar="FOLDER", required=True)
    words.add_argument("workloads", nargs="*")
    words = words.parse_args()
    with tempfile.TemporaryDirectory() as name:
        folder, top = pathlib.Path(name), scratch.TOP
        program, other = program_of(top, folder / "this"), program_of(words.beside, folder / "other")
        machine = scratch.Machine()
        print("            workers   µs for one transaction, here and there, and divided; medians")
        for title in words.workloads or ["typical", "wide", "drawn"]:
            peer.told_beside(program, other, title, peer.made_in(folder, title))
        print(machine)


if __name__ == "__main__":
    main()
