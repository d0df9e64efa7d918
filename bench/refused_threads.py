#!/usr/bin/env python3
"""Refuses each thread that `fabcommit run` starts, once and then with all behind it, and fails where it prints anything else.

Run as `bench/refused_threads.py` from anywhere, on a machine that has the kit and a C compiler. It takes the program that
`./fabcommit` would run, as it is: build it first. A library that is preloaded refuses `pthread_create`, as a system does that has no
room for a thread.

What `run` prints of each subject, and its status, must stay the same, whatever is refused: a chain by several workers, with a
block out of turn, a spoiled one and one that is handed in twice; and one block alone. Where it has readers, a reader's thread that is
refused ends the call as want of memory does, before any line; no other thread does.

For each subject there is how many threads it starts; of the runs in which one was refused, and of those in which all from one on
were, how many printed the same; and how many ended for a reader.
"""

import os
import pathlib
import subprocess
import sys
import tempfile

import peer
from run import program_of
from scratch import TOP

# The words of each subject, how many of its threads are readers', and its blocks.
SUBJECTS = {
    "chain, 2 workers": (["--workers", "2", "--hashes"], 0, "chain"),
    "chain, 4 workers": (["--workers", "4", "--hashes"], 0, "chain"),
    "chain, 64 workers": (["--workers", "64"], 0, "chain"),
    "block alone, 4 workers": (["--workers", "4", "--hashes"], 0, "alone"),
    "chain, 4 workers, 2 readers": (["--workers", "4", "--readers", "2"], 2, "chain"),
}

OUT_OF_MEMORY = (4, b"", b"out of memory\n")


def chain_in(folder):
    """Paths of a chain's blocks, some of them such that they are refused."""
    blocks = peer.Blocks(folder, 2000)
    peer.mixed(blocks, 10, 100)
    spoiled = bytearray((folder / blocks.paths[6]).read_bytes())
    spoiled[-1] ^= 1
    (folder / "spoiled.blk").write_bytes(spoiled)
    (folder / "short.blk").write_bytes(spoiled[:-1])
    front, back = blocks.paths[:6], blocks.paths[6:]
    return [*front, back[1], "spoiled.blk", "short.blk", back[0], back[0], *back[1:]]


def alone_in(folder):
    """One block, large enough that all its work is shared: 400 transactions that write 20 keys each."""
    blocks = peer.Blocks(folder, 0)
    blocks.add([blocks.tx(writes=[peer.key(20 * n + i) for i in range(20)]) for n in range(400)])
    return blocks.paths


class Subject:
    def __init__(self, name, program, refuser, folder, paths):
        words, self.readers, kind = SUBJECTS[name]
        files = ["--channel", "channel.txt", "--keys", "keys.txt"]
        self.words, self.folder = [program, "run", *files, *words, *paths[kind]], folder / kind
        self.refuser, self.asked = refuser, folder / "asked"

    def ran(self, first, all_behind):
        """Its status, what it prints, and how many threads it asked for, where threads from this number on are refused, if it isn't 0."""
        self.asked.unlink(missing_ok=True)
        environment = os.environ | {"LD_PRELOAD": str(self.refuser), "THREADS_ASKED": str(self.asked), "FIRST_REFUSED": str(first)}
        if all_behind:
            environment["ALL_BEHIND"] = "1"
        done = subprocess.run(self.words, cwd=self.folder, env=environment, capture_output=True, timeout=600, check=False)
        asked = self.asked.stat().st_size if self.asked.exists() else 0
        return (done.returncode, done.stdout, done.stderr), asked

    def is_fine(self, name):
        """Prints its line, and what ends otherwise."""
        wanted, threads = self.ran(0, False)
        counts, ended, failed = {False: 0, True: 0}, {False: 0, True: 0}, 0
        for all_behind in (False, True):
            for first in range(1, threads + 1):
                found, _ = self.ran(first, all_behind)
                if found == wanted:
                    counts[all_behind] += 1
                elif self.readers and found == OUT_OF_MEMORY:
                    ended[all_behind] += 1
                else:
                    failed += 1
                    print(f"{name}: thread {first}{' and all behind' if all_behind else ''}: {found[0]} {found[2][:200]!r}", flush=True)
        print(f"| {name:<28} | {threads:>7} | {counts[False]:>4} | {counts[True]:>11} | {ended[False]:>5} + {ended[True]:>3} | {failed:>6} |", flush=True)
        # once for each reader, and by all behind it wherever the first one that is refused stands
        are_readers = ended[False] == self.readers and (ended[True] > 0) == (self.readers > 0)
        return not failed and threads > 0 and are_readers


def main():
    program = program_of(TOP)
    print(f"of {program}")
    with tempfile.TemporaryDirectory() as name:
        folder = pathlib.Path(name)
        refuser = folder / "refuse_threads.so"
        source = TOP / "bench" / "refuse_threads.c"
        subprocess.run(["cc", "-O2", "-Wall", "-fPIC", "-shared", "-o", refuser, source, "-ldl"], check=True)
        paths = {"chain": chain_in(folder / "chain"), "alone": alone_in(folder / "alone")}
        print("| run                          | threads | once | all from it | readers'    | failed |")
        print("|---|---:|---:|---:|---:|---:|", flush=True)
        fine = [Subject(name, program, refuser, folder, paths).is_fine(name) for name in SUBJECTS]
    sys.exit(0 if all(fine) else 1)


if __name__ == "__main__":
    main()
