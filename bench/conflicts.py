#!/usr/bin/env python3
"""Times `fabcommit conflicts` beside `fabcommit run --workers 1` over 50,000 transactions.

Run as `bench/conflicts.py [PROGRAM]` from anywhere, on a quiet machine: PROGRAM is a built one, `crates/fabcommit/out/fabcommit`
where it isn't given. The chain has 100 blocks of 500 transactions, each of which reads two keys and writes two, all drawn from
so many keys. Reads have the versions from before the block.

A line has the processor's seconds of each call, the least of five runs or of as many as RUNS says in the environment, in which
both take turns, and those of a `run` without the blocks that make the state taken off; how many times as long `conflicts` takes;
the most memory of each in MB; and how many transactions were invalid.
"""

import os
import pathlib
import subprocess
import sys
import tempfile

from peer import Blocks, key
from scratch import RUNS, TOP

BLOCKS, SIZE = 100, 500


class Drawn(Blocks):
    """Blocks that read what the ones before have left."""

    def draw(self):
        return self.random.randrange(self.state)

    def one(self, before, written, place):
        """A transaction, whose writes are noted where nothing that it reads was written in the block."""
        reads, writes = {self.draw(), self.draw()}, {self.draw(), self.draw()}
        if not reads & written.keys():
            written.update((n, (self.number, place)) for n in writes)
        return self.tx([(key(n), before.get(n) or self.version(n)) for n in reads], map(key, writes))

    def chain(self):
        self.fill()
        before = {}
        for _ in range(BLOCKS):
            written = {}
            self.add([self.one(before, written, place) for place in range(SIZE)])
            before |= written


def timed(words, folder):
    """The processor's seconds, the most memory in MB, and the lines of a call."""
    with open(folder / "lines", "w+b") as lines:
        child = subprocess.Popen(words, cwd=folder, stdout=lines)
        _, status, used = os.wait4(child.pid, 0)
        assert status == 0, (words[:2], status)
        lines.seek(0)
        return used.ru_utime + used.ru_stime, used.ru_maxrss / 1024, lines.read().decode()


def times(program, blocks):
    files = ["--channel", "channel.txt", "--keys", "keys.txt", "--quiet"]
    setup, paths = blocks.paths[: blocks.setup], blocks.paths
    calls = [["run", *files, *setup], ["run", *files, *paths], ["conflicts", *files, f"--from={blocks.setup}", *paths]]
    turns = [[timed([program, *words], blocks.folder) for words in calls] for _ in range(RUNS)]
    lines = turns[0][2][2].splitlines()
    counts = {line.split()[1]: int(line.split()[3]) for line in lines if line.startswith("flag ")}
    assert sum(counts.values()) == BLOCKS * SIZE, counts
    least = [min(turn[call][0] for turn in turns) for call in range(3)]
    most = [max(turn[call][1] for turn in turns) for call in range(3)]
    return least, most, BLOCKS * SIZE - counts["0"]


def main():
    program = str(pathlib.Path(sys.argv[1] if sys.argv[1:] else TOP / "crates/fabcommit/out/fabcommit").resolve())
    print("| keys | run, s | without the state, s | conflicts, s | times run | run, MB | conflicts, MB | invalid |")
    print("|---:|---:|---:|---:|---:|---:|---:|---:|")
    for state in (100_000, 1_000):
        with tempfile.TemporaryDirectory() as folder:
            blocks = Drawn(pathlib.Path(folder) / "blocks", state)
            blocks.chain()
            (setup, run, conflicts), (_, run_mb, conflicts_mb), invalid = times(program, blocks)
            print(f"| {state:,} | {run:.2f} | {run - setup:.2f} | {conflicts:.2f} | {conflicts / run:.2f}"
                  f" | {run_mb:.0f} | {conflicts_mb:.0f} | {invalid:,} |", flush=True)


if __name__ == "__main__":
    main()
