#!/usr/bin/env python3
"""Times the program that people run, `fabcommit run`: by its workers, and by hashing the bytes that it reads.

Run as `bench/run.py [--beside FOLDER] [--under WORDS ..] [--workers N ..] [--blocks N] [WORKLOAD ..]` from anywhere, on a quiet
machine with four cores that has the kit; it needs 2 GB of disk under TMPDIR. It takes the program that `./fabcommit` would run, as
it is: build it first. `--beside` has another checkout whose program takes turns with it; let both be proved, or both quick.

A workload is one of `peer.py` or of those below, where `mixed` transactions are those of its `drawn`. Each is timed with 1, 2 and 4
workers, by the system's scheduler and under `chrt -f 50`; `--under` has other words to put before the program, once for each
series, `--workers` other numbers, and `--blocks` how many blocks there are behind the state. `all` is all of these but `hashing`.

- `run`: 100 blocks of 500 mixed transactions over 100,000 keys.
- `tens`, `hundreds`, `thousands`: 2,000 blocks of 10, 400 of 100, 12 of 4,096 of the same.
- `fewkeys`, `manykeys`: 100 blocks of 500 over 1,000 keys, and 40 over 1,000,000.
- `varied`: 100 blocks of 50, 250, 500, 750 or 950, by chance, over 100,000 keys.
- `waiting`: 20 blocks of 500 transactions, each of which reads what the one before it wrote.
- `large`: 12 blocks of 8 MiB, of 512 transactions that write 16 KiB each.
- `alone`: one block, number 0, of 4,096 transactions that write two keys each.
- `files`: 1,000 blocks of 50 KiB, of 47 mixed transactions.
- `huge`: 3 blocks of 500 MiB, of bytes that are no transactions.

In each turn a program runs over all files, and over those alone that make the state, or an empty block 0: microseconds for a
transaction are the difference by the transactions between, so that neither starting nor the state counts. `least` is that of the least times, `median`
that over the turns, five or as many as RUNS says in the environment. Of two programs there is what these are divided by, and
the median over the turns of the one by the other. Then come the least time on processors, the milliseconds until the first line
behind those of the state came through a pipe, and the most memory of a run, in MB, which isn't below that of this script, some 30.
All runs must write the same lines.

`hashing` is no workload: it times the program on 256 MB of blocks without valid transactions against hashing the same bytes once
with the same sha2. Behind the tables stands what else the machine did. What a verifier of 60 µs a signature gives is told by
`peer.py slow`.
"""

import argparse
import multiprocessing
import os
import pathlib
import shutil
import statistics
import subprocess
import sys
import tempfile
import time
import typing

import peer
import scratch
from scratch import RUNS, TOP, Machine, build

sys.path.append(str(scratch.TOP / "launch"))

import processor
from encoding import data_hash, header_hash, spelled_block

# Reads the files that it is given, and prints the microseconds that hashing them once takes.
HASHER = r"""
#![tactic(auto)]

use sha2::{Digest, Sha256};
use std::time::Instant;
use std::{env, fs};

fn main(rt: HostRuntime) -> anyhow::Result<()> {
    let mut micros = 0u128;
    for path in env::args(&rt)?.skip(1) {
        let bytes = fs::read(&rt, path.as_str())?;
        let start = Instant::now(&rt)?;
        let digest = Sha256::digest(bytes.as_slice());
        micros = micros.wrapping_add(start.elapsed(&rt)?.as_micros());
        let first = digest[0];
        eprintln!(rt; "{first}")?;
    }
    println!(rt; "{micros}")?;
    Ok(())
}
"""

SIZES = {
    "4 blocks of 64 transactions of 1 MiB": [(64, 1 << 20)] * 4,
    "16 blocks of 4,096 transactions of 4 KiB": [(4096, 1 << 12)] * 16,
    "1,000 blocks of 256 transactions of 1 KiB": [(256, 1 << 10)] * 1000,
}


class Ran:
    """One run: its seconds by the clock and on processors, when which line came, its most memory in KB, and its lines."""

    def __init__(self, words, folder, wanted):
        start = time.monotonic()
        process = subprocess.Popen(words, cwd=folder, stdout=subprocess.PIPE, stderr=subprocess.PIPE)
        self.lines, self.first = [], None
        for line in process.stdout:
            self.lines.append(line)
            if len(self.lines) == wanted:
                self.first = time.monotonic() - start
        said = process.stderr.read()
        _, self.status, usage = os.wait4(process.pid, 0)
        self.seconds = time.monotonic() - start
        self.busy, self.memory = usage.ru_utime + usage.ru_stime, usage.ru_maxrss
        if self.status != 0:
            sys.exit(f"a run failed: {self.status} {said[:300]!r}")


class Timed:
    """What turns of a program gave, over all files and over those of the state."""

    def __init__(self, words, blocks):
        self.words, self.blocks, self.turns = words, blocks, []
        self.count = sum(blocks.sizes[blocks.setup:])

    def turn(self):
        ran = [Ran([*self.words, *paths], self.blocks.folder, self.blocks.setup + 1) for paths in (self.blocks.state, self.blocks.paths)]
        self.turns.append(ran)
        return ran[1].lines

    def each(self, part):
        """Microseconds for a transaction, in each turn."""
        return [(part(ran) - part(state)) / self.count * 1e6 for state, ran in self.turns]

    def least(self, part):
        """The same of the least times of all turns."""
        states, all_files = zip(*self.turns)
        return (min(map(part, all_files)) - min(map(part, states))) / self.count * 1e6

    def first(self):
        return min(ran.first for _, ran in self.turns) * 1000

    def memory(self):
        return max(ran.memory for _, ran in self.turns) / 1024


def program_of(top):
    """The program that the launcher of a checkout runs: the proved one, unless a source is newer, else the quick one."""
    out = pathlib.Path(top) / "crates" / "fabcommit" / "out"
    sources = [path for part in ("src", "specs", "proofs") for path in pathlib.Path(top).glob(f"crates/*/{part}/**/*")]
    here = processor.at_hand()
    # the last is that of a checkout from before programs were built for the processor at hand
    for program in (out / here / "fabcommit", out / "fabcommit", out / "quick" / here / "fabcommit", out / "quick" / "fabcommit"):
        if program.exists() and all(path.stat().st_mtime <= program.stat().st_mtime for path in sources):
            return str(program)
    sys.exit(f"{top} has no program of its sources: ./fabcommit help builds one")


def told(programs, title, blocks, under, workers):
    """One line of the table: all programs in turns, which must write the same."""
    files = ["--channel", "channel.txt", "--keys", "keys.txt", "--workers", str(workers)]
    timed = [Timed([*under, program, "run", *files], blocks) for program in programs]
    lines = None
    for _ in range(RUNS):
        for one in timed:
            found = one.turn()
            if found != (lines or found):
                sys.exit(f"{title}: two runs wrote other lines")
            lines = found
    walls = [one.each(lambda ran: ran.seconds) for one in timed]
    least = [one.least(lambda ran: ran.seconds) for one in timed]
    busy = [one.least(lambda ran: ran.busy) for one in timed]
    columns = [f"{title:>10} {' '.join(under) or '-':>12} {workers:>7}"]
    medians = [statistics.median(wall) for wall in walls]
    columns += [f"{one:>7.2f} {median:>7.2f}" for one, median in zip(least, medians)]
    if len(walls) > 1:
        ratio = statistics.median(this / that for this, that in zip(*walls))
        columns.append(f"{least[0] / least[1]:>6.2f} {medians[0] / medians[1]:>6.2f} {ratio:>6.2f}")
    columns.append(" ".join(f"{time:>6.1f}" for time in busy))
    columns.append(" ".join(f"{one.first():>6.0f} {one.memory():>6.0f}" for one in timed))
    print("  ".join(columns), flush=True)


def large(blocks, count, size):
    blocks.fill()
    for _ in range(count):
        blocks.add([blocks.tx(writes=[peer.key(n)], value=b"v" * (1 << 14)) for n in range(size)])


def varied(blocks, count, size):
    blocks.fill()
    for _ in range(count):
        blocks.mixed(size * blocks.random.choice([1, 5, 10, 15, 19]) // 10)


def alone(blocks, count, size):
    """There is no state, and one block."""
    blocks.add([blocks.tx(writes=[peer.key(2 * n), peer.key(2 * n + 1)]) for n in range(size)])


def huge(blocks, count, size):
    blocks.fill()
    for number in range(count):
        blocks.add([bytes([number % 251]) * (1 << 20)] * size)


# As those of `peer.py`.
WORKLOADS = {
    "run": (100_000, peer.mixed, 100, 500),
    "tens": (100_000, peer.mixed, 2000, 10),
    "hundreds": (100_000, peer.mixed, 400, 100),
    "thousands": (100_000, peer.mixed, 12, 4096),
    "fewkeys": (1000, peer.mixed, 100, 500),
    "manykeys": (1_000_000, peer.mixed, 40, 500),
    "varied": (100_000, varied, 100, 500),
    "waiting": (10, peer.chain, 20, 500),
    "large": (10, large, 12, 512),
    "alone": (10, alone, 1, 4096),
    "files": (100_000, peer.mixed, 1000, 47),
    "huge": (10, huge, 3, 500),
}


class Made(typing.NamedTuple):
    """Blocks as files of a folder: those that make the state, all of them, how many the first are, and the transactions of each."""

    folder: pathlib.Path
    state: list
    paths: list
    setup: int
    sizes: list


def made_in(folder, title, count):
    """The blocks of a workload, of which there are so many behind the state, where that is asked for."""
    state, make, *sizes = (WORKLOADS | peer.WORKLOADS)[title]
    if count and len(sizes) == 2:
        sizes[0] = count
    blocks = peer.Blocks(folder / title, state)
    make(blocks, *sizes)
    (blocks.folder / "empty.blk").write_bytes(spelled_block(0, b"", data_hash([]), []))
    return Made(blocks.folder, blocks.paths[:blocks.setup] or ["empty.blk"], blocks.paths, blocks.setup, blocks.sizes)


def made_apart(*words):
    """The same by a process of its own, since a program that is started counts the memory of who starts it as its own."""
    with multiprocessing.Pool(1) as pool:
        return pool.apply(made_in, words)


def make_blocks(folder, sizes):
    """Linked blocks, one for each (transactions, bytes of each); the paths of their files."""
    previous, paths = b"", []
    for number, (count, size) in enumerate(sizes):
        txs = [bytes([number % 251]) * size] * count
        hash_of_data = data_hash(txs)
        path = folder / f"{number}.blk"
        path.write_bytes(spelled_block(number, previous, hash_of_data, txs))
        paths.append(str(path))
        previous = header_hash(number, previous, hash_of_data)
    return paths


def told_hashing(program, folder):
    hasher = build(folder / "hasher", "hasher", HASHER, own=[], kit=["sha2", "anyhow"])
    sample = TOP / "sample"
    words = [program, "run", "--channel", str(sample / "channel.txt"), "--keys", str(sample / "keys.txt")]
    for title, sizes in SIZES.items():
        blocks = folder / title.replace(" ", "_").replace(",", "")
        blocks.mkdir()
        paths = make_blocks(blocks, sizes)
        total = sum(os.path.getsize(path) for path in paths) / 1e6
        hashing = min(int(subprocess.run([hasher, *paths], capture_output=True, text=True, check=True).stdout) for _ in range(RUNS)) / 1000
        runs = [Ran([*words, *paths], blocks, 1) for _ in range(RUNS)]
        if any(len(ran.lines) != len(paths) for ran in runs):
            sys.exit(f"{title}: the run has another number of lines")
        wall = min(ran.seconds for ran in runs) * 1000
        print(f"{title}: {total:.0f} MB, hashing {hashing:.0f} ms, fabcommit {wall:.0f} ms, ratio {wall / hashing:.2f}, "
              f"peak {max(ran.memory for ran in runs) / 1024:.0f} MB", flush=True)
        for path in paths:
            os.remove(path)


def main():
    words = argparse.ArgumentParser()
    words.add_argument("--beside", metavar="FOLDER")
    words.add_argument("--under", metavar="WORDS", action="append")
    words.add_argument("--workers", metavar="N", type=int, action="append")
    words.add_argument("--blocks", metavar="N", type=int)
    words.add_argument("workloads", nargs="*")
    words = words.parse_args()
    programs = [program_of(top) for top in (TOP, words.beside) if top]
    machine = Machine()
    print(f"here {programs[0]}" + (f", there {programs[1]}" if words.beside else ""))
    with tempfile.TemporaryDirectory() as name:
        folder = pathlib.Path(name)
        wanted = [*WORKLOADS] if words.workloads == ["all"] else words.workloads or ["run", "hashing"]
        if wanted != ["hashing"]:
            print("  workload        under workers  µs for a transaction, least and median, of each; divided: least, medians, median; "
                  "processor µs; first line in ms and MB")
        for title in wanted:
            if title == "hashing":
                told_hashing(programs[0], folder)
                continue
            blocks = made_apart(folder, title, words.blocks)
            for under in words.under if words.under is not None else ["", "chrt -f 50"]:
                for workers in words.workers or peer.WORKERS:
                    told(programs, title, blocks, under.split(), workers)
            shutil.rmtree(blocks.folder)
        print(machine)


if __name__ == "__main__":
    main()
