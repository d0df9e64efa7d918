#!/usr/bin/env python3
"""Counts what `fabcommit run` does: instructions, allocations, system calls. Other work on the machine doesn't disturb these.

Run as `bench/counts.py [--beside FOLDER] [--workers N] [--keys N]` from anywhere; it needs valgrind and strace, and takes the program
that `./fabcommit` would run: build it first. `--beside` has another checkout, whose program is counted too.

The program runs over a state of so many keys (10,000) and over blocks of `run`'s transactions (`run.py`), and again over twice as many
blocks: the difference, by the blocks between, is what a block takes. That of blocks of 10 and of 500 transactions gives what a block
takes beside its transactions, and what a transaction takes.

- Instructions are counted by callgrind, which runs threads in turns; `hashing` are those of SHA-256's compression.
- Allocations are counted by memcheck, calls of the system by strace; `futex` are those that wait for threads or wake them.
"""

import argparse
import pathlib
import re
import shutil
import subprocess
import sys
import tempfile

import peer
from run import program_of
from scratch import TOP

# Blocks of so many transactions, and how many of them there are in the shorter run.
SIZES = {10: 40, 500: 4}
HASHING = re.compile(r"sha2::block256::(?!Core256)")


def instructions(words, folder):
    """The instructions of a run, and those of hashing."""
    out = folder / "callgrind"
    flags = ["--compress-strings=no", "--compress-pos=no", f"--callgrind-out-file={out}"]
    ran(["valgrind", "--quiet", "--tool=callgrind", *flags, *words], folder)
    found, name, is_call = {"instructions": 0, "hashing": 0}, "", False
    for line in out.read_text().splitlines():
        if line.startswith("fn="):
            name = line[3:]
        elif line.startswith("calls="):
            is_call = True
        elif re.match(r"\d+ \d+$", line):
            # after `calls=` it is what was called
            if not is_call:
                count = int(line.split()[1])
                found["instructions"] += count
                found["hashing"] += count if HASHING.match(name) else 0
            is_call = False
    return found


def allocations(words, folder):
    said = ran(["valgrind", "--undef-value-errors=no", *words], folder)
    count, size = re.search(r"total heap usage: ([\d,]+) allocs, [\d,]+ frees, ([\d,]+) bytes", said).groups()
    return {"allocations": int(count.replace(",", "")), "bytes of these": int(size.replace(",", ""))}


def system_calls(words, folder):
    out = folder / "strace"
    ran(["strace", "-f", "-qq", "-o", out, *words], folder)
    calls = re.findall(r"^\d+ +(?:<\.\.\. )?(\w+)(?:\(| resumed>)", out.read_text(), re.M)
    lines = [line for line in out.read_text().splitlines() if "resumed>" not in line]
    return {"system calls": len(lines), "futex": sum(" futex(" in line for line in lines)} if calls else {}


COUNTERS = {"valgrind": (instructions, allocations), "strace": (system_calls,)}


def ran(words, folder):
    done = subprocess.run([*map(str, words)], cwd=folder, capture_output=True, text=True, check=False)
    if done.returncode:
        sys.exit(f"a run failed: {done.returncode} {done.stderr[-500:]}")
    return done.stderr


def a_block(words, folder, keys, size):
    """What a block of so many transactions takes."""
    blocks = peer.Blocks(folder / str(size), keys)
    peer.mixed(blocks, 2 * SIZES[size], size)
    shorter, longer = blocks.paths[: -SIZES[size]], blocks.paths
    found = {}
    for tool, counters in COUNTERS.items():
        for counter in counters if shutil.which(tool) else ():
            few, many = (counter([*words, *paths], blocks.folder) for paths in (shorter, longer))
            found.update({name: (many[name] - few[name]) / SIZES[size] for name in many})
    return found


def counts(program, keys, workers):
    words = [program, "run", "--channel", "channel.txt", "--keys", "keys.txt", "--workers", workers]
    with tempfile.TemporaryDirectory() as folder:
        small, large = (a_block(words, pathlib.Path(folder), keys, size) for size in SIZES)
    low, high = SIZES
    print(f"{program}, {workers} workers, {keys} keys")
    print("| | a transaction | a block beside its transactions |\n|---|---|---|")
    for name in small:
        a_transaction = (large[name] - small[name]) / (high - low)
        print(f"| {name} | {a_transaction:,.1f} | {small[name] - low * a_transaction:,.0f} |", flush=True)


def main():
    words = argparse.ArgumentParser(description=__doc__, formatter_class=argparse.RawDescriptionHelpFormatter)
    words.add_argument("--beside", metavar="FOLDER")
    words.add_argument("--workers", type=int, default=1)
    words.add_argument("--keys", type=int, default=10_000)
    given = words.parse_args()
    missing = [tool for tool in COUNTERS if not shutil.which(tool)]
    if missing:
        print(f"note: not counted, for want of {' and '.join(missing)}")
    for top in (TOP, given.beside):
        if top:
            counts(program_of(top), given.keys, str(given.workers))


if __name__ == "__main__":
    main()
