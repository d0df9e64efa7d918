#!/usr/bin/env python3
"""Tells what the thread that commits does: by the functions in which it is, and by crate, in microseconds for a transaction.

Run as `bench/serial.py [--beside FOLDER] [--functions N] [WORKLOAD ..]` from anywhere, on a quiet machine with four cores that
has the kit and `perf` (Debian's linux-perf). It builds the program of `peer.py`, which also tells the workloads, and samples the first
thread 10,000 times a second by the processor's clock, while `run` is at work on all blocks behind those that make the state: with
one worker, who does everything, and with four, of whom this one commits, checks, and at last takes part in the intake.

A line is a part: `hashing` is the compression of SHA-256, `memory` the C library's allocator, `copies` its copies and comparisons of
bytes, `system` the kernel, any other a crate, whose functions have with them what the compiler put into them. Of the kit's crates
`std` are all in one. Behind it stand its microseconds for a transaction, and its part of all. `whole` is how long the thread was at work, and
behind it how many times as long all other parts together took as hashing; `clock` is how long the run took.
With `--functions` the N dearest functions follow.

Each number is the median over five runs, or as many as RUNS says in the environment. `--beside` has another checkout of this
repository whose libraries are built: each line has its numbers too, of runs in turns with these.
"""

import argparse
import collections
import pathlib
import re
import statistics
import subprocess
import sys
import tempfile
import time

import peer
from scratch import RUNS, UNDER, Machine, build, built_of

RATE = 10_000
WANTED = ["typical", "contended", "wide", "drawn", "state"]
SAMPLE = re.compile(r"\s*(\d+)/(\d+)\s+(\d+)\.(\d+):\s+[0-9a-f]+ (.*) \((.*)\)$")
OF_STD = {"core", "std", "std_alloc", "std_collections", "std_io", "std_heap", "rattle_alloc", "rattle_realloc", "rattle_dealloc"}


def recorded(program, workers, blocks, folder, words):
    """The samples of a run, by these words of `perf record`: their path, and the nanoseconds at which `run` began and ended."""
    data = folder / "perf.data"
    words = ["perf", "record", "-q", "-e", "cpu-clock", "-k", "mono", "-o", data, *words]
    words += [*UNDER, program, workers, str(blocks.setup), *blocks.paths]
    process = subprocess.Popen(words, cwd=blocks.folder, stdout=subprocess.PIPE, text=True)
    end, line = 0, ""
    for line in process.stdout:
        end = time.monotonic_ns()
    if process.wait() != 0 or not line:
        sys.exit(f"the run with {workers} workers failed: {process.returncode}")
    return data, end - int(line.split()[0]), end


def script(data, fields):
    words = ["perf", "script", "-i", data, "-F", fields, "--ns"]
    return subprocess.run(words, stdout=subprocess.PIPE, text=True, check=True).stdout


def sampled(program, workers, blocks, folder):
    """How many nanoseconds the first thread was in each function of each shared object, and how many `run` took, for one transaction."""
    data, begin, end = recorded(program, workers, blocks, folder, ["-F", str(RATE)])
    count = sum(blocks.sizes[blocks.setup:])
    found = collections.Counter()
    for sample in filter(None, map(SAMPLE.match, script(data, "pid,tid,time,ip,sym,dso").splitlines())):
        of_process, of_thread, seconds, fraction, function, shared = sample.groups()
        if of_process == of_thread and begin <= int(seconds) * 1_000_000_000 + int(fraction) <= end:
            found[function, pathlib.Path(shared).name] += 1_000_000_000 / RATE / count
    return found, (end - begin) / count


def part_of(function, shared):
    if shared.startswith("[kernel"):
        return "system"
    if shared.startswith("libc"):
        return "copies" if "mem" in function else "memory"
    if function.startswith("sha2::") and "compress" in function:
        return "hashing"
    crate = function.split("::")[0].split("<")[0]
    return "std" if crate in OF_STD else crate


def by_part(found):
    parts = collections.Counter()
    for (function, shared), nanos in found.items():
        parts[part_of(function, shared)] += nanos
    return parts


def medians(runs):
    """Of each name that some run has."""
    return {name: statistics.median(run.get(name, 0) for run in runs) / 1000 for name in set().union(*runs)}


def told(programs, workers, title, blocks, folder, functions):
    rounds = [[sampled(program, workers, blocks, folder) for program in programs] for _ in range(RUNS)]
    each = list(zip(*rounds))
    clocks = " ".join(f"{statistics.median(nanos for _, nanos in runs) / 1000:>16.2f}" for runs in each)
    print(f"{title}, workers: {workers}\n{'clock':>24} {clocks}")
    for kind, most in (by_part, 20), (dict, functions):
        tables = [medians([kind(found) for found, _ in runs]) for runs in each]
        wholes = [sum(table.values()) for table in tables]
        if kind is by_part:
            rest = [(whole - table["hashing"]) / table["hashing"] for whole, table in zip(wholes, tables)]
            line = " ".join(f"{whole:>9.2f} {times:>6.2f}" for whole, times in zip(wholes, rest))
            print(f"{'whole':>24} {line}")
        for name in sorted(tables[0], key=tables[0].get, reverse=True)[:most]:
            shown = name if kind is by_part else f"{name[0]} {name[1]}"
            took = [(table.get(name, 0), whole) for table, whole in zip(tables, wholes)]
            line = " ".join(f"{micros:>9.3f} {micros / whole:>6.1%}" for micros, whole in took)
            print(f"{shown:>24} {line}")
    print(flush=True)


def main():
    words = argparse.ArgumentParser()
    words.add_argument("--beside", metavar="FOLDER")
    words.add_argument("--functions", metavar="N", type=int, default=0)
    words.add_argument("workloads", nargs="*", default=WANTED)
    words = words.parse_args()
    machine = Machine()
    with tempfile.TemporaryDirectory() as name:
        folder = pathlib.Path(name)
        programs = [build(folder / "program", "peer", peer.PROGRAM, own=peer.CRATES, kit=["anyhow"])]
        if words.beside:
            programs.append(built_of(words.beside, folder / "other", "peer", "peer"))
        for title in words.workloads:
            blocks = peer.made_in(folder, title)
            for workers in "1", "4":
                told(programs, workers, title, blocks, folder, words.functions)
    print(machine)


if __name__ == "__main__":
    main()
