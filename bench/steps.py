#!/usr/bin/env python3
"""Tells in which step of a commit the thread that commits is, and how many processors are at work beside it, through a run.

Run as `bench/steps.py [WORKLOAD ..]` from anywhere, on a quiet machine with four cores that has the kit and `perf` (Debian's
linux-perf). It builds the program of `peer.py`, which also tells the workloads, from sources alone, as `unproved.py` does, with frame
pointers; and samples all its threads 8,000 times a second by the processor's clock, while `run` is at work with four workers.

First stands what part of the run's time the first thread is on a processor, waits for one, and sleeps, by the system's own account
(`schedstat`), of a run that isn't sampled. Then a line is a tenth of the run: how many processors are at work for the first thread and
for all others, and the steps in which each of them is most of that time. The last line is the whole run, in microseconds for a
transaction. A step is that of the first name of STEPS that stands among a sample's callers; the C library and the kernel hide theirs,
so what is asked of them is `memory` or `system`.
"""

import argparse
import bisect
import collections
import pathlib
import re
import subprocess
import sys
import tempfile
import threading
import time

import peer
import scratch
import unproved
from scratch import UNDER
from serial import recorded, script

RATE = 8_000
TENTHS = 10
WANTED = ["typical", "drawn"]
STEPS = {
    "check_workers::checking": "checks",
    "row_workers::looking_up": "rows",
    "next_block::next_delta::flag_duplicates": "ids",
    "next_block::next_delta": "delta",
    "tentative_job_of": "linking",
    "take_in_one": "intake",
    "intake_workers::taking::hash_of": "hashing",
    "PendingDelta::commit_hash": "commit hash",
    "left_right": "worlds",
    "Candidate+Destruct": "dropping",
}
FIRST = re.compile(r"\s*(\d+)/(\d+)\s+(\d+)\.(\d+):")


class Account:
    """What a process's first thread has done, read each 2 ms until it ends: nanoseconds on a processor, and waiting for one."""

    def __init__(self, process):
        self.file, self.times, self.told = pathlib.Path(f"/proc/{process.pid}/task/{process.pid}/schedstat"), [], []
        self.reader = threading.Thread(target=self.read)
        self.reader.start()

    def read(self):
        while True:
            try:
                ran, waited, _ = map(int, self.file.read_text().split())
            except OSError:
                return
            self.times.append(time.monotonic_ns())
            self.told.append((ran, waited))
            time.sleep(0.002)

    def parts(self, begin, end):
        """The parts of a time that it was on a processor, and waited for one."""
        self.reader.join()
        first, last = (min(bisect.bisect(self.times, at), len(self.times) - 1) for at in (begin, end))
        took = self.times[last] - self.times[first]
        return [(after - before) / took for before, after in zip(self.told[first], self.told[last])]


def told_account(program, blocks):
    words = [*UNDER, program, "4", str(blocks.setup), *blocks.paths]
    process = subprocess.Popen(words, cwd=blocks.folder, stdout=subprocess.PIPE, text=True)
    account = Account(process)
    end, line = 0, ""
    for line in process.stdout:
        end = time.monotonic_ns()
    if process.wait() != 0 or not line:
        sys.exit(f"the run failed: {process.returncode}")
    ran, waited = account.parts(end - int(line.split()[0]), end)
    print(f"{'':>8} {ran:.2f} on a processor, {waited:.2f} waiting for one, {1 - ran - waited:.2f} asleep", flush=True)


def step_of(frames):
    callers = " ".join(frames)
    for name, step in STEPS.items():
        if name in callers:
            return step
    if "[kernel" in frames[0]:
        return "system"
    return "memory" if "libc" in frames[0] else "else"


def stepped(program, blocks, folder):
    """For each tenth of a run the samples of the first thread, and of the others, by step; and how many nanoseconds it took."""
    data, begin, end = recorded(program, "4", blocks, folder, ["-F", str(RATE), "-g"])
    tenths = [(collections.Counter(), collections.Counter()) for _ in range(TENTHS)]
    for sample in script(data, "pid,tid,time,ip,sym,dso").split("\n\n"):
        head, *frames = sample.strip("\n").split("\n")
        if not frames or not (found := FIRST.match(head)):
            continue
        of_process, of_thread, seconds, fraction = map(int, found.groups())
        since = seconds * 1_000_000_000 + fraction - begin
        if 0 <= since < end - begin:
            tenths[since * TENTHS // (end - begin)][of_process != of_thread][step_of(frames)] += 1
    return tenths, end - begin


def line_of(title, pair, each, most):
    """Samples of the first thread and of the others, each of which stands for so much."""
    told = []
    for steps in pair:
        parts = ", ".join(f"{step} {count * each:.2f}" for step, count in steps.most_common(most))
        told.append(f"{sum(steps.values()) * each:.2f} ({parts})")
    print(f"{title:>8} {'; '.join(told)}", flush=True)


def told_steps(program, title, blocks, folder):
    tenths, took = stepped(program, blocks, folder)
    count = sum(blocks.sizes[blocks.setup:])
    print(f"{title}: {took / count / 1000:.2f} µs for a transaction; at work: the thread that commits; the others")
    told_account(program, blocks)
    for number, pair in enumerate(tenths):
        line_of(f"{number / TENTHS:.0%}", pair, 1_000_000_000 / RATE / (took / TENTHS), 4)
    whole = tuple(sum(parts, collections.Counter()) for parts in zip(*tenths))
    line_of("µs", whole, 1_000_000 / RATE / count, 12)


def main():
    words = argparse.ArgumentParser()
    words.add_argument("workloads", nargs="*", default=WANTED)
    words = words.parse_args()
    with tempfile.TemporaryDirectory() as name:
        folder = pathlib.Path(name)
        program = unproved.program_of(scratch.TOP, folder / "program", has_frames=True)
        machine = scratch.Machine()
        for title in words.workloads:
            told_steps(program, title, peer.made_in(folder, title), folder)
        print(machine)


if __name__ == "__main__":
    main()
