#!/usr/bin/env python3
"""Runs `rt ci` over a copy of the product, and says how far it is: it proves every crate, tries the edits and runs the programs.

The copy has all crates but those of the group Tests in crates.txt, which `./test` runs without proofs; a bare `rt ci` at the top
proves them too. In the copy, planted edits of crates whose sum isn't current (`bench/proof/planted.py`) are in `must-fail/`, so that
they are tried; if all were refused, the sums are written. The gate fails if an edit isn't refused or can't be tried. What was built
and proved comes back to the crates' `out/`, if it passed and no source changed meanwhile. The status is that of `rt ci`, or 1; the
last line counts.
"""

import os
import pathlib
import re
import shutil
import signal
import subprocess
import sys
import tempfile
import threading
import time

sys.dont_write_bytecode = True
TOP = pathlib.Path(__file__).resolve().parent.parent
sys.path[:0] = [str(TOP / "launch"), str(TOP / "bench" / "proof")]

import calls
import planted
import sources
from costs import Costs

# Seconds between two lines of how far it is, and between two looks at what is at work.
SAID, LOOKED = 120, 5
# Some kits reckon with several times the memory that a proof takes, and leave processors idle. Few took more than 2.5 GB, none more
# than 6.2.
GIGABYTES = 5


def jobs():
    """How many proofs run side by side: as many as there are processors, if memory lasts."""
    free = int(re.search(r"^MemAvailable: +(\d+)", pathlib.Path("/proc/meminfo").read_text(), re.M)[1])
    return max(1, min(sources.processors(), free // (GIGABYTES << 20)))


def files_of(crates, top):
    """What proofs and programs are made of, by path."""
    folders = (top / "crates" / crate / part for crate in crates for part in ("src", "specs", "proofs", "data"))
    return {file.relative_to(top): file.read_bytes() for folder in folders for file in folder.rglob("*") if file.is_file()}


def bring_back(crates, copy):
    """Puts what was built and proved where `./fabcommit` and clients/try look for it, beside what a developer's own checks keep."""
    for crate in crates:
        to = TOP / "crates" / crate / "out"
        to.mkdir(exist_ok=True)
        for made in (copy / "crates" / crate / "out").glob("*"):
            if made.is_file() or not (to / made.name).exists():
                shutil.move(made, to / made.name)


class Progress:
    """What `rt ci` has done, by what it says and by what is at work, and how long it still takes, by launch/costs.txt."""

    def __init__(self, top):
        self.costs, self.began = Costs(TOP), time.monotonic()
        self.edits = {folder.parent.name: len([*folder.glob("*.edit")]) for folder in top.glob("crates/*/must-fail")}
        self.left = {(name, kind): seconds for name in sources.all_crates(top) for kind, seconds in self.costs.of(name, self.edits.get(name, 0)).items()}
        self.is_over, self.seen, self.alive, self.done = threading.Event(), {}, set(), 0

    def ended(self, name, kind):
        self.done += self.left.pop((name, kind), 0)

    def read(self, line):
        """Notes what a line of `rt ci` says."""
        if found := re.match(r"rt: (\w+) proved$", line):
            self.ended(found[1], "proof")
        elif found := re.match(r"rt: (\w+) is kept: ", line):
            # what was kept took no time, so that it doesn't count as done
            self.left.pop((found[1], "proof"), None)

    def look(self):
        """Notes what is at work, and counts calls for edits that ended."""
        alive = set()
        for call, words, program, folder in calls.running():
            name = calls.crate_of(words, program)
            if name:
                alive.add((call, name, calls.kind_of(words, program, folder)))
        for call, name, kind in self.alive - alive:
            if kind == "edits":
                self.seen[name] = self.seen.get(name, 0) + 1
                # one proves the crate, one each edit, and one looks whether all is as it was
                if self.seen[name] >= self.edits.get(name, 0) + 2 * (self.edits.get(name, 0) > 1):
                    self.ended(name, "edits")
        self.alive = alive

    def line(self):
        counts = {kind: sum(1 for _, it in self.left if it == kind) for kind in ("proof", "edits")}
        left, elapsed = sum(self.left.values()), time.monotonic() - self.began
        time_left = f", about {left * elapsed / self.done / 60:.0f} min" if self.done > left / 20 else ""
        work = sorted({f"{name}'s edits" if kind == "edits" else name for _, name, kind in self.alive})
        return f"gate: {elapsed / 60:.0f} min; left: proofs of {counts['proof']} crates, edits of {counts['edits']}{time_left}; at work: {', '.join(work) or 'rt ci itself'}"

    def watch(self):
        looks = 0
        while not self.is_over.wait(LOOKED):
            self.look()
            looks += 1
            if looks % (SAID // LOOKED) == 0 and self.left:
                print(self.line(), flush=True)


def ran(copy, progress):
    """The status of `rt ci` over the copy, and its lines, of which the last one isn't printed."""
    said, environment = [], {"RT_JOBS": str(jobs()), **os.environ}
    how = {"stdin": subprocess.DEVNULL, "stdout": subprocess.PIPE, "stderr": subprocess.STDOUT, "text": True, "errors": "replace"}
    with subprocess.Popen(["rt", "ci"], cwd=copy, env=environment, **how) as running:
        try:
            for line in running.stdout:
                progress.read(line.rstrip("\n"))
                said.append(line.replace(f"{copy}/", ""))
                if len(said) > 1:
                    print(said[-2], end="", flush=True)
        except BaseException:
            running.terminate()
            raise
    progress.is_over.set()
    return running.returncode, said


def faults(said, edits):
    """What `rt ci` passes over: edits that it couldn't try, or else crates of whose edits it doesn't say that all were refused, or kept."""
    bad = re.findall(r"^rt: must-fail (\S+): BAD EDIT", said, re.M)
    found, kept = planted.refused(said), set(re.findall(r"^rt: (\w+) is kept: ", said, re.M))
    kept -= set(re.findall(r"^rt: (\w+): trying its must-fail edits", said, re.M))
    lost = [crate for crate, count in edits.items() if found[crate] < count and crate not in kept]
    if bad:
        yield f"these edits couldn't be tried: {' '.join(bad)}"
    elif lost:
        yield f"not all edits were refused: {' '.join(lost)}"


def main():
    for number in (signal.SIGTERM, signal.SIGHUP, signal.SIGINT):
        signal.signal(number, lambda *_: sys.exit(130))
    crates = sources.product(TOP)
    with tempfile.TemporaryDirectory(prefix="gate-") as room:
        copy = pathlib.Path(room) / "product"
        stale = {crate: planted.sum_of(crate) for crate in planted.stale(TOP) if crate in crates}
        edits = [edit for crate in crates for edit in (TOP / "crates" / crate).glob("*/*.edit") if edit.parent.name == "must-fail" or crate in stale]
        planted.lay_out(crates, edits, copy)
        copied = files_of(crates, copy)
        print(f"gate: rt ci over {len(crates)} crates, without tests{', with planted edits of ' if stale else ''}{' '.join(stale)}", flush=True)
        progress = Progress(copy)
        threading.Thread(target=progress.watch, daemon=True).start()
        status, said = ran(copy, progress)
        if status:
            found = []
        else:
            found = [*faults("".join(said), progress.edits)]
            if files_of(crates, TOP) == copied:
                bring_back(crates, copy)
            else:
                print("gate: sources changed meanwhile, so that nothing of it is kept here")
    for fault in found:
        print(f"gate: {fault}")
    if stale and not status and not found:
        planted.write_sums(stale)
        print(f"gate: planted edits of {' '.join(stale)} are refused; {planted.SUMS} says so")
    counted = re.match(r"(\d+) passed, (\d+) failed", said[-1] if said else "")
    passed, failed = (int(counted[1]), int(counted[2])) if counted else (0, 1)
    print(f"{passed} passed, {failed + len(found)} failed")
    return status or bool(found)


if __name__ == "__main__":
    sys.exit(main())
