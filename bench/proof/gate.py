#!/usr/bin/env python3
"""What each call of the prover costs in a whole merge gate, from nothing: processor time, time by the clock, largest process.

gate.py [--commit REV] [--processors N] [--keep FILE] [--sampled] [WORD ..]: clones the repository's commit into a
temporary folder and runs the words there, `rt ci` if none is given, by a copy of the kit's `rt` before whose prover a
recorder stands. Prints what it said, and then a table. With `--sampled` the machine's own kit runs, so that `rt ci`
keeps what passes; its processes are looked at once a second, and shorter ones are missed.

`gate.py --read FILE [--by-call]` prints the table of a run that was kept, and `gate.py --read FILE --costs` the lines of
`launch/costs.txt` (`launch/costs.py`), by which `./prove` plans.
"""

import argparse
import collections
import json
import os
import pathlib
import re
import shutil
import subprocess
import sys
import tempfile
import threading
import time

sys.dont_write_bytecode = True
sys.path.append(str(pathlib.Path(__file__).resolve().parent.parent))

import scratch

sys.path.append(str(scratch.TOP / "launch"))

from calls import PROGRAMS, crate_of, kind_of

# What stands in the prover's place: it runs the prover, and writes a line of what that took.
RECORDER = """#!{python} -IS
import json, os, resource, sys, time
began = time.time()
child = os.fork()
if not child:
    os.execv({real!r}, sys.argv)
status = os.waitstatus_to_exitcode(os.waitpid(child, 0)[1])
used = resource.getrusage(resource.RUSAGE_CHILDREN)
line = dict(words=sys.argv[1:], folder=os.getcwd(), began=began, ended=time.time(), processor=used.ru_utime + used.ru_stime)
line.update(megabytes=used.ru_maxrss // 1024, status=status, program={name!r})
with open({record!r}, "a") as file:
    file.write(json.dumps(line) + "\\n")
sys.exit(status if status >= 0 else 128 - status)
"""
KINDS = ["proof", "tests", "edits: first", "edits: others", "builds", "runs"]


def recording_kit(at, record):
    """A kit like the machine's whose programs are recorded: links, but for what finds the kit by its own place."""
    kit = pathlib.Path(shutil.which("rt")).resolve().parent.parent
    (at / "bin").mkdir(parents=True)
    for file in kit.iterdir():
        if file.name != "bin":
            (at / file.name).symlink_to(file)
    for file in (kit / "bin").iterdir():
        to = at / "bin" / file.name
        if file.name in PROGRAMS:
            to.write_text(RECORDER.format(python=sys.executable, real=str(file), name=file.name, record=str(record)))
            to.chmod(0o755)
        elif file.suffix == ".py" or file.name == "rt":
            shutil.copy2(file, to)
        else:
            to.symlink_to(file)
    return at / "bin" / "rt"


class Samples(threading.Thread):
    """Looks once a second at the kit's programs that run with a mark in their environment, and writes a line of each that ended."""

    def __init__(self, mark, record):
        super().__init__(daemon=True)
        self.mark, self.record, self.lines, self.others, self.ended = mark.encode(), record, {}, set(), threading.Event()

    def run(self):
        while not self.ended.wait(1):
            self.look()
        self.write(list(self.lines))

    def look(self):
        alive = set()
        for folder in pathlib.Path("/proc").glob("[0-9]*"):
            try:
                alive.add(self.look_at(folder))
            except OSError:
                # it ended meanwhile
                continue
        self.write([it for it in self.lines if it not in alive])

    def look_at(self, folder):
        fields = (folder / "stat").read_text().rsplit(")", 1)[1].split()
        it = (folder.name, fields[19])
        if it in self.others:
            return it
        words = (folder / "cmdline").read_bytes().decode(errors="replace").split("\0")[:-1]
        name = pathlib.Path(words[0]).name if words else ""
        if it not in self.lines and self.mark not in (folder / "environ").read_bytes():
            self.others.add(it)
            return it
        if name not in PROGRAMS:
            # it may become one
            return it
        used = sum(int(ticks) for ticks in fields[11:15]) / os.sysconf("SC_CLK_TCK")
        most = re.search(r"VmHWM:\s+(\d+)", (folder / "status").read_text())
        line = self.lines.setdefault(it, dict(words=words[1:], folder=os.readlink(folder / "cwd"), program=name, began=time.time(), status=None))
        line.update(ended=time.time(), processor=used, megabytes=int(most[1]) // 1024 if most else line.get("megabytes", 0))
        return it

    def write(self, ended):
        with open(self.record, "a") as file:
            for it in ended:
                file.write(json.dumps(self.lines.pop(it)) + "\n")


def kinds_of(calls):
    """Each call with its crate and kind, in the order in which they began."""
    seen = collections.Counter()
    for call in sorted(calls, key=lambda call: call["began"]):
        crate = crate_of(call["words"], call["program"])
        if not crate:
            continue
        kind = kind_of(call["words"], call["program"], call["folder"])
        if kind == "edits":
            # What an edit's check finds proved of the crate is kept for the next one: so the first proves all of it.
            kind = "edits: others" if seen[crate] else "edits: first"
            seen[crate] += 1
        yield crate, kind, call


def costs(file):
    took = collections.defaultdict(lambda: collections.defaultdict(list))
    for crate, kind, call in kinds_of(calls_in(file)):
        took[crate][kind.partition(":")[0]].append(call)
    for crate in sorted(took):
        seconds = lambda kind: round(sum(call["processor"] for call in took[crate][kind]))
        most = max((call["megabytes"] for call in took[crate]["proof"]), default=0)
        print(crate, seconds("proof"), most, *([seconds("tests"), seconds("edits")] if took[crate]["tests"] or took[crate]["edits"] else []))


def calls_in(file):
    return [json.loads(line) for line in file.read_text().splitlines()]


def read(file, by_call):
    calls = calls_in(file)
    took = collections.defaultdict(lambda: collections.defaultdict(list))
    for crate, kind, call in kinds_of(calls):
        took[crate][kind].append(call)
        if by_call:
            print(f"{crate}\t{kind}\t{call['processor']:.1f}\t{call['ended'] - call['began']:.1f}\t{call['megabytes']}\t{call['status']}")
    seconds = lambda crate, kind: sum(call["processor"] for call in took[crate][kind])
    whole = lambda crate: sum(seconds(crate, kind) for kind in KINDS)
    print(f"| crate | {' | '.join(KINDS)} | all | largest process, MB |")
    print("|---" * (len(KINDS) + 3) + "|")
    for crate in sorted(took, key=whole, reverse=True):
        cells = [f"{seconds(crate, kind):.0f}" if took[crate][kind] else "" for kind in KINDS]
        most = max(call["megabytes"] for calls in took[crate].values() for call in calls)
        print(f"| {crate} | {' | '.join(cells)} | {whole(crate):.0f} | {most} |")
    sums = [sum(seconds(crate, kind) for crate in took) for kind in KINDS]
    print(f"| all | {' | '.join(f'{it:.0f}' for it in sums)} | {sum(sums):.0f} | |")
    if not calls:
        print("\nno calls: all was kept")
        return
    began, ended = min(call["began"] for call in calls), max(call["ended"] for call in calls)
    print(f"\n{len(calls)} calls, {sum(sums) / 60:.1f} processor minutes in {(ended - began) / 60:.1f} minutes")


def peak_of_all(stop_at):
    """The most memory in use on the machine, sampled by the second by a process of its own, which writes it at the end."""
    code = (
        "import sys, time\n"
        "most = 0\n"
        "free = lambda: {a: int(b.split()[0]) for a, b in (l.split(':') for l in open('/proc/meminfo'))}\n"
        "while True:\n"
        "    it = free(); most = max(most, it['MemTotal'] - it['MemAvailable'])\n"
        "    open(sys.argv[1], 'w').write(str(most // 1024))\n"
        "    time.sleep(1)\n"
    )
    return subprocess.Popen([sys.executable, "-c", code, stop_at])


def main():
    words = argparse.ArgumentParser(description=__doc__, formatter_class=argparse.RawDescriptionHelpFormatter)
    words.add_argument("--commit", default="HEAD")
    words.add_argument("--processors", type=int)
    words.add_argument("--keep", type=pathlib.Path)
    words.add_argument("--read", type=pathlib.Path)
    words.add_argument("--sampled", action="store_true")
    words.add_argument("--by-call", action="store_true")
    words.add_argument("--costs", action="store_true")
    words.add_argument("command", nargs="*", default=["rt", "ci"])
    given = words.parse_args()
    if given.read:
        return costs(given.read) if given.costs else read(given.read, given.by_call)
    with tempfile.TemporaryDirectory(prefix="gate-") as folder:
        room = pathlib.Path(folder)
        record = (given.keep or room / "record").absolute()
        record.write_text("")
        environment, samples = dict(os.environ), None
        if given.sampled:
            environment["SAMPLED"] = folder
            samples = Samples(f"SAMPLED={folder}", record)
            samples.start()
        else:
            environment["PATH"] = f"{recording_kit(room / 'kit', record).parent}:{os.environ['PATH']}"
        clone = room / "mittcoomb"
        subprocess.run(["git", "clone", "-q", scratch.TOP, clone], check=True)
        subprocess.run(["git", "checkout", "-q", given.commit], cwd=clone, check=True)
        if given.processors:
            os.sched_setaffinity(0, list(os.sched_getaffinity(0))[: given.processors])
        machine, memory, began = scratch.Machine(), peak_of_all(str(room / "peak")), time.time()
        status = subprocess.run(given.command, cwd=clone, env=environment).returncode
        minutes = (time.time() - began) / 60
        memory.terminate()
        if samples:
            samples.ended.set()
            samples.join()
        read(record, given.by_call)
        print(f"{' '.join(given.command)}: status {status}, {minutes:.1f} minutes; most memory in use {(room / 'peak').read_text()} MB; {machine}")
    return status


if __name__ == "__main__":
    sys.exit(main())
