#!/usr/bin/env python3
"""Proves all that the program is made of, builds it as crates/fabcommit/out/PROCESSOR/fabcommit, and tries it on its sample.

`./prove` calls this. It proves as many crates side by side as there are processors and memory, first those that the longest chain
waits for, with as many processors each as make all of them end first (planning.py). What is proved is kept, so that a call that was
ended goes on, and another one behind a change proves what changed and what stands on that. Each crate is proved by the kit's prover
over what is proved of those below it, as the merge gate does; tests, must-fail edits, the second compiler and the search for
contracts that no call can meet are the gate's alone. The status is 0 where the program stands proved, 1 where not, and 130 where the
call was ended.
"""

import contextlib
import hashlib
import os
import pathlib
import shutil
import signal
import sys
import tempfile
import time
from concurrent.futures import FIRST_COMPLETED, ThreadPoolExecutor, wait

sys.dont_write_bytecode = True

import processor
import sources
from costs import Costs
from optimize import TARGET
from planning import Plan
from processes import Running, alone, end_by_signals, say
from sources import PROGRAM, TOP, NoKit

# What a job beside the first takes of a proof's memory.
JOB_PART = 0.6


class NotProved(Exception):
    """A crate that isn't proved, with what the prover said."""


class Proofs:
    """The crates below the program and itself, copied as they are now, and the folder in which their proofs are kept."""

    def __init__(self, work, kept):
        self.work, self.kept, self.kit, self.crates = work, kept, sources.kit(), sources.crates_below()
        self.processor = processor.at_hand()
        self.below = {name: [it for it in self.crates[name] if it in self.crates] for name in self.crates}
        for name in self.crates:
            for part in ("src", "specs", "proofs", "args", "stdout", "status", "data"):
                source, to = TOP / "crates" / name / part, work / name / part
                if source.is_dir():
                    shutil.copytree(source, to)
                elif source.exists():
                    to.parent.mkdir(exist_ok=True)
                    shutil.copy2(source, to)
        self.costs = Costs(TOP)
        self.plan = Plan({name: self.costs[name].seconds for name in self.crates}, self.below, sources.processors())

    def sum_of(self, name):
        """A sum of all that the crate's proof reads: the kit, its own files, and the libraries below as they were built."""
        parts = [self.crates[name], (self.kit / "KIT-ID").read_bytes(), (self.kit / "WHAT").read_bytes()]
        parts += [self.processor] if name == PROGRAM else []
        for part in ("src", "specs", "proofs"):
            files = sorted(it for it in (self.work / name / part).rglob("*") if it.is_file())
            parts += [(str(file.relative_to(self.work)), file.read_bytes()) for file in files]
        # a library's format has the sum of its files
        parts += [(self.kept / below / f"{below}.rlib" / "format").read_bytes() for below in sources.all_below(name, self.crates)]
        return hashlib.sha256(repr(parts).encode()).hexdigest()

    def is_kept(self, name):
        """Whether an earlier call proved the same, once the libraries below are there."""
        with contextlib.suppress(OSError):
            return (self.kept / name / "sum").read_text() == self.sum_of(name)
        return False

    def words(self, name, jobs):
        words = [self.kit / "bin" / "rattle", "build", "--crate-name", name, "src/main.rt" if name == PROGRAM else "src/lib.rt"]
        for library in sources.of_kit(name, self.crates):
            words += ["--extern", f"{library}={self.kit}/rlibs/{library}.rlib"]
        words += ["-L", f"dependency={self.kit}/rlibs"]
        for below in self.below[name]:
            words += ["--extern", f"{below}={self.kept}/{below}/{below}.rlib"]
        for below in sources.all_below(name, self.crates):
            words += ["-L", f"dependency={self.kept}/{below}"]
        words += ["--antt-project", self.kit / "rattle" / "logic" / "antt-project.json", "--logic-built", self.kit / "logic_built"]
        words += ["--links", f"{name}=", "--jobs", jobs]
        if name == PROGRAM:
            # only the program's own crate is compiled
            words += ["--cpu", self.processor] if self.processor != processor.EVERYWHERE else []
            return [*words, "--toolchain", self.kit / "toolchain", "--backend", "llvm", "-o", self.object()]
        return [*words, "--statements", "-o", self.kept / name / f"{name}.rlib"]

    def object(self):
        """Where the program's proved object file is kept."""
        return self.kept / PROGRAM / f"{PROGRAM}.o"

    def prove(self, run, name, jobs):
        """Proves a crate over what is kept of those below it, and keeps that."""
        shutil.rmtree(self.kept / name, ignore_errors=True)
        (self.kept / name).mkdir()
        status, said = run(self.words(name, jobs), cwd=self.work / name)
        if status == -signal.SIGKILL:
            # most likely for memory
            status, said = run(self.words(name, 1), cwd=self.work / name)
        if status:
            raise NotProved(f"{said}fabcommit: {name} isn't proved\n")
        (self.kept / name / "sum").write_text(self.sum_of(name))


def free_memory():
    """The memory that proofs may take, in MB."""
    known = dict(line.split(":") for line in pathlib.Path("/proc/meminfo").read_text().splitlines())
    free = int(known["MemAvailable"].split()[0]) // 1024
    with contextlib.suppress(OSError, ValueError):
        group = pathlib.Path("/sys/fs/cgroup")
        free = min(free, (int((group / "memory.max").read_text()) - int((group / "memory.current").read_text())) >> 20)
    return free * 0.85


class Shown:
    """Lines of how far it is; on a terminal each is written over the one before it."""

    def __init__(self, proofs):
        self.proofs, self.began, self.left, self.done, self.took = proofs, time.monotonic(), set(proofs.crates), 0, 0
        self.is_over = sys.stderr.isatty()

    def __enter__(self):
        return self

    def __exit__(self, *_):
        self.show("", "")

    def minutes(self):
        """How long it still takes, where a tenth is done: by what is left, or by the longest chain of it."""
        left = sum(self.proofs.costs[name].seconds for name in self.left)
        if not left or self.done < (self.done + left) / 10:
            return ""
        by_all = left * (time.monotonic() - self.began) / self.done
        by_chain = max(self.proofs.plan.chain[name] for name in self.left) * self.took / self.done / 2
        return f", about {max(by_all, by_chain) / 60:.0f} min left"

    def kept(self, name):
        self.left.discard(name)

    def proved(self, name, took):
        self.left.discard(name)
        self.done += self.proofs.costs[name].seconds
        self.took += took
        to_go = f"{len(self.left)} of {len(self.proofs.crates)} crates to go{self.minutes()}" if self.left else "as all below it are"
        self.show(f"fabcommit: {name} is proved, {to_go}", "\n")

    def show(self, text, end):
        if self.is_over:
            width = os.get_terminal_size(2).columns - 1
            text, end = f"\r{text[:width]:<{width}}", "" if text else "\r"
        sys.stderr.write(text + end)
        sys.stderr.flush()


def prove_all(proofs, running):
    """Proves each crate that isn't kept, once those below it are."""
    left, begun, ended, plan, memory = set(proofs.crates), {}, set(), proofs.plan, free_memory()
    say(f"proving {len(left)} crates by {plan.processors} processors, but those that are kept")

    def timed(name, jobs):
        began = time.monotonic()
        proofs.prove(running.run, name, jobs)
        return time.monotonic() - began

    def at_work():
        return {name: (max(end - time.monotonic(), 0), jobs) for name, end, jobs, _ in begun.values()}

    with ThreadPoolExecutor(plan.processors) as pool, Shown(proofs) as shown, running.ending():
        while left or begun:
            kept = [name for name in plan.ready(left, ended) if proofs.is_kept(name)]
            for name in kept:
                left.discard(name)
                ended.add(name)
                shown.kept(name)
            if kept:
                continue
            for name in plan.ready(left, ended):
                needs = proofs.costs[name].megabytes
                idle = plan.processors - sum(jobs for _, _, jobs, _ in begun.values())
                room = memory - sum(much for _, _, _, much in begun.values())
                if idle < 1 or begun and needs > room:
                    continue
                jobs = plan.jobs(name, left, ended, at_work())
                jobs = max(1, min(jobs, 1 + int((room / needs - 1) / JOB_PART)))
                left.discard(name)
                end = time.monotonic() + plan.took(name, jobs)
                begun[pool.submit(timed, name, jobs)] = name, end, jobs, needs * (1 + JOB_PART * (jobs - 1))
            for done in wait(begun, return_when=FIRST_COMPLETED).done:
                name = begun.pop(done)[0]
                took = done.result()
                ended.add(name)
                shown.proved(name, took)


def link(proofs, running):
    made = proofs.work / "program"
    words = [proofs.kit / "bin" / "rattle-link", "--target", TARGET, "--toolchain", proofs.kit / "toolchain", "-o", made, proofs.object()]
    status, said = running.run([*words, proofs.kit / "c" / "libos_c.a", proofs.kit / "c" / "liblibc_c.a"])
    if status:
        raise NotProved(f"{said}fabcommit: the proved program isn't linked\n")
    return made


def try_program(proofs, program, running):
    """Runs it on its sample: its lines and status are those that the gate asks for."""
    files = proofs.work / PROGRAM
    status, said = running.run([program, *(files / "args").read_text().splitlines()], cwd=files / "data", stderr=None)
    if (status, said) != (int((files / "status").read_text()), (files / "stdout").read_text()):
        raise NotProved(f"fabcommit: the proved program ended with {status} on its sample, or wrote other lines than it should\n")


def main():
    crate = TOP / "crates" / PROGRAM
    end_by_signals()
    running = Running()
    try:
        with alone(crate, "another ./prove or rt is at work in crates/fabcommit"), tempfile.TemporaryDirectory(prefix="prove-") as work:
            kept = crate / "out" / "rlib" / "proved"
            kept.mkdir(parents=True, exist_ok=True)
            work = pathlib.Path(work)
            # The program counts as old as this moment, for a source may change while it is built.
            (work / "began").touch()
            began = (work / "began").stat()
            proofs = Proofs(work, kept)
            prove_all(proofs, running)
            program = link(proofs, running)
            try_program(proofs, program, running)
            built = crate / "out" / proofs.processor / f"{PROGRAM}.new"
            built.parent.mkdir(exist_ok=True)
            shutil.copy2(program, built)
            os.utime(built, ns=(began.st_atime_ns, began.st_mtime_ns))
            os.replace(built, built.with_name(PROGRAM))
        say("the program is proved, built and tried: ./fabcommit runs it")
        return 0
    except NotProved as error:
        sys.stderr.write(str(error))
    except NoKit as error:
        say(str(error))
    except OSError as error:
        say(f"nothing is proved: {error}")
    finally:
        running.end()
    return 1


if __name__ == "__main__":
    sys.exit(main())
