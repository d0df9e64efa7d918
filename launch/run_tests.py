#!/usr/bin/env python3
"""Runs the tests. Nothing is proved by this.

    ./test              formats, pages, texts of wrong bodies, the launcher, the program on its sample, and all tests
    ./test CRATE ..     the formats of these crates, and the tests that reach them
    ./test TEST ..      these tests, by the names that a failed one is told by

All tests are compiled as one program, in which what a proof would have shown is checked, and each is run in a process and a folder of
its own. The status is 0 if all is well, 1 if not, 2 if a word isn't known, and 130 if the call was interrupted.
"""

import contextlib
import pathlib
import re
import sys
import tempfile
import threading
import time
from concurrent.futures import ThreadPoolExecutor

sys.dont_write_bytecode = True

import quick
import sources
import test_program
from costs import Costs
from processes import Running, end_by_signals
from sources import PROGRAM, TOP, NoKit

# The seconds that a test may take, and those of silence after which it is said what is at work.
SECONDS, SILENCE = 60, 20
# The processor seconds that a whole run took, on the machine of launch/costs.txt.
WHOLE = 420
# Checks of a whole run that need no program.
SCRIPTS = (".ci/pages.py", ".ci/callers.py", "docs/map.py --check", "docs/pictures/draw.py --check", "bench/proof/theorem_page.py --check",
           "bench/proof/planted.py --check", "launch/test.py")
NOTHING_PROVED = """Nothing is proved by this: the code met no fault on these inputs. What it can't find: a `requires` that a caller breaks,
an `ensures` or a definition in specs/ that is wrong or says too little, an overflow, a wrong index or a division by 0 on other
inputs, and a race that no run meets. `rt ci CRATE` proves a crate and those below it, `./prove` the program."""


def is_test(name):
    return name.endswith("_tests")


def all_below(name, crates):
    return {name}.union(*(all_below(below, crates) for below in crates.get(name, ())))


def tests_of(name, crates):
    """The test crates that reach a crate: itself, or those that it is below."""
    return {other for other in crates if is_test(other) and name in all_below(other, crates)}


def has_only_laws(name):
    """Whether no function of a library does anything but call others that don't: then there is nothing to run."""
    text = "".join(file.read_text() for file in (TOP / "crates" / name / "src").rglob("*.rt"))
    functions = re.findall(r'^ *(?:pub(?:\(\w+\))? )?(?:(?:const|unsafe|extern "C") )*fn ', text, re.M)
    return len(functions) == len(re.findall(r"^\{(?:\}|\n(?: {4}[\w:]+\(\);\n)+\})$", text, re.M))


def unreached(crates):
    """The libraries that no test reaches, though something in them runs. A static library, which no crate can name, has its clients."""
    reached = set().union(*(all_below(test, crates) for test in crates if is_test(test)))
    statics = re.findall(r"^(\w+) staticlib\b", (TOP / "crates.txt").read_text(), re.M)
    left = (name for name in crates if name not in reached and test_program.is_library(name))
    return [name for name in left if name not in statics and not has_only_laws(name)]


class Report:
    """Prints each step as it ends, and counts. After some silence it says what is at work."""

    def __init__(self):
        self.began, self.passed, self.failed, self.at_work = time.monotonic(), 0, 0, []
        self.said, self.lock, self.is_over = self.began, threading.Lock(), threading.Event()

    def __enter__(self):
        threading.Thread(target=self.watch, daemon=True).start()
        return self

    def __exit__(self, *_):
        self.is_over.set()

    def watch(self):
        while not self.is_over.wait(1):
            if time.monotonic() - self.said >= SILENCE and self.at_work:
                self.line(f"at work: {', '.join(self.at_work)}")

    def line(self, what):
        with self.lock:
            self.said = time.monotonic()
            print(f"test: {what} ({self.said - self.began:.0f} s)", flush=True)

    def ended(self, what, is_well, said=""):
        with self.lock:
            self.passed, self.failed = self.passed + is_well, self.failed + (not is_well)
            if not is_well:
                print(said.rstrip(), flush=True)
        self.line(f"{what}: {'passed' if is_well else 'FAILED'}")

    @contextlib.contextmanager
    def doing(self, what):
        self.at_work.append(what)
        try:
            yield
        finally:
            self.at_work.remove(what)


class Tests:
    """A run of the tests, in a folder for work."""

    def __init__(self, report, running, crates, work):
        self.report, self.running, self.crates, self.work, self.kit = report, running, crates, work, sources.kit()

    def formats(self, names):
        files = [it for name in names for part in ("src", "specs", "proofs") for it in sorted((TOP / "crates" / name / part).rglob("*"))]
        files = [it.relative_to(TOP) for it in files if it.suffix in (".rt", ".antt")]
        status, said = self.running.run([self.kit / "bin" / "rattle", "fmt", "--check", *files], cwd=TOP)
        self.report.ended(f"formats of {len(files)} files", not status, f"{said[-3000:]}\n`rt fmt` in the crate's folder lays them out")

    def script(self, *words):
        status, said = self.running.run([sys.executable, *words], cwd=TOP)
        self.report.ended(" ".join(words), not status, said[-3000:])

    def sample(self):
        """Runs the program on its sample; the launcher builds it first, if its sources changed."""
        crate, said = TOP / "crates" / PROGRAM, self.work / "stderr"
        words = [TOP / PROGRAM, *(crate / "args").read_text().splitlines()]
        with self.report.doing("building the program"), said.open("w") as stderr:
            status, wrote = self.running.run(words, cwd=crate / "data", stderr=stderr)
        is_well = (status, wrote) == (int((crate / "status").read_text()), (crate / "stdout").read_text())
        why = f"it ended with {status}, or wrote other lines than crates/{PROGRAM}/stdout has"
        self.report.ended("the program on its sample", is_well, f"{said.read_text()[-3000:]}{why}")

    def reached(self):
        left = unreached(self.crates)
        self.report.ended("each library is reached by a test", not left, f"no test reaches {', '.join(left)}")

    def build(self, tests, more):
        """The program of these test crates, or none if it doesn't compile."""
        try:
            with self.report.doing(f"compiling the tests of {len(tests)} crates"):
                program = test_program.build(self.running, self.kit, tests, self.crates, more, self.work)
            self.report.line(f"compiled {' '.join(tests)}")
            return program
        except quick.Refused as error:
            self.report.ended("the tests' sources", False, test_program.in_sources(str(error), self.work))
            return None

    def run_one(self, program, name):
        with tempfile.TemporaryDirectory(dir=self.work) as room:
            words = [self.kit / "bin" / "rattle-test", "--seconds", SECONDS, "--filter", name, program]
            return name, *self.running.run(words, cwd=room)

    def run(self, program, only):
        """Runs the tests, those that are named if some are."""
        listed = self.running.run([program, "--list"])[1].splitlines()
        names = [line.removesuffix(": test") for line in listed if line.endswith(": test")]
        names = [name for name in names if not only or name in only]
        for name in only - set(names):
            self.report.ended(name, False, f"there is no test {name}")
        if not names:
            self.report.ended("tests", False, "there is no test")
        with ThreadPoolExecutor(sources.processors()) as pool, self.running.ending(), self.report.doing("running the tests"):
            for name, status, said in pool.map(lambda name: self.run_one(program, name), names):
                if status:
                    said = test_program.in_sources(said, self.work)
                    self.report.ended(name, False, f"{said}{test_program.place_of(name)}: failed; alone: ./test {name}")
                else:
                    self.report.passed += 1
        self.report.line(f"{len(names)} tests ran")


def print_costs(names):
    """Prints how long the proofs of these crates take."""
    costs = Costs(TOP)
    for name in names:
        if name in costs:
            print(f"test: to prove {name} takes a processor about {costs[name].seconds} seconds, and as long as that each crate above it takes if a "
                  "contract of it changes")


def run_all(report, running, crates, work):
    tests = Tests(report, running, crates, work)
    named = [name for name in crates if is_test(name)]
    print(f"test: {len(named)} test crates, the program, the pages: some {WHOLE / sources.processors() / 60:.0f} minutes", flush=True)
    with ThreadPoolExecutor(8) as pool, running.ending():
        steps = [pool.submit(tests.formats, [*crates]), pool.submit(tests.reached), pool.submit(tests.sample)]
        steps += [pool.submit(tests.script, *words.split()) for words in SCRIPTS]
        # the types of all libraries are checked with the tests'
        program = tests.build(named, [name for name in crates if not is_test(name) and test_program.is_library(name)])
        if program:
            tests.run(program, set())
        for step in steps:
            step.result()


def run_some(report, running, crates, work, words):
    tests, only = Tests(report, running, crates, work), {word for word in words if "::" in word}
    names = [word for word in words if word not in only]
    named = {test for name in names for test in tests_of(name, crates)} | {word.split("::")[0] for word in only}
    if names:
        tests.formats(names)
        print_costs(names)
    more = [name for name in names if not is_test(name) and test_program.is_library(name)]
    if not named:
        report.ended("tests", not more, f"no test reaches {' '.join(names)}")
        return
    program = tests.build([name for name in crates if name in named], more)
    if program:
        tests.run(program, only)


def main(words):
    if set(words) & {"-h", "--help"}:
        print(__doc__.strip())
        return 0
    crates = sources.all_crates()
    unknown = [word for word in words if word.split("::")[0] not in crates]
    if unknown:
        print(f"test: crates.txt has no {' '.join(unknown)}; ./test --help says what can be named", file=sys.stderr)
        return 2
    end_by_signals()
    running = Running()
    try:
        with tempfile.TemporaryDirectory(prefix="test-") as work, Report() as report, running.ending():
            work = pathlib.Path(work)
            if words:
                run_some(report, running, crates, work, words)
            else:
                run_all(report, running, crates, work)
    except NoKit as error:
        print(f"test: this kit gives no program without proofs: {error}", file=sys.stderr)
        return 1
    finally:
        running.end()
    print(NOTHING_PROVED)
    print(f"{report.passed} passed, {report.failed} failed")
    return 1 if report.failed else 0


if __name__ == "__main__":
    sys.exit(main(sys.argv[1:]))
