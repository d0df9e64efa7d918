#!/usr/bin/env python3
"""Refuses each allocation of each call that tests of memory make, once, and fails where anything comes of it but what
may.

Run as `bench/refused_memory.py [SUBJECT ..]` from anywhere, on a machine that has the kit; it proves nothing. For
each subject it builds the tests' crate in a scratch folder, by `rt try`, with a test for each allocation: that one
first makes so many allocations of its own that the one which is refused is the first, second, third .. of the
subject's.

What a test then tells is counted: `beside`, where memory was refused to what the test does before or behind the call,
which ended the test by that error; `made good`, where the call answered want of memory, left all as it was, and did
what it was to do when it was called again; `done`, where the call did what it does otherwise, so that it does without
that memory. Anything else is a failure, and is shown; `stopped` too, where a committer or a publisher stopped, and
handles answer what was published before.

`allocations` is how many there are from the call on, with those by which the test looks at what is left: each of them
is refused once, or with `--at-most` so many of a subject, evenly drawn. The last line sums the columns up. Each crate
is built twice to count them, and then once for each thousand that are refused; a build with its tests is ended after
`--minutes`, 30 where it isn't given. What wasn't tried by then is a failure.
"""

import argparse
import pathlib
import re
import shutil
import subprocess
import sys
import tempfile
import time

TOP = pathlib.Path(__file__).resolve().parent.parent

# Subjects: the crate of tests, the file, and the call that tells the outcome.
SUBJECTS = {
    "ledger": ("ledger_tests", "memory.rt", "outcome(rt.alloc())"),
    "update": ("ledger_tests", "memory.rt", "outcome_of_update(rt.alloc())"),
    "reasons_from_state": ("ledger_tests", "explained_memory.rt", "outcome(rt.alloc())"),
    "committer": ("query_tests", "committer_memory.rt", "outcome(&rt, rt.alloc(), &SUBMITTING)"),
    "run of a committer": ("query_tests", "committer_memory.rt", "outcome(&rt, rt.alloc(), &RUNNING)"),
    "committer's update": ("query_tests", "committer_memory.rt", "outcome(&rt, rt.alloc(), &UPDATING)"),
    "run of updates": ("query_tests", "committer_memory.rt", "outcome(&rt, rt.alloc(), &RUNNING_UPDATES)"),
    "channel text": ("text_tests", "channels/memory.rt", "outcome(rt.alloc())"),
    "key book": ("text_tests", "key_books.rt", "outcome_of_good(rt.alloc())"),
    "faulty key book": ("text_tests", "key_books.rt", "outcome_of_faulty(rt.alloc())"),
    "bytes of an update": ("bytes_tests", "updates/memory.rt", "outcome(rt.alloc())"),
    "opening": ("query_tests", "memory.rt", "outcome_of_opening(&rt, rt.alloc())"),
    "publishing": ("query_tests", "memory.rt", "outcome_of_publishing(&rt, rt.alloc())"),
    "queries": ("query_tests", "memory.rt", "outcome_of_asking(&rt, rt.alloc())"),
    "state": ("state_tests", "pages.rt", "outcome(rt.alloc())"),
    "growing history": ("state_tests", "histories.rt", "outcome(rt.alloc())"),
    "world": ("state_tests", "worlds.rt", "outcome(rt.alloc())"),
    "given delta": ("state_tests", "worlds.rt", "outcome_of_giving(rt.alloc())"),
    "drafting": ("draft_tests", "memory.rt", "outcome(rt.alloc())"),
    "draft": ("command_line_tests", "memory.rt", "outcome_of_draft(&rt)"),
    "run": ("command_line_tests", "memory.rt", "outcome_of_answer(&rt, RUN)"),
    "get": ("command_line_tests", "memory.rt", "outcome_of_answer(&rt, GET)"),
    "scan": ("command_line_tests", "memory.rt", "outcome_of_answer(&rt, SCAN)"),
    "history": ("command_line_tests", "memory.rt", "outcome_of_answer(&rt, HISTORY)"),
    "definition": ("command_line_tests", "memory.rt", "outcome_of_answer(&rt, DEFINITION)"),
    "show": ("command_line_tests", "memory.rt", "outcome_of_answer(&rt, SHOW)"),
    "explain": ("command_line_tests", "memory.rt", "outcome_of_explain(&rt)"),
    "explain by id": ("command_line_tests", "memory.rt", "outcome_of_id(&rt)"),
    "conflicts": ("command_line_tests", "memory.rt", "outcome_of_conflicts(&rt)"),
    "explain --dot": ("command_line_tests", "memory.rt", "outcome_of_graph(&rt)"),
    "run --json": ("command_line_tests", "memory.rt", "outcome_of_objects(&rt, RUN_OBJECTS)"),
    "get --json": ("command_line_tests", "memory.rt", "outcome_of_objects(&rt, GET_OBJECTS)"),
    "scan --json": ("command_line_tests", "memory.rt", "outcome_of_objects(&rt, SCAN_OBJECTS)"),
    "history --json": ("command_line_tests", "memory.rt", "outcome_of_objects(&rt, HISTORY_OBJECTS)"),
    "definition --json": ("command_line_tests", "memory.rt", "outcome_of_objects(&rt, DEFINITION_OBJECT)"),
    "explain --json": ("command_line_tests", "memory.rt", "outcome_of_objects(&rt, EXPLAIN_OBJECTS)"),
    "conflicts --json": ("command_line_tests", "memory.rt", "outcome_of_objects(&rt, CONFLICTS_OBJECTS)"),
    "session": ("command_line_tests", "session/memory.rt", "outcome_of_session(&rt)"),
}

# The allocation of a process that is refused. No subject makes so many.
REFUSED = 20_000

# How the subject ends, as an error of a test, and whether the allocation was refused by then. A test that fails tells its error.
COUNTED = """
fn is_had(alloc: std::alloc::Global) -> bool {
    Vec::<u8>::with_capacity(alloc, 1).is_ok()
}

fn are_had(alloc: std::alloc::Global, count: u32) -> bool {
    for _ in 0..count {
        if !is_had(alloc) {
            return false;
        }
    }
    true
}

fn said(outcome: &Result<Outcome, Failed>) -> &'static str {
    match outcome {
        Ok(Outcome::Done) => "done",
        Ok(Outcome::MadeGood) => "made good",
        Ok(Outcome::Stopped) => "stopped",
        Err(failed) if failed.is_memory() => "beside",
        _ => "wrong",
    }
}

fn outcome_told(outcome: Result<Outcome, Failed>, was_refused: bool) -> Result<(), Failed> {
    match (said(&outcome), was_refused) {
        ("done", false) => Err(Failed::Missing("told: not reached")),
        ("done", true) => Err(Failed::Missing("told: done")),
        ("made good", true) => Err(Failed::Missing("told: made good")),
        ("stopped", true) => Err(Failed::Missing("told: stopped")),
        ("beside", true) => Err(Failed::Missing("told: beside")),
        _ => match outcome {
            Err(failed) => Err(failed),
            Ok(_) => Err(Failed::Missing("wrong")),
        },
    }
}
"""

# How many tests one build has at most.
AT_ONCE = 1_000

# What the runtime of a crate's tests has; outside a test only what is named.
WITH_THREADS = "AllocGlobal + std::thread::Threads + std::sync::Wait + Sync"
BOUNDS = {"query_tests": WITH_THREADS, "command_line_tests": WITH_THREADS}

# Stands in the place of the mark at which a call begins, and tells how many allocations there were before.
BEGINS = """
use crate::text::Text;

pub fn begins(alloc: Global) -> Result<(), Failed> {
    let mut left = 0u32;
    while left < REFUSED && Vec::<u8>::with_capacity(alloc, 1).is_ok() {
        left += 1;
    }
    let before = REFUSED - 1 - left;
    Err(Failed::Fault(Text::of(&before)))
}
"""

# How many allocations a subject makes before the call, by that mark, or in all, by what is had behind it.
BEFORE = """
#[test]
fn before_NUMBER(rt: HostRuntime) -> Result<(), Failed> {
    CALL?;
    Ok(())
}
"""

TOTAL = """
#[test]
fn total_NUMBER(rt: HostRuntime) -> Result<(), Failed> {
    let outcome = CALL;
    let mut left = 0u32;
    while left < REFUSED && is_had(rt.alloc()) {
        left += 1;
    }
    let total = REFUSED - 1 - left;
    assert!(rt; outcome.is_err(), "told: {total}");
    Ok(())
}
"""

PLACE = """
#[test]
fn at_NUMBER_PLACE(rt: HostRuntime) -> Result<(), Failed> {
    tell_NUMBER(&rt, PLACE)
}
"""

TELL = """
fn tell_NUMBER<R: BOUNDS>(rt: &R, place: u32) -> Result<(), Failed> {
    if !are_had(rt.alloc(), REFUSED - place) {
        return Err(Failed::Missing("too early"));
    }
    let outcome = LENT;
    outcome_told(outcome, are_had(rt.alloc(), REFUSED))
}
"""

COLUMNS = ["refused", "beside", "done", "made good", "stopped", "failed"]
ROW = "| {:<20} |" + " {:>11} |" + " {:>9} |" * 6


def copied(folder):
    """The sources of all crates, and what names them."""
    shutil.copy(TOP / "crates.txt", folder)
    shutil.copy(TOP / "HANDLES", folder)
    without = shutil.ignore_patterns("out", "must-fail")
    shutil.copytree(TOP / "crates", folder / "crates", ignore=without)
    # what the copies are made of anew before each build
    shutil.copytree(folder / "crates", folder / "originals")


def without_tests(text):
    return re.sub(r"^#\[test\]\n.*?^}\n", "", text, flags=re.M | re.S)


def with_counting(text):
    """The file with the mark, which counts in place of doing nothing."""
    head, rest = text.split("use crate::failed::Failed;\nuse std::alloc::Global;\n")
    types = rest.split("/// Marks")[0]
    return head + "use crate::failed::Failed;\nuse std::alloc::Global;\n" + types + BEGINS.replace("REFUSED", str(REFUSED))


def said_of(folder, crate, tests, seconds, counts=False):
    """What is said of each test of a crate that has these tests alone: texts by subjects, appended to their files."""
    mark = pathlib.Path("test_support/src/outcome.rt")
    text = (folder / "originals" / mark).read_text()
    (folder / "crates" / mark).write_text(with_counting(text) if counts else text)
    sources = folder / "crates" / crate / "src"
    for path in sources.rglob("*.rt"):
        original = folder / "originals" / path.relative_to(folder / "crates")
        path.write_text(without_tests(original.read_text()))
    begun = set()
    for subject, text in tests.items():
        _, file, call = SUBJECTS[subject]
        words = {"NUMBER": list(SUBJECTS).index(subject), "CALL": call, "LENT": call.replace("&rt", "rt"), "REFUSED": REFUSED}
        words["BOUNDS"] = BOUNDS.get(crate, "AllocGlobal")
        for word, meant in words.items():
            text = text.replace(word, str(meant))
        with open(sources / file, "a") as out:
            out.write(("" if file in begun else COUNTED) + text)
        begun.add(file)
    words = ["rt", "try", "--test", "--fail-alloc", str(REFUSED)]
    done = subprocess.Popen(words, cwd=folder / "crates" / crate, stdout=subprocess.PIPE, stderr=subprocess.STDOUT, text=True)
    try:
        said, _ = done.communicate(timeout=seconds)
    except subprocess.TimeoutExpired:
        done.terminate()
        said, _ = done.communicate()
    return said, re.split(r"^test ", said, flags=re.M)[1:]


def numbers_of(folder, crate, text, subjects, seconds, counts):
    """What such a test tells of each subject."""
    said, parts = said_of(folder, crate, {subject: text for subject in subjects}, seconds, counts)
    numbers = {}
    for part in parts:
        found = re.match(r"\S*?_(\d+) .*?(told: |Fault\()(\d+)", part, flags=re.S)
        if found:
            numbers[list(SUBJECTS)[int(found[1])]] = int(found[3])
    if len(numbers) < len(subjects):
        sys.exit(f"{crate}: allocations weren't counted\n{said[-3000:]}")
    return numbers


def in_parts(places):
    """The places of all subjects, in lists of at most as many as a build has tests."""
    flat = [(subject, place) for subject, some in places.items() for place in some]
    for start in range(0, len(flat), AT_ONCE):
        part = {}
        for subject, place in flat[start : start + AT_ONCE]:
            part.setdefault(subject, []).append(place)
        yield part


def told_of(folder, crate, places, seconds):
    """What each place of each subject tells, or how its test failed."""
    told = {subject: {} for subject in places}
    for part in in_parts(places):
        for subject, of_part in told_of_part(folder, crate, part, seconds).items():
            told[subject].update(of_part)
    return told


def told_of_part(folder, crate, places, seconds):
    """The same of places for which one build has tests."""
    tests = {subject: TELL + "".join(PLACE.replace("PLACE", str(place)) for place in some) for subject, some in places.items()}
    said, parts = said_of(folder, crate, tests, seconds)
    told = {subject: {} for subject in places}
    for part in parts:
        found = re.match(r"\S*?at_(\d+)_(\d+) \.\.\. (?:ok|FAILED)", part)
        if found:
            error = re.search(r"told: ([a-z ]+)", part)
            told[list(SUBJECTS)[int(found[1])]][int(found[2])] = error[1] if error else part.strip()
    if not any(told.values()):
        sys.exit(f"{crate}: nothing was tried\n{said[-3000:]}")
    return told


def is_fine(subject, calls, wanted, told, sums):
    """Prints the subject's line, and its failures, and adds the line to the sums."""
    counts = {what: list(told.values()).count(what) for what in ("beside", "done", "made good", "stopped")}
    failures = {place: what for place, what in told.items() if what not in counts and what != "not reached"}
    tries = sum(counts.values()) + len(failures)
    line = [calls, tries, *counts.values(), len(failures)]
    print(ROW.format(subject, *line), flush=True)
    sums[:] = [one + other for one, other in zip(sums, line)]
    for place, what in failures.items():
        print(f"{subject}: allocation {place}: {what}", flush=True)
    left = len(wanted) - len(told)
    if left:
        print(f"{subject}: {left} weren't tried in time", flush=True)
        return False
    if not counts["made good"]:
        print(f"{subject}: no call answered want of memory", flush=True)
        return False
    return not failures and not counts["stopped"]


def evenly(before, total, at_most):
    """The numbers behind the one up to the other, or at most so many of them."""
    step = -(-(total - before) // at_most) if at_most else 1
    return range(before + 1, total + 1, max(1, step))


def main():
    words = argparse.ArgumentParser(description=__doc__, formatter_class=argparse.RawDescriptionHelpFormatter)
    words.add_argument("subjects", nargs="*", metavar="SUBJECT", help=", ".join(SUBJECTS))
    words.add_argument("--at-most", type=int)
    words.add_argument("--minutes", type=float, default=30)
    asked = words.parse_args()
    unknown = set(asked.subjects) - set(SUBJECTS)
    if unknown:
        words.error(f"no subject: {', '.join(sorted(unknown))}")
    wanted = asked.subjects or list(SUBJECTS)
    print(ROW.format("call", "allocations", *COLUMNS))
    print("|---" + "|---:" * 7 + "|", flush=True)
    are_fine, sums = True, [0] * 7
    with tempfile.TemporaryDirectory() as name:
        folder = pathlib.Path(name)
        copied(folder)
        for crate in dict.fromkeys(SUBJECTS[subject][0] for subject in wanted):
            subjects = [subject for subject in wanted if SUBJECTS[subject][0] == crate]
            seconds = asked.minutes * 60
            before = numbers_of(folder, crate, BEFORE, subjects, seconds, True)
            total = numbers_of(folder, crate, TOTAL, subjects, seconds, False)
            places = {subject: evenly(before[subject], total[subject], asked.at_most) for subject in subjects}
            told = told_of(folder, crate, places, seconds)
            for subject in subjects:
                are_fine &= is_fine(subject, total[subject] - before[subject], places[subject], told[subject], sums)
    print(ROW.format("all", *sums))
    sys.exit(0 if are_fine else 1)


main()
