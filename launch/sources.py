"""What the program is made of: the crates of crates.txt below it, the kit's libraries below these, and the kit itself."""

import os
import pathlib
import re
import shutil

TOP = pathlib.Path(__file__).resolve().parent.parent
PROGRAM = "fabcommit"
# The heading of crates.txt before the crates of tests.
TESTS = "# == Tests"


class NoKit(Exception):
    """The kit isn't here, or isn't as these scripts know it; says what is lacking."""


def kit():
    """The kit's folder, found by `rt`."""
    rt = shutil.which("rt")
    if not rt:
        raise NoKit("there is no rt on the PATH: install Rattle's kit")
    return pathlib.Path(rt).resolve().parent.parent


def crates_txt(top):
    return (pathlib.Path(top) / "crates.txt").read_text()


def lines_in(text):
    """The lines of a crates.txt by the crates that they are of."""
    lines = (line.split("#")[0].strip() for line in text.splitlines())
    # after its name a crate may have counts of functions that wait
    return {line.split(":")[0].split()[0]: line for line in lines if ":" in line}


def all_crates(top=TOP):
    """The crates of crates.txt, each with the libraries that its line names."""
    return {name: line.split(":")[1].split() for name, line in lines_in(crates_txt(top)).items()}


def product(top=TOP):
    """The crates that the merge gate proves, all but those behind the heading Tests, with their lines of crates.txt."""
    return lines_in(crates_txt(top).partition(TESTS)[0])


def crates_below(program=PROGRAM, top=TOP):
    """The crates that a program is made of and itself, each with the libraries that its line names, lowest first."""
    crates, found = all_crates(top), {}

    def visit(name):
        if name in found or name not in crates:
            return
        for below in crates[name]:
            visit(below)
        found[name] = crates[name]

    visit(program)
    return found


def all_below(name, crates):
    """The crates below one of them, lowest first."""
    found = {}
    for below in crates[name]:
        if below in crates:
            found.update(dict.fromkeys([*all_below(below, crates), below]))
    return list(found)


def of_kit(name, crates):
    """The kit's libraries that a crate may name."""
    return ["std", *[library for library in crates[name] if library not in crates]]


def kit_below(names, at):
    """These libraries of the kit and all below them, each with those that it names."""
    found, left = {}, list(names)
    while left:
        name = left.pop(0)
        if name in found:
            continue
        try:
            text = (at / "rlibs" / f"{name}.rlib" / "format").read_text(encoding="utf-8", errors="replace")
        except OSError as error:
            raise NoKit(f"the kit has no library {name}") from error
        found[name] = re.findall(r"^dep (\w+)$", text, re.M)
        left += found[name]
    return found


def processors():
    """How many processors there are to use, by the control group's quota too."""
    count = len(os.sched_getaffinity(0))
    try:
        quota, period = pathlib.Path("/sys/fs/cgroup/cpu.max").read_text().split()
        count = min(count, max(int(quota) // int(period), 1))
    except (OSError, ValueError):
        pass
    return count
