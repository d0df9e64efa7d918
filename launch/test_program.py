"""The tests of several crates as one program, from their sources alone.

All test crates are laid out as one crate with a module for each, so that what is below them is read once.
"""

import os
import re

import optimize
import quick
from sources import TOP

ALL = "all_tests"


def is_library(name, top=TOP):
    return (top / "crates" / name / "src" / "lib.rt").exists()


def lay_out(tests, crates, more, at):
    """Writes a folder with a crates.txt whose last crate has these test crates as its modules, and names these other libraries too."""
    (at / "crates" / ALL / "src").mkdir(parents=True)
    for name in crates:
        (at / "crates" / name).symlink_to(TOP / "crates" / name)
    uses = dict.fromkeys(more)
    for test in tests:
        uses.update(dict.fromkeys(crates[test]))
        source = TOP / "crates" / test / "src"
        for file in sorted(it for it in source.rglob("*") if it.is_file()):
            below = file.relative_to(source)
            is_root = str(below) == "lib.rt"
            to = at / "crates" / ALL / "src" / (f"{test}.rt" if is_root else f"{test}/{below}")
            to.parent.mkdir(parents=True, exist_ok=True)
            text = re.sub(r"\bcrate::", f"crate::{test}::", file.read_text())
            # attributes of a crate are in its root alone; each leaves its line, since messages name lines
            to.write_text(re.sub(r"^#!\[.*\]$", "", text, flags=re.M) if is_root else text)
    modules = "".join(f"#[cfg(test)]\nmod {test};\n" for test in tests)
    (at / "crates" / ALL / "src" / "lib.rt").write_text(f"//! All tests.\n#![tactic(auto)]\n\n{modules}")
    (at / "crates.txt").write_text((TOP / "crates.txt").read_text() + f"\n{ALL}: {' '.join(uses)}\n")


def build(running, kit, tests, crates, more, work):
    """The program of these tests, with the checks of what a proof shows. The types of these other libraries are checked."""
    top, build = work / "top", work / "build"
    build.mkdir()
    lay_out(tests, crates, more, top)
    module = quick.module_of(running, kit, build, ALL, top, is_tests=True)
    return optimize.linked(running, kit, build, optimize.compiled(running, kit, build, module, False, optimize.CHECKED))


def in_sources(said, work):
    """What was said, with the repository's files and names in place of those of the folder that was compiled."""
    top = work / "top"
    said = re.sub(rf"(?:{re.escape(str(top))}/crates/{ALL}/)?\bsrc/(\w+_tests)(?:/([\w/]+))?\.rt",
                  lambda it: f"crates/{it[1]}/src/{it[2] or 'lib'}.rt", said)
    return said.replace(f"{top}/", "").replace(f"{ALL}::", "")


def place_of(test, top=TOP):
    """The file and line of a test, by its name `CRATE::MODULE::..::FUNCTION`."""
    crate, *modules, function = test.split("::")
    file = top / "crates" / crate / "src" / f"{os.sep.join(modules) or 'lib'}.rt"
    try:
        lines = file.read_text().splitlines()
    except OSError:
        return str(file.relative_to(top))
    for number, line in enumerate(lines, 1):
        if re.match(rf"\s*(?:pub )?fn {re.escape(function)}\b", line):
            return f"{file.relative_to(top)}:{number}"
    return str(file.relative_to(top))
