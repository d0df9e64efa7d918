"""The kit's programs at work: what each call of one is about."""

import os
import pathlib

PROGRAMS = ("rattle", "rattle-link", "rattle-test")


def crate_of(words, program):
    """The crate that a call is about; none if it is about none, as a call that lays files out."""
    if "--crate-name" in words:
        return words[words.index("--crate-name") + 1]
    if program == "rattle":
        return None
    file = words[-1] if program == "rattle-test" else words[words.index("-o") + 1]
    # the tests of a crate `names_tests` are a program `names_tests_tests`
    return pathlib.Path(file).name.removesuffix(".by-rattle").removesuffix("_tests")


def kind_of(words, program, folder):
    """What a call about a crate does."""
    if program == "rattle-test":
        return "runs"
    if program == "rattle-link" or "--crate-checked" in words:
        return "builds"
    if "rt-edit-" in folder:
        return "edits"
    return "tests" if "--test" in words else "proof"


def running():
    """The kit's calls that are at work on this machine: process and its beginning, words, program and folder of each."""
    for entry in pathlib.Path("/proc").glob("[0-9]*"):
        try:
            words = (entry / "cmdline").read_bytes().decode(errors="replace").split("\0")[:-1]
            program = pathlib.Path(words[0]).name if words else ""
            if program in PROGRAMS:
                began = (entry / "stat").read_text().rsplit(")", 1)[1].split()[19]
                yield (entry.name, began), words[1:], program, os.readlink(entry / "cwd")
        except (OSError, ValueError, IndexError):
            # it ended meanwhile
            continue
