"""The processor that programs are built for."""

import os
import pathlib
import re

# Code for x86-64-v3 takes less time. A processor that lacks one of these flags has no such code.
EVERYWHERE, FASTER = "x86-64-v2", "x86-64-v3"
FLAGS = {"avx", "avx2", "bmi1", "bmi2", "f16c", "fma", "abm", "movbe", "xsave"}


def at_hand():
    """The processor's level. Tests name another file of flags."""
    try:
        text = pathlib.Path(os.environ.get("FABCOMMIT_CPUINFO") or "/proc/cpuinfo").read_text()
    except OSError:
        return EVERYWHERE
    flags = re.search(r"^flags\s*: (.*)$", text, re.M)
    return FASTER if flags and FLAGS <= set(flags[1].split()) else EVERYWHERE
