"""One static archive and one shared object, of the library's archive and that of the kit by which it allocates."""
import ctypes
import os
import re
import shlex
import subprocess
from pathlib import Path

HEADER = Path(__file__).resolve().parent.parent / "include" / "fabcommit.h"
ARCHIVES = ("libfabcommit_c.a", "liblibc_c.a")


class Fault(Exception):
    """Why there are no such libraries."""


def interface():
    """The number of the header's interface."""
    return int(re.search(r"#define FABCOMMIT_INTERFACE (\d+)u", HEADER.read_text())[1])


def shared_name():
    return f"libfabcommit.so.{interface()}"


def declared():
    """The names of the header's calls."""
    return set(re.findall(r"^(?:uint32_t|void) (fabcommit_\w+)\(", HEADER.read_text(), re.M))


def done(*words):
    """What a tool prints. The environment may name another one, as CC for cc."""
    tool, *words = map(str, words)
    tool = shlex.split(os.environ.get(tool.upper(), tool))
    try:
        ran = subprocess.run([*tool, *words], capture_output=True, text=True)
    except FileNotFoundError:
        raise Fault(f"there is no {tool[0]} on the PATH") from None
    if ran.returncode:
        raise Fault(f"{tool[0]} failed:\n{(ran.stderr or ran.stdout)[-2000:].strip()}")
    return ran.stdout


def exported(library, *kind):
    """The names that others can link to."""
    lines = done("nm", *kind, "--defined-only", "--extern-only", "--format=posix", library).splitlines()
    return {line.split()[0] for line in lines if " " in line}


def check_names(library, names):
    if lacking := declared() - names:
        raise Fault(f"{library} lacks {', '.join(sorted(lacking))} of {HEADER}: build the archive anew")


def check_interface(shared):
    """The shared object's own number has to be the header's."""
    numbers = (ctypes.c_uint32 * 3)()
    ctypes.CDLL(str(shared)).fabcommit_versions(numbers)
    if numbers[0] != interface():
        raise Fault(f"the archive has interface {numbers[0]}, {HEADER} has {interface()}: build the archive anew")


def linked(archives, work):
    """Both libraries, made in the folder `work`: what they export is what the header declares."""
    for archive in archives:
        if not archive.is_file():
            raise Fault(f"there is no {archive}")
    check_names(archives[0], exported(archives[0]))
    whole, names, static, shared = (work / name for name in ("fabcommit.o", "names", "libfabcommit.a", shared_name()))
    names.write_text("".join(f"{name}\n" for name in sorted(declared())))
    done("cc", "-r", "-nostdlib", "-o", whole, "-Wl,--whole-archive", *archives)
    done("objcopy", f"--keep-global-symbols={names}", whole)
    done("ar", "rcsD", static, whole)
    done("cc", "-shared", "-o", shared, f"-Wl,-soname,{shared.name}", "-Wl,-z,defs,-z,text,-z,noexecstack,-z,relro,-z,now", whole)
    if extra := exported(shared, "--dynamic") ^ declared():
        raise Fault(f"{shared.name} exports other names than the header's: {', '.join(sorted(extra))}")
    check_interface(shared)
    return static, shared
