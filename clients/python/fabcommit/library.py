"""Where the shared object is found."""
import ctypes
import os
import subprocess
from pathlib import Path

INTERFACE = 3
NAME = f"libfabcommit.so.{INTERFACE}"


def installed() -> str | None:
    """The shared object that pkg-config knows."""
    try:
        asked = subprocess.run(["pkg-config", "--variable=libdir", "fabcommit"], capture_output=True, text=True)
    except OSError:
        return None
    path = Path(asked.stdout.strip(), NAME)
    return str(path) if asked.returncode == 0 and path.exists() else None


def load() -> ctypes.CDLL:
    """The one that FABCOMMIT_SO names, or that pkg-config knows, or that is on the loader's path."""
    path = os.environ.get("FABCOMMIT_SO") or installed() or NAME
    try:
        lib = ctypes.CDLL(path)
        numbers = (ctypes.c_uint32 * 3)()
        lib.fabcommit_versions(numbers)
    except (OSError, AttributeError) as fault:
        raise ImportError(f"no shared object of fabcommit ({fault}): install it, or name it by FABCOMMIT_SO") from None
    if numbers[0] != INTERFACE:
        raise ImportError(f"{path} has interface {numbers[0]}, and this package is for {INTERFACE}")
    return lib
