"""What the benchmarks share: programs that are built outside the repository, the least of five runs or RUNS, the machine's load.

Who imports it finds the modules of `vectors/` too.
"""

import os
import pathlib
import shutil
import statistics
import subprocess
import sys

TOP = pathlib.Path(__file__).resolve().parent.parent
RUNS = int(os.environ.get("RUNS", 5))
# What is put before a program that is timed, `chrt -f 50` say.
UNDER = os.environ.get("UNDER", "").split()
# As the launcher does for the program.
os.environ.setdefault("GLIBC_TUNABLES", "glibc.malloc.hugetlb=1")
sys.path.append(str(TOP / "vectors"))


def processors():
    """What all processors did so far, and what part of that was stolen from them."""
    ticks = [int(number) for number in pathlib.Path("/proc/stat").read_text().split("\n")[0].split()[1:9]]
    return sum(ticks), ticks[7]


def load():
    return " ".join(pathlib.Path("/proc/loadavg").read_text().split()[:3])


class Machine:
    """What else the machine did since this was made, by which a reader judges the figures above."""

    def __init__(self):
        self.load, (self.all, self.stolen) = load(), processors()

    def __str__(self):
        after, stolen = processors()
        part = (stolen - self.stolen) / max(after - self.all, 1)
        under = f"; under {' '.join(UNDER)}" if UNDER else ""
        return f"load before: {self.load}; after: {load()}; stolen: {part:.0%}; {os.cpu_count()} processors{under}"


def times_as_long(these, those):
    """How many times as long these took as those beside them, by the least of each, and by the median over the turns.

    The two differ where the machine changes its speed: then the least ones may be of different speeds.
    """
    return min(these) / min(those), statistics.median(this / that for this, that in zip(these, those))


def link(file, at):
    """The same file once more, or a copy where a folder's file system is another one."""
    try:
        os.link(file, at)
    except OSError:
        shutil.copy2(file, at)


def take(crate, at):
    """A crate's sources, copied, and its built library, linked.

    rt leaves a built library as it is, and takes a stale one's folder away before it makes another: so it writes nothing
    into the repository's. What rt keeps to prove a crate again is left out.
    """
    shutil.copytree(crate, at, symlinks=True, ignore=lambda folder, _: ["out"] if folder == str(crate) else [])
    library = crate / "out" / "rlib"
    if library.is_dir():
        shutil.copytree(library, at / "out" / "rlib", symlinks=True, copy_function=link)


def needed_lines(own):
    """The lines of crates.txt for these crates and all that they stand on, by name, lowest first."""
    lines = {line.split(":")[0].split()[0]: line for line in (TOP / "crates.txt").read_text().splitlines() if ":" in line}
    needed = set(own)
    for name, line in reversed(lines.items()):
        if name in needed:
            needed.update(line.split(":")[1].split())
    return {name: line for name, line in lines.items() if name in needed}


def build(folder, name, source, own, kit, proofs=None):
    """A program of one file, over `own` crates of this repository and over crates of the kit; its path.

    What the crates stand on is taken too. One whose library isn't built is proved in the scratch folder, each time anew:
    build them first, by `rt lib`, since what `rt ci` leaves doesn't count as built. `proofs` has texts by their paths in the
    program's `proofs/`.
    """
    crates = folder / "crates"
    texts = {f"proofs/{path}": text for path, text in (proofs or {}).items()}
    for path, text in {"src/main.rt": source, "specs/Lib.antt": "", "proofs/Lib.antt": "", **texts}.items():
        at = crates / name / path
        at.parent.mkdir(parents=True, exist_ok=True)
        at.write_text(text.lstrip())
    needed = needed_lines(own)
    lines = [*needed.values(), f"{name}: {' '.join([*needed, *kit])}"]
    (folder / "crates.txt").write_text("\n".join(lines) + "\n")
    for crate in needed:
        take(TOP / "crates" / crate, crates / crate)
    built = subprocess.run(["rt", "run"], cwd=crates / name, capture_output=True, text=True, check=False)
    program = crates / name / "out" / name
    if not program.exists():
        sys.exit(f"{name} did not build:\n{built.stdout}{built.stderr}")
    return str(program)


def built_of(top, folder, script, name):
    """The program of another checkout, whose libraries are built, by its own script."""
    text = f"import pathlib, {script} as s; print(s.build(pathlib.Path({str(folder)!r}), {name!r}, s.PROGRAM, own=s.CRATES, kit=['anyhow']))"
    done = subprocess.run([sys.executable, "-c", text], cwd=pathlib.Path(top) / "bench", stdout=subprocess.PIPE, text=True, check=True)
    return done.stdout.strip()
