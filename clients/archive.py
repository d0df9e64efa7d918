"""The static library, proved and built over the libraries that `rt ci` has left, or else by `rt lib`."""
import pathlib
import subprocess
import sys

TOP = pathlib.Path(__file__).resolve().parent.parent
sys.path.append(str(TOP / "launch"))

import processor
import sources

CRATE = "fabcommit_c"
ARCHIVE = TOP / "crates" / CRATE / "out" / f"lib{CRATE}.a"


def library(name):
    return TOP / "crates" / name / "out" / "rlib" / f"{name}.rlib"


def newest_source(crates):
    files = (file for name in crates for part in ("src", "specs", "proofs") for file in (TOP / "crates" / name / part).rglob("*"))
    return max(file.stat().st_mtime for file in files)


def build(kit, crates, to=ARCHIVE, level=processor.EVERYWHERE):
    """The prover's own call, over libraries that are there, for processors of a level."""
    words = [kit / "bin" / "rattle", "build", "--crate-name", CRATE, "--crate-type", "staticlib", "src/lib.rt"]
    for name in sources.of_kit(CRATE, crates):
        words += ["--extern", f"{name}={kit}/rlibs/{name}.rlib"]
    words += ["-L", f"dependency={kit}/rlibs"]
    for name in crates[CRATE]:
        if name in crates:
            words += ["--extern", f"{name}={library(name)}"]
    for name in sources.all_below(CRATE, crates):
        words += ["-L", f"dependency={library(name).parent}"]
    words += ["--antt-project", kit / "rattle" / "logic" / "antt-project.json", "--logic-built", kit / "logic_built"]
    words += ["--jobs", "2", "--links", f"{CRATE}=", "--toolchain", kit / "toolchain", "-o", to]
    words += ["--cpu", level] if level != processor.EVERYWHERE else []
    to.parent.mkdir(exist_ok=True)
    built = subprocess.run([str(word) for word in words], cwd=TOP / "crates" / CRATE, capture_output=True, text=True)
    if built.returncode:
        sys.exit(f"archive: {CRATE} isn't built:\n{(built.stdout + built.stderr)[-3000:]}")


def missing():
    """The libraries below the crate that `rt ci` hasn't left."""
    return [name for name in sources.all_below(CRATE, sources.crates_below(CRATE)) if not library(name).exists()]


def is_current():
    """Whether the archive is there, and newer than all sources."""
    return ARCHIVE.exists() and ARCHIVE.stat().st_mtime >= newest_source(sources.crates_below(CRATE))


def paths(of_crate=ARCHIVE):
    """That of the crate, and the kit's, by which it allocates."""
    return [of_crate, sources.kit() / "c" / "liblibc_c.a"]


def faster(folder):
    """Both, that of the crate in a folder and for processors of 2013 and later. The libraries below it have to be there."""
    build(sources.kit(), sources.crates_below(CRATE), folder / ARCHIVE.name, processor.FASTER)
    return paths(folder / ARCHIVE.name)


def archives():
    """Both. That of the crate is built unless it is current."""
    if not is_current():
        print("archive: builds the library", flush=True)
        if not missing():
            build(sources.kit(), sources.crates_below(CRATE))
        elif subprocess.run(["rt", "lib"], cwd=TOP / "crates" / CRATE, stdout=subprocess.DEVNULL).returncode:
            sys.exit(f"archive: rt lib doesn't build {CRATE}")
    return paths()
