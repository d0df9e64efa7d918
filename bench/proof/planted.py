#!/usr/bin/env python3
"""Wrong bodies that the merge gate doesn't try at each run, `crates/CRATE/planted/NAME.edit`: the prover must refuse each.

planted.py [CRATE ..]: tries those of these crates, or all, by `rt ci` over a copy of these crates and those below, in which they are
where it looks for them. If all of a crate were refused, `bench/proof/planted.sums` gets a sum of it. The last line counts.

planted.py --stale: names the crates whose sum in that file isn't that of their files. The gate tries their wrong bodies.

planted.py --check: whether each edit, these and those of `must-fail/`, changes its files as it says, without a proof. `rt ci` passes
over an edit that it can't apply.
"""

import argparse
import collections
import hashlib
import pathlib
import re
import shutil
import subprocess
import sys
import tempfile

sys.dont_write_bytecode = True
TOP = pathlib.Path(__file__).resolve().parent.parent.parent
sys.path.append(str(TOP / "launch"))

import sources

SUMS = pathlib.Path("bench/proof/planted.sums")
# A line that is a comment and nothing else: no proof reads it.
COMMENT = re.compile(r"\s*(//|--)")


def fault_of(edit):
    """Why an edit can't be applied, or nothing. It has lines `file: PATH`, after each pairs of lines `old: TEXT` and `new: TEXT`."""
    texts, path, old, pairs = {}, None, None, 0
    for line in edit.read_text().splitlines():
        word, _, rest = line.partition(":")
        rest = rest.removeprefix(" ")
        if word == "file":
            path, old = edit.parent.parent / rest, None
            if not path.is_file():
                return f"{rest} isn't there"
        elif word == "old":
            old = rest
        elif word == "new":
            if path is None or old is None:
                return f"'{rest}' has no file or no old text"
            if rest == old:
                return f"'{old}' stays as it is"
            text = texts[path] if path in texts else path.read_text()
            if text.count(old) != 1:
                return f"'{old}' is {text.count(old)} times in {path.name}"
            texts[path], old, pairs = text.replace(old, rest), None, pairs + 1
    return None if pairs else "it has no pair of an old and a new text"


def name_of(edit):
    """That a file isn't named as an edit, if so: nothing would try it."""
    return None if re.fullmatch(r"[\w-]+\.edit", edit.name) else "it isn't named as an edit, NAME.edit"


def twin_of(edit):
    """That a planted edit has the name of another of its crate, if so: the gate puts both in one folder."""
    if edit.parent.name == "planted" and (edit.parent.parent / "must-fail" / edit.name).exists():
        return "must-fail/ has one of this name"
    return None


def check():
    edits = sorted(TOP.glob("crates/*/planted/*")) + sorted(TOP.glob("crates/*/must-fail/*"))
    faults = [(edit, name_of(edit) or fault_of(edit) or twin_of(edit)) for edit in edits]
    for edit, fault in faults:
        if fault:
            print(f"{edit.relative_to(TOP)}: {fault}")
    bad = sum(1 for _, fault in faults if fault)
    print(f"{len(edits)} edits, {bad} that can't be applied")
    return 1 if bad else 0


def planted(top=TOP):
    """The planted edits of each crate that has some."""
    found = {}
    for edit in sorted(top.glob("crates/*/planted/*.edit")):
        found.setdefault(edit.parent.parent.name, []).append(edit)
    return found


def sum_of(crate, top=TOP):
    """A sum of what says that a crate's planted edits are refused: the kit, its own files without comments, and these edits."""
    parts = [(top / "KIT").read_text()]
    for part in ("src", "specs", "proofs", "planted"):
        for file in sorted(it for it in (top / "crates" / crate / part).rglob("*") if it.is_file()):
            lines = [line for line in file.read_text().splitlines() if line.strip() and not COMMENT.match(line)]
            parts.append((str(file.relative_to(top)), lines))
    return hashlib.sha256(repr(parts).encode()).hexdigest()


def known_sums(top=TOP):
    try:
        return dict(line.split() for line in (top / SUMS).read_text().splitlines())
    except OSError:
        return {}


def stale(top=TOP):
    """The crates whose planted edits weren't tried since their files changed."""
    known = known_sums(top)
    return [crate for crate in planted(top) if known.get(crate) != sum_of(crate, top)]


def write_sums(tried, top=TOP):
    """Keeps these sums, and drops those of crates that have no planted edit any more."""
    sums = {**known_sums(top), **tried}
    (top / SUMS).write_text("".join(f"{crate} {sums[crate]}\n" for crate in sorted(planted(top)) if crate in sums))


def lay_out(crates, edits, to):
    """Copies crates, given with their lines of crates.txt, into a repository of their own, in which `rt ci` tries these edits."""
    for crate in crates:
        shutil.copytree(TOP / "crates" / crate, to / "crates" / crate, ignore=shutil.ignore_patterns("out", "must-fail", "planted"))
    for edit in edits:
        folder = to / "crates" / edit.parent.parent.name / "must-fail"
        folder.mkdir(exist_ok=True)
        shutil.copy(edit, folder)
    (to / "crates.txt").write_text("".join(f"{line}\n" for line in crates.values()))
    shutil.copy(TOP / "HANDLES", to)


def refused(said):
    """How many edits of each crate were refused, by what `rt ci` said."""
    return collections.Counter(re.findall(r"^rt: must-fail (\w+)/[\w.-]+\.edit: refused, as it must be", said, re.M))


def try_them(names):
    crates = {name: edits for name, edits in planted().items() if not names or name in names}
    lacking = set(names) - set(crates)
    if lacking:
        sys.exit(f"no planted edits: {' '.join(sorted(lacking))}")
    lines, below = sources.lines_in(sources.crates_txt(TOP)), sources.all_crates(TOP)
    needed = {*crates, *(other for crate in crates for other in sources.all_below(crate, below))}
    sums = {crate: sum_of(crate) for crate in crates}
    with tempfile.TemporaryDirectory(prefix="planted-") as room:
        copy = pathlib.Path(room) / "copy"
        lay_out({name: line for name, line in lines.items() if name in needed}, sum(crates.values(), []), copy)
        said = ""
        with subprocess.Popen(["rt", "ci"], cwd=copy, stdout=subprocess.PIPE, stderr=subprocess.STDOUT, text=True) as running:
            for line in running.stdout:
                said += line
                print(line.replace(f"{copy}/", ""), end="", flush=True)
    found = refused(said)
    bad = [crate for crate in crates if found[crate] < len(crates[crate])]
    write_sums({crate: sums[crate] for crate in crates if crate not in bad})
    if bad:
        print(f"not all are refused, or could be tried: {' '.join(bad)}")
    all_edits = sum(map(len, crates.values()))
    well = sum(found[crate] for crate in crates)
    print(f"{well} passed, {all_edits - well} failed")
    return 1 if bad else 0


def main():
    words = argparse.ArgumentParser(description=__doc__, formatter_class=argparse.RawDescriptionHelpFormatter)
    words.add_argument("--check", action="store_true")
    words.add_argument("--stale", action="store_true")
    words.add_argument("crates", nargs="*")
    given = words.parse_args()
    if given.check:
        return check()
    if given.stale:
        print(*stale())
        return 0
    return try_them(given.crates)


if __name__ == "__main__":
    sys.exit(main())
