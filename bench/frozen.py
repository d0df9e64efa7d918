#!/usr/bin/env python3
"""Compares the definitions of the first version with the commit that they are of.

`bench/frozen.py` follows the imports of `crates/first_version/specs`, and of the grammar of version 1 in `block`, through the specs
of all crates below, definition by definition, re-exports and operators too. It compares the text of each with the commit's, and where
the names in it come from. It prints a line for each file, with the definitions that it reached, and fails where one differs. A
file of the first version itself is compared with the one that it was cut out of; lines that only say that there was no other
version may stand in it besides, and in a function by cases the case of a variant that came later.
"""

import collections
import functools
import pathlib
import re
import subprocess
import sys

TOP = pathlib.Path(__file__).resolve().parent.parent
COMMIT = "e51c17e"
OWN = "first_version"
# What was cut out of another file: its crate and name here, and where it stood.
CUT_OUT = {(OWN, name): ("rules", name) for name in "Candidate Job Fold World Linked Commit Step Chain".split()}
CUT_OUT |= {
    (OWN, "Configuration"): ("channel", "Configuration"),
    ("block", "first_version/Grammar"): ("block", "Grammar"),
    ("block", "first_version/Faults"): ("block", "Faults"),
}
# What knows both versions, and so isn't frozen.
OF_BOTH = {"Seen", "AnswersThen", "AsBefore", "Lib"}
# Records that were declared by a type in Rust.
WERE_TYPES = {
    ("block", "first_version/Grammar", "Block"): ("block", "declared/block/Block"),
    (OWN, "Answer", "CommittedBlock"): ("rules", "declared/committed/CommittedBlock"),
    (OWN, "Answer", "Accepted"): ("rules", "declared/answer/Accepted"),
}
# Cases of variants that came later, which no definition of the first version makes, in functions by cases of their type.
LATER_CASES = {("rules", "Flags", "flag_of"): {"flag_of early.InvalidConfigTransaction = InvalidConfigTransaction"}}
NO_OTHER = re.compile(r"^\w+( \w+)* OldVersion = ⊥$")
# What begins a definition, and what a group of definitions or a type has in it.
HEAD = re.compile(r"^(?:(?:abbrev|unfoldable|pub|record|data|module) )*(\S+)")
MEMBER = re.compile(r"^ +(?:(?:pub|data|record) )*(\S+) :", re.M)
USE = re.compile(r"^(?:unfoldable )?(pub )?use ([\w.]+)(?:\.\{(.*)\}| as (\w+))$", re.M)


def path_of(crate, name):
    return f"crates/{crate}/specs/{name}.antt"


@functools.cache
def of_commit(path):
    # a file that the commit hasn't is empty there
    return File(subprocess.run(["git", "show", f"{COMMIT}:{path}"], cwd=TOP, capture_output=True, text=True).stdout)


@functools.cache
def of_today(path):
    return File((TOP / path).read_text())


def words(text):
    return set(re.findall(r"[^\s(){}.,;∷]+", text))


class File:
    """A file of specs: its definitions by name, without comments, and where the names that it imports come from."""

    def __init__(self, text):
        self.texts, self.owners, self.imports, self.passed_on = collections.defaultdict(list), {}, {}, {}
        for is_passed_on, path, names, alias in USE.findall(text):
            if alias:
                self.imports[alias] = path, None
            for name in names.split(", ") if names else ():
                known, _, called = name.partition(" as ")
                (self.passed_on if is_passed_on else self.imports)[called or known] = path, known
        last = None
        for chunk in re.split(r"\n\s*\n", text):
            lines = [line for line in chunk.split("\n") if line and not USE.match(line) and not re.match(r" *--", line)]
            lines = [line for line in lines if not NO_OTHER.match(line)]
            if not lines or lines[0].startswith(("pub mod", "mod ")):
                continue
            head = next(line for line in lines if not line.startswith("infix"))
            # what stands farther in goes on with the definition before it
            if not head.startswith(" "):
                last = HEAD.match(head)[1]
                if last == "mutual":
                    last = f"mutual {MEMBER.search(chr(10).join(lines))[1]}"
            self.texts[last].append("\n".join(lines))
        self.texts = {name: "\n".join(texts) for name, texts in self.texts.items()}
        for name, text in self.texts.items():
            if not re.match(r"(?:pub )?record ", text):
                self.owners.update(dict.fromkeys(MEMBER.findall(text), name))
        self.owners.update((name, name) for name in self.texts)

    def named_in(self, text):
        """What a text names of this file's definitions and imports. An operator is named by its parts."""
        found = words(text)
        for name in [*self.owners, *self.imports]:
            if name in found or "◌" in name and all(part in found or part in text for part in name.split("◌") if part):
                yield name


def crate_and_file(path):
    """The crate and file of a path of specs, none where it is of no crate here. A crate's own names come from its Lib."""
    found = re.fullmatch(r"Rattle\.(\w+)\.specs(?:\.([\w.]+))?", path)
    return (found[1], (found[2] or "Lib").replace(".", "/")) if found and (TOP / "crates" / found[1]).is_dir() else None


def home_of(path, name, read):
    """Where a name is defined, by the file that it is imported from: a crate's Lib passes names on."""
    place = crate_and_file(path)
    if not place or name is None or place[1].startswith(("declared/", "contracts/")):
        return path, name
    file = read(path_of(*place))
    if name in file.owners or name not in file.passed_on:
        return path, name
    beyond, known = file.passed_on[name]
    return home_of(beyond if beyond.startswith("Rattle.") else f"Rattle.{place[0]}.specs.{beyond}", known, read)


def before_later_cases(crate, name, definition, text):
    later = LATER_CASES.get((crate, name, definition), ())
    return "\n".join(line for line in text.split("\n") if line not in later)


class Walk:
    def __init__(self):
        self.reached, self.types = collections.defaultdict(set), set()

    def visit(self, path, definition):
        place = crate_and_file(path)
        if not place:
            return
        if place[1].startswith(("declared/", "contracts/")):
            # made of a type in Rust
            self.types.add((place[0], place[1].split("/")[1]))
            return
        path, definition = home_of(path, definition, of_today)
        crate, name = crate_and_file(path)
        file = of_today(path_of(crate, name))
        if definition not in file.owners:
            sys.exit(f"{path_of(crate, name)} has no {definition}")
        owner = file.owners[definition]
        if owner in self.reached[crate, name]:
            return
        self.reached[crate, name].add(owner)
        text = file.texts[owner]
        for word in file.named_in(text):
            if word in file.owners:
                self.visit(path, word)
            elif file.imports[word][1] is not None:
                self.visit(*file.imports[word])
        for alias, known in re.findall(r"\b(\w+)\.(\w+)", text):
            if file.imports.get(alias, (None, ""))[1] is None:
                self.visit(file.imports[alias][0], known)


def path_in(crate, name):
    return f"Rattle.{crate}.specs.{name.replace('/', '.')}"


def before_it_was_cut_out(path, name):
    """Where a name came from before its file was cut out of another one, or was a type in Rust."""
    place = crate_and_file(path)
    if not place:
        return path, name
    return path_in(*WERE_TYPES.get((*place, name), CUT_OUT.get(place, place))), name


def sources_of(crate, name, text, read):
    """Where each name in a text comes from, by the file in which it stands."""
    file = read(path_of(crate, name))
    found = {}
    for word in file.named_in(text):
        source = (path_in(crate, name), word) if word in file.owners else home_of(*file.imports[word], read)
        found[word] = before_it_was_cut_out(*source)
    return found


def differences(crate, name, definition):
    """How a definition differs from the commit's."""
    was_in = CUT_OUT.get((crate, name), (crate, name))
    text = before_later_cases(crate, name, definition, of_today(path_of(crate, name)).texts[definition])
    if text != of_commit(path_of(*was_in)).texts.get(definition):
        yield "another text"
        return
    now, then = sources_of(crate, name, text, of_today), sources_of(*was_in, text, of_commit)
    for word in sorted(now.keys() | then.keys()):
        if now.get(word) != then.get(word):
            yield f"{word} is of {now.get(word)}, and was of {then.get(word)}"


def main():
    subprocess.run(["git", "cat-file", "-e", COMMIT], cwd=TOP, check=True)
    walk = Walk()
    for file in sorted((TOP / "crates" / OWN / "specs").glob("*.antt")):
        if file.stem not in OF_BOTH:
            for definition in of_today(path_of(OWN, file.stem)).texts:
                walk.visit(f"Rattle.{OWN}.specs.{file.stem}", definition)
    differing, count = [], 0
    for (crate, name), reached in sorted(walk.reached.items()):
        compared = sorted(it for it in reached if (crate, name, it) not in WERE_TYPES)
        for definition in compared:
            differing += [f"{path_of(crate, name)}: {definition}: {how}" for how in differences(crate, name, definition)]
        count += len(compared)
        if reached:
            print(f"{path_of(crate, name)}: {', '.join(sorted(reached))}")
    print("types of these sources may get variants, which no definition here names but by a case of their own:")
    print(", ".join(sorted({f"crates/{crate}/src/{name}.rt" for crate, name in walk.types})))
    print(f"{count} definitions, {len(differing)} differences from {COMMIT}")
    for one in differing:
        print("differs:", one)
    return 1 if differing else 0


if __name__ == "__main__":
    sys.exit(main())
