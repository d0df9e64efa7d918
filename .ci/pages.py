#!/usr/bin/env python3
"""Checks the pages: links and files that they name are there, lines and pages are short, and versions are those of the code."""

import pathlib
import re
import subprocess
import sys

TOP = pathlib.Path(__file__).resolve().parent.parent
MOST_WORDS, MOST_IN_README, MOST_COLUMNS = 26_000, 1_800, 120
PAGES = [TOP / "README.md", TOP / "CONTRIBUTING.md", *sorted((TOP / "docs").glob("**/*.md"))]
# A page of definitions, which bench/proof/theorem_page.py writes and limits by its lines of code: its words don't count here.
GENERATED = TOP / "docs" / "theorem.md"
# A path, by what it ends in; also one below crates/, docs/ or beside the page.
NAMED = re.compile(r"`((?:[\w.-]+/)+[\w.-]+\.(?:rt|antt|py|md|txt|svg|edit|h)|[a-z_]+/(?:src|specs|proofs|must-fail|planted)(?:/[\w.-]+)*/?)`")
LINK = re.compile(r"\]\(([^)\s]+)\)")
# What a script writes isn't counted.
WRITTEN = re.compile(r"<!-- \S+ writes this.*?<!-- the end of .*?-->", re.S)
# Names with a part that the reader fills in.
OPEN = re.compile(r"NAME|FILE|[*{]")


def anchors(page):
    """The names by which the headings of a page can be linked."""
    heads = re.findall(r"^#+ (.+)$", page.read_text(), re.M)
    return {re.sub(r"[^\w -]", "", head.lower()).strip().replace(" ", "-") for head in heads}


def faults_of(page):
    text, is_code = page.read_text(), False
    for number, line in enumerate(text.splitlines(), 1):
        at = f"{page.relative_to(TOP)}:{number}"
        if line.startswith("```"):
            is_code = not is_code
        if not is_code and len(line) > MOST_COLUMNS and not line.startswith("|"):
            yield f"{at}: a line of {len(line)} columns"
        if is_code:
            continue
        for target in LINK.findall(line):
            file, _, anchor = target.partition("#")
            if file.startswith(("http:", "https:")):
                continue
            found = (page.parent / file).resolve() if file else page
            if not found.exists():
                yield f"{at}: links to {target}, which isn't there"
            elif anchor and anchor not in anchors(found):
                yield f"{at}: links to {target}, which has no such heading"
        for name in NAMED.findall(line):
            places = (TOP, TOP / "crates", TOP / "docs", page.parent)
            if not OPEN.search(name) and not any((place / name).exists() for place in places):
                yield f"{at}: names {name}, which isn't there"


def faults():
    for page in PAGES + [TOP / "CHANGELOG.md"]:
        yield from faults_of(page)
    words = {page: len(WRITTEN.sub("", page.read_text()).split()) for page in PAGES if page != GENERATED}
    if sum(words.values()) > MOST_WORDS:
        yield f"{sum(words.values())} words in all pages, of {MOST_WORDS}"
    if words[TOP / "README.md"] > MOST_IN_README:
        yield f"{words[TOP / 'README.md']} words in README.md, of {MOST_IN_README}"
    kit = (TOP / "KIT").read_text().strip()
    if f"`{kit}`" not in (TOP / "README.md").read_text():
        yield f"README.md doesn't name the kit of the file KIT, {kit}"
    version = re.search(r"## \[(\d+\.\d+\.\d+)\]", (TOP / "CHANGELOG.md").read_text())[1]
    source = (TOP / "crates" / "cli_words" / "src" / "command.rt").read_text()
    if f'"{version}, for' not in source:
        yield f"the program's version isn't {version}, the newest one in CHANGELOG.md"


def main():
    found = [*faults()]
    for fault in found:
        print(fault)
    running = subprocess.run(["rt", "version"], capture_output=True, text=True, check=False).stdout.strip()
    if running and running != (TOP / "KIT").read_text().strip():
        print(f"note: this machine's kit is {running}, and not that of the file KIT")
    print(f"pages: {len(found)} faults")
    return 1 if found else 0


if __name__ == "__main__":
    sys.exit(main())
