#!/usr/bin/env python3
"""Writes the table of the crates into docs/architecture.md, from crates.txt: groups, and what each crate is for.

map.py --check: fails if the table isn't that of crates.txt, or if a crate there has no purpose.
"""

import pathlib
import re
import sys

TOP = pathlib.Path(__file__).resolve().parent.parent
PAGE = TOP / "docs" / "architecture.md"
BEGIN, END = "<!-- docs/map.py writes this table, from crates.txt -->", "<!-- the end of the table -->"


def groups():
    """Each group of crates.txt with its crates and their purposes, and the crates that have none."""
    found, purpose, lacking = [], None, []
    for line in (TOP / "crates.txt").read_text().splitlines():
        if line.startswith("# == "):
            found.append((line.removeprefix("# == "), []))
            purpose = None
        elif line.startswith("# "):
            purpose = line.removeprefix("# ")
        elif named := re.match(r"(\w+)\b[^:]*:", line):
            if not found or not purpose:
                lacking.append(named[1])
            else:
                found[-1][1].append((named[1], purpose))
            purpose = None
        else:
            purpose = None
    return found, lacking


def table():
    """The table, or the crates that lack a group or a purpose."""
    found, lacking = groups()
    lines = ["| group | crate | purpose |", "|---|---|---|"]
    for group, crates in found:
        lines += [f"| {group if not at else ''} | {name} | {purpose} |" for at, (name, purpose) in enumerate(crates)]
    return "\n".join([BEGIN, "", *lines, "", END]), lacking


def main():
    text, (made, lacking) = PAGE.read_text(), table()
    if lacking:
        print(f"crates.txt has no group or no purpose for {' '.join(lacking)}")
        return 1
    begin, end = text.find(BEGIN), text.find(END)
    if begin < 0 or end < begin:
        print(f"{PAGE.relative_to(TOP)} has no place for the table: '{BEGIN}' and '{END}'")
        return 1
    written = text[:begin] + made + text[end + len(END):]
    if sys.argv[1:] == ["--check"]:
        if written != text:
            print(f"{PAGE.relative_to(TOP)} hasn't the table of crates.txt: docs/map.py writes it")
        return int(written != text)
    PAGE.write_text(written)
    return 0


if __name__ == "__main__":
    sys.exit(main())
