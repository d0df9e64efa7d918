#!/usr/bin/env python3
"""Checks that each public function of the product with a `requires` is called from another crate of the product.

The gate proves that call, and so that what the function requires can be met outside of its crate; tests aren't proved. Calls are found
by name, in crates that name the function's crate in crates.txt.
"""

import pathlib
import re
import sys

sys.dont_write_bytecode = True
TOP = pathlib.Path(__file__).resolve().parent.parent
sys.path.append(str(TOP / "launch"))

import sources

FUNCTION = re.compile(r"^( *)pub (?:(?:const|unsafe) )*fn (\w+)(.*?)^\1\{", re.M | re.S)
IMPL = re.compile(r"^impl(?:<[^>]*>)? (?:[\w:<>', ]+ for )?(\w+)", re.M)


def code_of(crate, top):
    """The text of each source file, without comments."""
    files = sorted((top / "crates" / crate / "src").rglob("*.rt"))
    return {file: re.sub(r"//.*", "", file.read_text()) for file in files}


def public_names(crate, top):
    root = top / "crates" / crate / "src" / "lib.rt"
    return set(re.findall(r"\w+", " ".join(re.findall(r"^pub use ([^;]*);", root.read_text(), re.M)))) if root.exists() else set()


def functions(crate, top=TOP):
    """The public functions of a crate that require something: the type that each belongs to, if it does, its name, and how it is called."""
    names = public_names(crate, top)
    for text in code_of(crate, top).values():
        owners = [(it.start(), it[1]) for it in IMPL.finditer(text)]
        for it in FUNCTION.finditer(text):
            indent, name, signature = it.groups()
            owner = next((owner for at, owner in reversed(owners) if at < it.start()), None) if indent else None
            if (owner or name) in names and re.search(r"^\s*requires\b", signature, re.M):
                is_method = re.search(r"\(\s*(?:&(?:'\w+ )?)?(?:mut )?self\b", signature)
                call = rf"\.{name}\b" if is_method else rf"\b{owner}(?:::<[^()]*>)?::{name}\b" if owner else rf"\b{name}\b"
                yield owner, name, re.compile(call + r"(?:::<[^()]*>)?\(")


def uncalled(top=TOP):
    """Those that no other crate of the product calls."""
    crates, product = sources.all_crates(top), sources.product(top)
    code = {crate: "\n".join(code_of(crate, top).values()) for crate in product}
    for crate in product:
        above = [code[other] for other in product if crate in crates[other]]
        for owner, name, call in functions(crate, top):
            if not any(call.search(text) for text in above):
                yield "::".join(filter(None, (crate, owner, name)))


def main():
    found = [*uncalled()]
    for name in found:
        print(f"{name} requires something, and no other crate of the product calls it: let crates/callers do so")
    return 1 if found else 0


if __name__ == "__main__":
    sys.exit(main())
