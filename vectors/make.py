#!/usr/bin/env python3
"""Makes the bytes and expected values that come from outside of the crates: those of tests, and the sample.

`python3 vectors/make.py` writes each file whose content differs and names it. With `--check` it writes nothing, names
the files that differ, and then fails. It wants Python 3.11 and pyasn1 0.6.3.
"""

import pathlib
import sys

sys.dont_write_bytecode = True

import as_json
import chain
import drafted
import each_word
import explained
import headers
import known
import sample
import script_cases
import signatures
import told

CRATES = pathlib.Path(__file__).resolve().parent.parent / "crates"
CHAIN = CRATES / "chain_vectors/src"
COUNTED = CRATES / "conflicts_tests/src"
DRAFTED = CRATES / "command_line_tests/src/drafted"
EACH_WORD = CRATES / "command_line_tests/src/explained/each_word"
EXPLAINED = CRATES / "command_line_tests/src/explained"
EXPLAINED_MEMORY = CRATES / "ledger_tests/src/explained_memory"
JSON = CRATES / "command_line_tests/src/json"
KNOWN = CRATES / "command_line_tests/src/known"
HEADERS = CRATES / "bytes_tests/src/header_hashes"
SAMPLE = CRATES / "fabcommit"
SCRIPTS = CRATES / "draft_tests/src/drafting"
SIGNATURES = CRATES / "command_line_tests/src/signatures"
TOLD = CRATES / "query_tests/src/telling"


def files():
    """Paths with the bytes that are to stand there."""
    keys = (SAMPLE / "data/keys.txt").read_text()
    for folder, made in (
        (CHAIN, chain.files()),
        (COUNTED, chain.count_files()),
        (DRAFTED, drafted.files(keys.encode())),
        (EACH_WORD, each_word.files()),
        (EXPLAINED, explained.program_files(SAMPLE / "data")),
        (EXPLAINED_MEMORY, explained.ledger_files()),
        (HEADERS, headers.files()),
        (JSON, as_json.files()),
        (KNOWN, known.files(keys.encode())),
        (SAMPLE, sample.files(SAMPLE / "data")),
        (SCRIPTS, script_cases.files()),
        (SIGNATURES, signatures.files(keys)),
        (TOLD, told.files()),
    ):
        for name, content in made:
            yield folder / name, content if isinstance(content, bytes) else content.encode()


def main():
    is_check = sys.argv[1:] == ["--check"]
    if sys.argv[1:] and not is_check:
        sys.exit(__doc__)
    differing = [(path, content) for path, content in files() if not path.exists() or path.read_bytes() != content]
    for path, content in differing:
        print("differs:" if is_check else "written:", path.relative_to(CRATES.parent))
        if not is_check:
            path.parent.mkdir(parents=True, exist_ok=True)
            path.write_bytes(content)
    sys.exit(1 if is_check and differing else 0)


if __name__ == "__main__":
    main()
