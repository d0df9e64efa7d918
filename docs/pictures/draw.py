#!/usr/bin/env python3
"""Draws a block's way and one flag's way: `draw.py` writes block.svg and flag.svg beside it, `draw.py --check` fails where they differ.

What is drawn stands in the two tables below. A path that isn't there any more is refused.
"""

import pathlib
import sys
from xml.sax.saxutils import escape

HERE = pathlib.Path(__file__).resolve().parent
TOP = HERE.parent.parent

# Each step: what there is, what is done to it, and where, for each column.
BLOCK = (
    "The way of a block",
    ["what there is", "what makes it", "where", "by"],
    [
        ("bytes", "handed in", "commit/src/committer.rt", "the caller"),
        ("a decoded block", "the grammar of blocks", "block/src/reader.rt", "the caller"),
        ("items taken in", "channel, signatures, id, form, chaincodes: no ledger", "intake/src/taking.rt", "all workers"),
        ("a tentative job", "candidates, and who writes each key, in order", "next_block/src/tentative.rt", "any worker"),
        ("a linked block", "number, previous hash, data hash, version", "linking/src/linked.rt", "the caller"),
        ("a job", "used ids are marked; rows of the keys are looked up", "key_chains/src/job.rt", "the caller"),
        ("verdicts", "policies, then reads, given earlier verdicts", "check_workers/src/checking.rt", "all workers"),
        ("flags, and a delta", "what valid transactions change", "effects/src/block_effects.rt", "the caller"),
        ("a commit hash", "rows that differ, flags, the changed definition", "header_hash/src/hash.rt", "the caller"),
        ("a published world", "one of two worlds, shown when it is whole", "query/src/publisher.rt", "the caller"),
        ("a receipt", "which block, and up to where a reader now knows", "query/src/receipt.rt", "the caller"),
        ("replies", "rows, ranges, histories, ids, blocks, definitions", "query/src/handle.rt", "any reader"),
    ],
)
FLAG = (
    "The way of flag 11, MVCC_READ_CONFLICT",
    ["step", "what it says", "where", "kept by"],
    [
        ("the rule", "in a user's words, with examples and the public source", "docs/behaviour.md", "reading"),
        ("the definition", "the first read whose version isn't that of the key's row", "crates/rules/specs/Reads.antt", "being read aloud"),
        ("worked rows", "transactions that get the flag, and that just don't", "crates/rules/proofs/rows/Conflicts.antt", "proof"),
        ("laws", "what a user may rely on, of all blocks", "crates/rules/src/laws.rt", "proof"),
        ("the function", "decides by the writers of the block, newest first", "crates/mvcc/src/deciding.rt", "proof, over the definition"),
        ("workers", "in any order, by any number: the same verdicts", "crates/check_workers/src/checking.rt", "proof"),
        ("the committer", "flags, state, history and hashes of the step", "crates/commit/src/committer.rt", "proof"),
        ("a wrong body", "takes the newest writer, whatever its flag", "crates/mvcc/must-fail/takes_the_newest_writer_whatever_its_flag.edit", "refused by proof"),
        ("the reason", "which read, what it had, what there is, by whom", "crates/reasons_from_state/src/state_reasons.rt", "proof"),
        ("its line", "0 11 MVCC_READ_CONFLICT read cc m was 0 0 is absent", "crates/cli_lines/src/reason_lines.rt", "tests"),
        ("another program", "the same rule in Python, over chains at random", "vectors/committer.py", "comparing"),
    ],
)

WIDTHS = [170, 400, 470, 190]
ROW, HEAD, MARGIN = 40, 76, 20
INK, PALE, LINE, BACK = "#1b2733", "#e8eef4", "#8aa0b4", "#ffffff"


def text(x, y, words, size=14, weight="normal", fill=INK):
    return f'<text x="{x}" y="{y}" font-size="{size}" font-weight="{weight}" fill="{fill}">{escape(words)}</text>'


def place_of(path):
    """The path as it is shown, which must be there."""
    for base in (TOP, TOP / "crates"):
        if (base / path).exists():
            return path
    sys.exit(f"draw.py: {path} isn't there")


def drawn(title, heads, rows):
    width, height = sum(WIDTHS) + 2 * MARGIN, HEAD + ROW * len(rows) + MARGIN
    out = [
        f'<svg xmlns="http://www.w3.org/2000/svg" width="{width}" height="{height}" viewBox="0 0 {width} {height}" font-family="sans-serif">',
        f"<title>{escape(title)}</title>",
        f'<rect width="{width}" height="{height}" fill="{BACK}"/>',
        text(MARGIN, 30, title, 20, "bold"),
    ]
    lefts = [MARGIN + sum(WIDTHS[:at]) for at in range(len(WIDTHS))]
    out += [text(left + 12, 60, head, 12, "bold", LINE) for left, head in zip(lefts, heads)]
    for at, (what, how, where, by) in enumerate(rows):
        top = HEAD + ROW * at
        middle = MARGIN + WIDTHS[0] / 2
        if at:
            out.append(f'<path d="M{middle} {top - 8} v6 m-4 -5 l4 5 l4 -5" stroke="{LINE}" stroke-width="1.5" fill="none"/>')
        shared = by in ("all workers", "any reader") or by.startswith(("proof", "refused"))
        out.append(f'<rect x="{MARGIN}" y="{top}" width="{WIDTHS[0]}" height="{ROW - 10}" rx="5" fill="{PALE}" stroke="{LINE}"/>')
        for left, words, weight in zip(lefts, (what, how, place_of(where), by), ("bold", "normal", "normal", "bold" if shared else "normal")):
            out.append(text(left + 12, top + 20, words, 12 if words == where else 14, weight))
    return "\n".join(out + ["</svg>", ""])


def main():
    differing = []
    for name, picture in (("block", BLOCK), ("flag", FLAG)):
        file, now = HERE / f"{name}.svg", drawn(*picture)
        if sys.argv[1:] == ["--check"]:
            if not file.exists() or file.read_text() != now:
                differing.append(file.name)
        else:
            file.write_text(now)
    if differing:
        sys.exit(f"draw.py: drawn anew these differ: {' '.join(differing)}")


if __name__ == "__main__":
    main()
