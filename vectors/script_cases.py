"""Draft scripts, worked and at random: for each the bytes of its block, or its first faulty line."""

import random

from encoding import data_hash, header_hash, spelled_block
from rust import rust_file, rust_string, rust_table, rust_text
from scripts import Faulty, keys_of, txs_of

KEYS = """\
# one identity for each role, one whose label is written as `%`, and one with a colon in it
Org1:client:c0 00112233445566778899aabbccddeeff
Org1:peer:p0 22
Org2:peer:q0 33
Org1:admin:a%20b 44
Org.3:orderer:% 55
A_-9:peer:x:y 66
"""

def drafted(text, after, version):
    """The block of this version of a script, behind the header of this number, which has fixed hashes; or the first faulty
    line.
    """
    try:
        txs = txs_of(b"ch", keys_of(KEYS.encode()), text.encode(), version)
    except Faulty as fault:
        return fault.args[0]
    if after is None:
        return spelled_block(0, b"", data_hash(txs), txs, version)
    previous = header_hash(after, b"\7" * 32 if after else b"", b"\x09" * 32)
    return spelled_block(after + 1, previous, data_hash(txs), txs, version)


SIGNERS = ["Org1:client:c0", "Org1:peer:p0", "Org2:peer:q0", "Org1:admin:a%20b", "Org.3:orderer:%", "A_-9:peer:x:y"]
NAMES = ["cc", "d.d", "E-_9"]
WORDS = ["k", "%00", "k%2f1", "key:%ff%FF", "~!\"#$&'()*+,-./:;<=>?@[\\]^_`{|}"]
NUMBERS = ["0", "7", "00000000000000000012", "4294967295"]
POLICIES = ["AND('Org1.peer','Org2.peer')", "AND(", "  'Org1.peer'", "é"]
BAD = ["ns c/c", "read k 0", "read k 0 4294967296", "range % % some", "write k", "write % v", "delete k k", "policy k",
       "nopolicy %4", "endorse Org9:peer:p0", "tx Org1:client:c0 n", "raw 0", "Write k v", "result k 0 0 0"]


def lines_at_random(draw):
    """A transaction, or a raw one; the lines of a namespace in any order, endorsers anywhere."""
    if draw.random() < 0.15:
        yield draw.choice(["raw", "raw 00", "raw 0aFf"])
        return
    yield f"tx {draw.choice(SIGNERS)} {draw.choice(WORDS + ['%'])} {draw.choice(NAMES)}"
    for _ in range(draw.randrange(3)):
        yield f"ns {draw.choice(NAMES)}"
        ranges = 0
        for _ in range(draw.randrange(6)):
            at, place = draw.choice(WORDS), f"{draw.choice(NUMBERS + ['18446744073709551615'])} {draw.choice(NUMBERS)}"
            start, end = draw.choice(WORDS + ["%"]), draw.choice(WORDS + ["%"])
            kinds = [f"read {at} absent", f"read {at} {place}", f"range {start} {end} {draw.choice(['all', 'part'])}",
                     f"write {at} {draw.choice(WORDS + ['%'])}", f"delete {at}", f"policy {at} {draw.choice(POLICIES)}",
                     f"nopolicy {at}", f"endorse {draw.choice(SIGNERS)}"]
            line = draw.choice(kinds + [f"result {at} {place}"] * (4 if ranges else 0))
            ranges += line.startswith("range")
            yield line
    for _ in range(draw.randrange(3)):
        yield f"endorse {draw.choice(SIGNERS)}"


def script_at_random(draw, is_bad, parts=lines_at_random, bad=BAD):
    lines = [line for _ in range(draw.randrange(1, 4)) for line in parts(draw)]
    if is_bad:
        lines.insert(draw.randrange(len(lines) + 1), draw.choice(bad))
    for _ in range(draw.randrange(3)):
        lines.insert(draw.randrange(len(lines) + 1), draw.choice(["", "   ", "# read", "  #", "\r"]))
    spaced = [draw.choice(["", "", " "]) + draw.choice([line, line.replace(" ", "  ", 2)]) for line in lines]
    ends = [draw.choice(["\n", "\n", " \n", "\r\n"]) for _ in spaced]
    return "".join(line + end for line, end in zip(spaced, ends))


WORKED = """\
tx Org1:client:c0 n0 cc
ns cc
write k1 v1
policy k1 AND('Org1.peer','Org2.peer')
endorse Org1:peer:p0
"""


def cases():
    """Scripts with the number of the header that they stand behind."""
    yield "", None
    for after in (None, 0, 1, 127, 128, 2**63, 2**64 - 2):
        yield WORKED, after
    draw = random.Random(20261123)
    for place in range(24):
        yield script_at_random(draw, place % 3 == 2), draw.choice([None, 4])


BAD_UPDATES = [*BAD, "update Org1:client:c0 n cc", "update Org1:client:c0 n c/c x", "update Org9:peer:p0 n cc x",
               "update Org1:client:c0 %4 cc x", "Update Org1:client:c0 n cc x"]


def lines_with_updates(draw):
    """An update with endorsers, in half of the places."""
    if draw.random() < 0.5:
        yield from lines_at_random(draw)
        return
    yield f"update {draw.choice(SIGNERS)} {draw.choice(WORDS + ['%'])} {draw.choice(NAMES)} {draw.choice(POLICIES)}"
    for _ in range(draw.randrange(4)):
        yield f"endorse {draw.choice(SIGNERS)}"


UPDATE = "update Org1:admin:a%20b n2 cc OR('Org2.peer')\nendorse Org1:admin:a%20b\n"


def update_cases():
    """Scripts of blocks of version 2."""
    yield UPDATE, None
    yield UPDATE, 4
    yield "", 4
    yield WORKED, 4
    yield UPDATE.partition("\n")[0], 4
    yield "update Org1:client:c0 % E-_9   AND( 'Org1.peer' ,\n", None
    yield WORKED + UPDATE + "raw 00\n" + UPDATE + WORKED, 4
    draw = random.Random(20261126)
    for place in range(18):
        yield script_at_random(draw, place % 3 == 2, lines_with_updates, BAD_UPDATES), draw.choice([None, 4])


def rust_case(text, after, version):
    made = drafted(text, after, version)
    line, block = (f"Some({made})", b"") if isinstance(made, int) else ("None", made)
    yield "    DraftCase {"
    yield f"        script: {rust_text(text)},"
    yield f"        after: {'None' if after is None else f'Some({after})'},"
    yield f"        line: {line},"
    yield f"        block: {rust_string(block)},"
    yield "    },"


def rust_drafts():
    yield "//! Scripts with the blocks that they draft or their first faulty lines, made by vectors/make.py.\n"
    yield "use super::DraftCase;\n"
    yield "/// The key book of all who sign in the scripts."
    yield "pub fn keys() -> &'static str {\n    KEYS\n}\n"
    yield f"static KEYS: &str =\n    {rust_text(KEYS)};\n"
    doc = "Scripts of blocks of version 1."
    yield from rust_table(doc, "drafts", "DraftCase", ["\n".join(rust_case(*case, 1)) for case in cases()])


def rust_updates():
    yield "//! Scripts of blocks of version 2, with these or their first faulty lines, made by vectors/make.py.\n"
    yield "use super::DraftCase;\n"
    doc = "Scripts of blocks of version 2."
    yield from rust_table(doc, "updates", "DraftCase", ["\n".join(rust_case(*case, 2)) for case in update_cases()])


def files():
    yield "vectors.rt", rust_file(rust_drafts())
    yield "updates.rt", rust_file(rust_updates())
