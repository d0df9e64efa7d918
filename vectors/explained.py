"""Blocks to explain: the sample's, with the lines of the last of them, and one with each kind of reason."""

from functools import partial

import sample
from committer import World
from counting import counted
from drawing import drawn
from drafts import CHANNEL
from explaining import explained
from objects import objects_of
from policies import read_policy
from rust import rust_file, rust_lines, rust_string
from scripts import accepts, drafted, keys_of
from signing import Keys

KEYS = "Org1:client:c0 11\nOrg1:peer:p0 22\nOrg2:peer:p0 33\nOrg1:admin:a0 44\n"
FIRST = """\
tx Org1:client:c0 n1 cc
ns cc
write a v
write c v
write k v
policy k AND('Org1.peer','Org2.peer')
write m v
policy m AND('Org1.member',OR('Org2.admin','Org1.peer'))
endorse Org1:peer:p0
"""
EACH_KIND = """\
raw 6e6f
raw {signature}
raw {id}
raw {channel}
tx Org1:client:c0 n2 cc
ns cc
write a w
endorse Org1:peer:p0
tx Org1:client:c0 n1 cc
tx Org1:client:c0 n2 cc
tx Org1:client:c0 n3 cc
ns cc
policy d 'Org1.peer'
endorse Org1:peer:p0
tx Org1:client:c0 n4 cc
ns cc
write d v
endorse Org1:peer:p0
tx Org1:client:c0 n5 cc
ns cc
write k v
endorse Org1:peer:p0
raw {lacking}
tx Org1:client:c0 n6 cc
ns cc
write c v
tx Org1:client:c0 n7 cc
tx Org1:client:c0 n8 cc
ns cc
read a 0 0
endorse Org1:peer:p0
tx Org1:client:c0 n9 cc
ns cc
range a d all
result a 0 0
result c 0 0
endorse Org1:peer:p0
tx Org1:client:c0 n10 cc
ns cc
ns cc
tx Org1:client:c0 n11 cc
ns cc
read a absent
read a absent
tx Org1:client:c0 n12 cc
ns cc
range a d all
result c 0 0
result a 0 0
tx Org1:client:c0 n13 cc
ns cc
range a d all
result d 0 0
tx Org1:client:c0 n14 cc
ns cc
policy a AND(
tx Org1:client:c0 n15 zz
"""
# Flags, with the first words of reasons of that flag.
KINDS = """\
2, 4 creator, 8 wanted, 14 channel, 0, 9 used, 9 used, 0, 10 touched, 10 key, 10 key, 10 chaincode, 10 named, 11 read, \
12 range, 22 repeated, 22 repeated, 22 fallen, 22 outside, 22 policy, 25 undefined"""


def each_kind():
    """Two blocks, of which the second has a transaction for each kind of reason, and its flags."""
    keys, signing = keys_of(KEYS.encode()), Keys(KEYS)
    definitions = {name.encode(): read_policy(text.encode()) for name, text in CHANNEL.items()}
    world = World(b"ch", definitions, partial(accepts, keys))
    first = drafted(b"ch", keys, None, FIRST.encode())
    world.submit(first)
    lacking = sample.raw(signing, b"n26", key=b"m", endorsers=("Org1:peer:p0", "Org2:peer:p0!", "Org1:client:c0"))
    second = drafted(b"ch", keys, first, EACH_KIND.format(**sample.raws(signing), lacking=lacking).encode())
    lines = [line.split() for line in explained(world, second)[1:]]
    kinds = [" ".join([words[1], *words[3:4]]) for words in lines]
    assert kinds == KINDS.split(", "), kinds
    assert {"refused", "missing", "order"} <= {*lines[10]}, lines[10]
    return first, second, [int(words[1]) for words in lines]


def rust_bytes(name, octets):
    yield f"pub(crate) fn {name}() -> &'static [u8] {{\n    {name.upper()}\n}}\n"
    yield f"static {name.upper()}: &[u8] =\n    {rust_string(octets)};\n"


def rust_text(name, text):
    yield f"pub(crate) fn {name}() -> &'static str {{\n    {name.upper()}\n}}\n"
    yield f"static {name.upper()}: &str = {rust_lines(text)};\n"


def rust_sample(folder):
    yield "//! The sample's blocks, the lines that explain the last of them, and what all count, made by vectors/explained.py.\n"
    reasons = []
    for title, _, block, world in sample.blocks(folder):
        yield from rust_bytes(title, block)
        reasons.append(explained(world, block)[1:])
        if title == "every_flag":
            lines = sample.explanation(block, world)
            yield from rust_text("lines", lines)
            yield from rust_text("objects", objects_of(lines))
            yield from rust_text("graph", drawn(6, reasons[-1]))
            yield from rust_text("whole_graph", drawn(6, reasons[-1], True))
    yield from rust_text("counts", counted(reasons))
    yield from rust_text("later_counts", counted(reasons, 1, 3))


def rust_each_kind():
    first, second, flags = each_kind()
    yield "//! A block with a transaction for each kind of reason, behind another, made by vectors/explained.py.\n"
    yield from rust_text("keys", KEYS)
    yield from rust_bytes("first_block", first)
    yield from rust_bytes("second_block", second)
    yield "/// Of the second block."
    yield from rust_bytes("flags", bytes(flags))


def program_files(folder):
    yield "vectors.rt", rust_file(rust_sample(folder))


def ledger_files():
    yield "vectors.rt", rust_file(rust_each_kind())
