"""A chain whose last two blocks have each word of a reason, and what is answered of it."""

from copy import deepcopy
from functools import partial

import answers
import sample
from committer import World
from encoding import Refused, header_hash, identity, read_block, tx_id
from explained import KEYS, rust_bytes
from explaining import explained, explained_at, explained_of
from knowing import known
from objects import objects_of
from rust import rust_file, rust_lines, rust_text, rust_tuples
from scripts import accepts, drafted, keys_of, word_bytes
from signing import Keys

# Policies with gates in gates.
GATES = """\
channel ch
chaincode cc OR('Org1.peer','Org2.peer')
chaincode late AND('Org1.member','Org1.admin')
chaincode deep OutOf(2,AND('Org1.peer','Org2.peer'),'Org2.peer','Org1.orderer')
admin AND('Org1.member',OR('Org1.admin','Org2.admin'))
"""
# Who signs beside the others, and isn't in the key book.
STRANGERS = "Org1:peer:p1 55\nOrg3:orderer:x%20y 66\n"
SCRIPTS = [
    """\
tx Org1:client:c0 n1 cc
ns cc
write a v
write c v
write g v
policy g AND(OR(AND('Org1.peer','Org2.admin'),'Org1.peer'),'Org1.client')
write k v
policy k AND('Org1.peer',OutOf(2,'Org2.peer','Org2.member','Org1.admin'))
write m v
policy m AND('Org1.member',OR('Org2.admin',AND('Org1.member','Org1.peer')))
endorse Org1:peer:p0
tx Org1:client:c0 n2 cc
tx Org1:peer:p1 n3 cc
""",
    """\
raw 6e6f
tx Org3:orderer:x%20y n4 cc
tx Org1:client:c0 n1 cc
tx Org1:client:c0 n2 cc
# 4
tx Org1:client:c0 n5 cc
ns cc
write a w
write b v
endorse Org1:peer:p0
tx Org1:client:c0 n5 cc
# 6
tx Org1:client:c0 n6 cc
ns cc
range a d all
result a 0 0
result b 1 4
result c 0 0
endorse Org1:peer:p0
tx Org1:client:c0 n6 cc
# 8
tx Org1:client:c0 n7 cc
ns cc
range a d part
result b 1 4
endorse Org1:peer:p0
tx Org1:client:c0 n8 cc
ns cc
range a % part
result a 1 4
result b 1 4
result c 9 9
endorse Org1:peer:p0
# 10
tx Org1:client:c0 n9 cc
ns cc
range c d all
endorse Org1:peer:p0
tx Org1:client:c0 n10 cc
ns cc
delete c
endorse Org1:peer:p0
# 12
tx Org1:client:c0 n11 cc
ns cc
range c d all
result c 0 0
endorse Org1:peer:p0
tx Org1:client:c0 n12 cc
ns cc
policy a 'Org1.member'
policy c 'Org1.member'
endorse Org1:peer:p0
# 14
tx Org1:client:c0 n13 cc
ns cc
range a b all
result a 1 4
endorse Org1:peer:p0
tx Org1:client:c0 n14 cc
ns cc
range c d all
result c 0 0
endorse Org1:peer:p0
# 16
tx Org1:client:c0 n15 cc
ns cc
range a d all
result a 1 13
range a % part
result b 0 0
result c 0 0
result c 0 1
tx Org1:client:c0 n16 cc
ns cc
range a d all
result b 1 4
ns deep
range a b all
range % b part
result a 0 0
result b 0 0
# 18
tx Org1:client:c0 n17 cc
ns cc
write k w
endorse Org1:peer:p0
endorse Org1:peer:p1
endorse Org3:orderer:x%20y
endorse Org1:peer:p1
tx Org1:client:c0 n18 cc
ns cc
write k w
endorse Org1:peer:p0
endorse Org2:peer:p0
# 20
raw {refused}
tx Org1:client:c0 n20 cc
ns cc
write g w
endorse Org1:peer:p0
# 22
tx Org1:client:c0 n21 cc
ns cc
write m w
endorse Org1:peer:p0
endorse Org1:admin:a0
endorse Org1:client:c0
tx Org1:client:c0 n22 late
ns late
write x w
endorse Org1:admin:a0
endorse Org1:peer:p0
endorse Org1:admin:a0
# 24
tx Org1:client:c0 n23 deep
endorse Org1:peer:p1
tx Org1:client:c0 n24 deep
endorse Org1:peer:p0
endorse Org2:peer:p0
# 26
raw {id}
raw {channel}
""",
    """\
update Org1:client:c0 n25 cc 'Org2.peer'
endorse Org1:admin:a0
endorse Org1:peer:p1
endorse Org1:peer:p0
""",
]
VERSIONS = (1, 1, 2)
# An id of any bytes, and two ways to write it as a word.
ODD_ID = b"\0 %\xff" + b"-" * 60
ODD_WORD, OTHER_WORD = "%00%20%25%FF" + "-" * 60, "%00%20%25%ff" + "%2d" * 60

# Of the last two blocks, worked out by hand, but for hashes and an id.
LINES = [
    """\
block 1 {hash}
0 2 BAD_PAYLOAD
1 4 BAD_CREATOR_SIGNATURE creator Org3:orderer:x%20y
2 9 DUPLICATE_TXID used 0 0 0 VALID
3 9 DUPLICATE_TXID used 0 1 10 ENDORSEMENT_POLICY_FAILURE
4 0 VALID
5 9 DUPLICATE_TXID used 1 4 0 VALID
6 12 PHANTOM_READ_CONFLICT range cc a d key a was 0 0 is 1 4 all by 4
7 9 DUPLICATE_TXID used 1 6 12 PHANTOM_READ_CONFLICT
8 12 PHANTOM_READ_CONFLICT range cc a d key a was absent is 1 4 part by 4
9 12 PHANTOM_READ_CONFLICT range cc a % key c was 9 9 is 0 0 part
10 12 PHANTOM_READ_CONFLICT range cc c d key c was absent is 0 0 all
11 0 VALID
12 12 PHANTOM_READ_CONFLICT range cc c d key c was 0 0 is absent all by 11
13 0 VALID
14 12 PHANTOM_READ_CONFLICT range cc a b key a was 1 4 is 1 13 all by 13
15 12 PHANTOM_READ_CONFLICT range cc c d key c was 0 0 is absent all by 11
16 22 BAD_RWSET fallen cc a % key c range 1 result 2
17 22 BAD_RWSET outside deep % b key b range 1 result 1
18 10 ENDORSEMENT_POLICY_FAILURE key cc k AND('Org1.peer',OutOf(2,'Org2.peer','Org2.member','Org1.admin')) \
Org1:peer:p0 refused Org1:peer:p1 Org3:orderer:x%20y missing Org2.peer
19 10 ENDORSEMENT_POLICY_FAILURE key cc k AND('Org1.peer',OutOf(2,'Org2.peer','Org2.member','Org1.admin')) \
Org1:peer:p0 Org2:peer:p0 missing Org2.member
20 10 ENDORSEMENT_POLICY_FAILURE key cc k AND('Org1.peer',OutOf(2,'Org2.peer','Org2.member','Org1.admin')) \
Org1:peer:p0 refused Org2:peer:p0 missing Org2.peer
21 10 ENDORSEMENT_POLICY_FAILURE key cc g AND(OR(AND('Org1.peer','Org2.admin'),'Org1.peer'),'Org1.client') \
Org1:peer:p0 missing Org1.client
22 10 ENDORSEMENT_POLICY_FAILURE key cc m AND('Org1.member',OR('Org2.admin',AND('Org1.member','Org1.peer'))) \
Org1:peer:p0 Org1:admin:a0 Org1:client:c0 missing Org2.admin order
23 10 ENDORSEMENT_POLICY_FAILURE chaincode late x AND('Org1.member','Org1.admin') \
Org1:admin:a0 Org1:peer:p0 missing Org1.admin order
24 10 ENDORSEMENT_POLICY_FAILURE named deep OutOf(2,AND('Org1.peer','Org2.peer'),'Org2.peer','Org1.orderer') \
refused Org1:peer:p1 missing Org1.peer
25 10 ENDORSEMENT_POLICY_FAILURE named deep OutOf(2,AND('Org1.peer','Org2.peer'),'Org2.peer','Org1.orderer') \
Org1:peer:p0 Org2:peer:p0 missing Org2.peer
26 8 BAD_PROPOSAL_TXID wanted {id}
27 14 TARGET_CHAIN_NOT_FOUND channel other
""",
    """\
block 2 {hash}
0 6 INVALID_CONFIG_TRANSACTION admin AND('Org1.member',OR('Org1.admin','Org2.admin')) \
Org1:admin:a0 Org1:peer:p0 refused Org1:peer:p1 missing Org1.admin order
""",
]


def id_of(nonce):
    return tx_id(nonce.encode(), identity(sample.CLIENT)).decode()


class EachWord:
    """The chain, as files by name."""

    def __init__(self):
        name, definitions, admin = sample.channel_of(GATES.encode())
        self.blank = World(name, definitions, partial(accepts, keys_of(KEYS.encode())), admin)
        signing, endorsers = Keys(KEYS), ("Org2:peer:p0!", "Org1:peer:p0!", "Org1:peer:p0", "Org2:peer:p0!")
        raws = {
            "refused": sample.raw(signing, b"n19", key=b"k", endorsers=endorsers),
            "id": sample.raw(signing, b"n26", id=ODD_ID),
            "channel": sample.raw(signing, b"n5", channel=b"other"),
        }
        book, before, self.files = keys_of((KEYS + STRANGERS).encode()), None, {"k": KEYS.encode()}
        for number, (script, version) in enumerate(zip(SCRIPTS, VERSIONS)):
            before = drafted(name, book, before, script.format(**raws).encode(), version)
            self.files[f"b{number}"] = before

    def world_behind(self, names):
        """The world behind those of these blocks that it takes, and whether it takes all."""
        world, takes_all = deepcopy(self.blank), True
        for name in names:
            try:
                world.submit(self.files[name])
            except Refused:
                takes_all = False
        return world, takes_all

    def ended(self, names, place, id, ids):
        """The status, and what goes to standard output and standard error."""
        world, takes_all = self.world_behind(names[:-1])
        octets = self.files[names[-1]]
        try:
            deepcopy(world).submit(octets)
        except Refused as fault:
            return 1, answers.refused(len(names), fault) + known(world, octets), ""
        if place is not None:
            lines = explained_at(world, octets, place, ids)
        elif id is not None:
            lines = explained_of(world, octets, word_bytes(id), ids)
        else:
            lines = explained(world, octets, ids)
        if not lines:
            return 2, "", f"no transaction {place if id is None else id}\n"
        return 0 if takes_all else 1, "".join(line + "\n" for line in lines), ""

    def row(self, names, place=None, id=None, ids=False):
        """The words of a call, and how it ends."""
        words = ["explain", *["--ids"] * ids, *["--tx", str(place)] * (place is not None), *["--id", id] * (id is not None), names]
        return " ".join(words), *self.ended(names.split(), place, id, ids)

    def as_objects(self, *arguments, **options):
        """The same with `--json`, where the last block is accepted."""
        words, status, out, err = self.row(*arguments, **options)
        return words + " --json", status, objects_of(out), err

    def check(self):
        """That the lines are those worked out by hand."""
        for names, wanted in zip(("b0 b1", "b0 b1 b2"), LINES):
            number, *hashes, _ = read_block(self.files[names.split()[-1]])
            _, _, lines, _ = self.row(names)
            assert lines == wanted.format(hash=header_hash(number, *hashes).hex(), id=id_of("n26")), lines

    def rows(self):
        row, last = self.row, "b0 b1 b2"
        for names in ("b0 b1", last):
            yield row(names)
            yield row(names, ids=True)
        # one place, also of bytes that are no transaction, and none
        yield row("b0 b1", 22)
        yield row("b0 b1", 0, ids=True)
        yield row("b0 b1", 26, ids=True)
        yield row("b0 b1", 28, ids=True)
        # an id at several places, of which one names another channel; one that the block before has too; one of any bytes
        yield row("b0 b1", id=id_of("n5"))
        yield row("b0 b1", id=id_of("n5"), ids=True)
        yield row("b0 b1", id=id_of("n1"))
        yield row("b0 b1", id=ODD_WORD)
        yield row("b0 b1", id=OTHER_WORD, ids=True)
        yield row("b0", id=id_of("n1"))
        yield row(last, id=id_of("n25"), ids=True)
        # ids that are used before the last block
        for nonce in ("n1", "n2", "n6"):
            yield row(last, id=id_of(nonce))
        yield row(last, id=id_of("n6"), ids=True)
        # ids that came and weren't used, one of a refused block, and one that never came
        yield row(last, id=tx_id(b"n3", identity("Org1:peer:p1")).decode())
        yield row(last, id=OTHER_WORD)
        yield row("b0 b2 b1", id=id_of("n25"))
        yield row("b0 b1", id=id_of("n0"))
        # refused blocks, the last of all and before it
        yield row("b0 b1 k", id=id_of("n1"))
        yield row("b0 b1 b1", id=id_of("n0"), ids=True)
        yield row("b0 b0", ids=True)
        yield row("b0 k b1", id=id_of("n2"))
        yield row("b0 b0 b1 b2", id=id_of("n2"))

    def object_rows(self):
        yield self.as_objects("b0 b1")
        yield self.as_objects("b0 b1 b2")
        yield self.as_objects("b0 b1", id=ODD_WORD, ids=True)
        yield self.as_objects("b0 b1 b2", id=id_of("n6"))


def rust_row(words, status, out, err):
    lines = rust_lines(out) if out.count("\n") > 1 else rust_text(out)
    return rust_text(words), str(status), lines, rust_text(err)


def rust_table(name, comment, rows):
    rows = [rust_row(*row) for row in rows]
    yield f"/// {comment}"
    yield f"pub(crate) fn {name}() -> &'static [Row<'static>] {{\n    &{name.upper()}\n}}\n"
    yield f"static {name.upper()}: [Row<'static>; {len(rows)}] = ["
    yield from rust_tuples(rows)
    yield "];"


# a file of its own, since a proof reads a table whole
def rust_objects():
    yield "//! What is answered of that chain in objects, made by vectors/explained.py.\n"
    yield "use crate::fixture::Row;\n"
    yield from rust_table("objects", "Words behind those of the channel and the keys.", EachWord().object_rows())


def rust_each_word():
    chain = EachWord()
    chain.check()
    yield "//! A chain that has each word of a reason, and what is answered of it, made by vectors/explained.py.\n"
    yield "use crate::fixture::Row;\n"
    yield from rust_bytes("channel", GATES.encode())
    yield from rust_bytes("keys", KEYS.encode())
    for name, place in (("first", "b0"), ("second", "b1"), ("third", "b2")):
        yield from rust_bytes(f"{name}_block", chain.files[place])
    yield from rust_table("answers", "Words behind those of the channel and the keys.", chain.rows())


def files():
    yield "vectors.rt", rust_file(rust_each_word())
    yield "objects.rt", rust_file(rust_objects())
