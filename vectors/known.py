"""Blocks whose numbers were accepted already, and others that are refused, with what `explain` prints of them; the words were written
down by hand.
"""

from functools import partial

import answers
from committer import World
from drafted import CHANNEL
from encoding import Refused, data_hash, read_block, spelled_block
from knowing import known, known_object
from rust import rust_file, rust_string, rust_tuples
from sample import channel_of
from scripts import accepts, drafted, keys_of

SCRIPTS = [
    "tx Org1:client:c0 n0 cc\nns cc\nwrite a v\nendorse Org1:peer:p0\n",
    "tx Org1:client:c0 n1 cc\ntx Org1:client:c0 n2 cc\n",
    "tx Org1:client:c0 n3 cc\n",
]
# The accepted ones: after block 0 either version may follow, after block 1 the second alone.
VERSIONS = (1, 2, 2)
# Files, and how each is related to the accepted block of its number, if that was accepted.
HOW = {
    "b0": "same",
    "b1": "same",
    "b2": "same",
    "v0": "twin",
    "v1": "twin",
    "j1": "twin",
    "f0": "fork",
    "f1": "fork",
    "f2": "fork",
    "d1": "other",
    "p0": "other",
    "p1": "other",
    "q1": "other",
    "o2": "other",
    "g2": "other",
}


def with_txs(octets, txs, version):
    number, previous, _, _ = read_block(octets)
    return spelled_block(number, previous, data_hash(txs), txs, version)


class Chain:
    """A chain, as files by name, and other blocks of the same numbers."""

    def __init__(self, keys_text):
        name, definitions, admin = channel_of(CHANNEL)
        keys, self.texts = keys_of(keys_text), {"c": CHANNEL, "k": keys_text}
        self.blank, blocks = partial(World, name, definitions, partial(accepts, keys), admin), []
        for script, version in zip(SCRIPTS, VERSIONS):
            blocks.append(drafted(name, keys, blocks[-1] if blocks else None, script.encode(), version))
        self.files = {f"b{number}": octets for number, octets in enumerate(blocks)} | dict(self.others(blocks))
        self.files["f2"] = drafted(name, keys, self.files["b1"], SCRIPTS[0].encode(), 2)
        # a block after a fork, in which nothing is wrong
        self.files["g2"] = drafted(name, keys, self.files["f1"], SCRIPTS[2].encode(), 2)
        assert {*HOW} == {*self.files}

    def others(self, blocks):
        """Each differs from the accepted one of its number in as little as may be."""
        parts = [read_block(octets) for octets in blocks]
        (_, _, hash_0, txs_0), (_, previous_1, hash_1, txs_1), (_, previous_2, _, txs_2) = parts
        yield "v0", spelled_block(0, b"", hash_0, txs_0, 2)
        yield "v1", spelled_block(1, previous_1, hash_1, txs_1, 1)
        # one transaction of the bytes of two
        yield "j1", spelled_block(1, previous_1, hash_1, [b"".join(txs_1)], 2)
        yield "f0", with_txs(blocks[0], [], 1)
        yield "f1", with_txs(blocks[1], txs_1[:1], 2)
        # the data hash is that of the transactions before one was left out
        yield "d1", spelled_block(1, previous_1, hash_1, txs_1[:1], 2)
        yield "p0", spelled_block(0, previous_1, hash_0, txs_0, 1)
        yield "p1", spelled_block(1, b"", hash_1, txs_1, 2)
        # the hash of the accepted block of this number, and not of the one before
        yield "q1", spelled_block(1, previous_2, hash_1, txs_1, 2)
        yield "o2", spelled_block(2, previous_2, data_hash(txs_2), txs_2, 1)

    def told(self, names):
        """What is printed of the last of these, which is refused: the first line, and the second if there is one."""
        world, files = self.blank(), self.files | self.texts
        for name in names[:-1]:
            try:
                world.submit(files[name])
            except Refused:
                pass
        octets = files[names[-1]]
        try:
            world.submit(octets)
        except Refused as fault:
            return answers.refused(len(names), fault), known(world, octets)
        raise AssertionError(names)

    def rows(self):
        for name, how in HOW.items():
            refused, line = self.told(["b0", "b1", "b2", name])
            assert refused == f"refused 4 C2 want 3 got {name[1]}\n" and line.split()[:3] == ["known", name[1], how], (name, line)
            yield f"explain b0 b1 b2 {name}", refused + line
            number = f'"number":{name[1]},"as":"{how}"'
            fault = f'{{"kind":"refused","place":4,"fault":"C2","want":3,"got":{name[1]}}}\n'
            assert number in known_object(line)
            yield f"explain --json b0 b1 b2 {name}", fault + known_object(line)
        # which lines are asked for makes no difference
        refused, line = self.told(["b0", "b1", "b2", "f1"])
        for words in ("--ids", "--tx 7", f"--id {'0' * 64}", "--dot", "--dot --all"):
            yield f"explain {words} b0 b1 b2 f1", refused + line
        # over the other side of a fork, and after refused blocks
        for names, word in ((["b0", "f1", "b1"], "fork"), (["b0", "f1", "b2", "b1"], "fork"), (["b0", "k", "b0", "v1", "b1"], "twin")):
            refused, line = self.told(names)
            assert line.split()[2] == word, line
            yield f"explain {' '.join(names)}", refused + line
        # numbers that weren't accepted, and no block
        for names in (["b1"], ["b0", "b2"], ["b0", "p1"], ["b0", "d1"], ["b0", "b1", "o2"], ["p0"], ["b0", "k"], ["k"]):
            refused, line = self.told(names)
            assert not line, names
            yield f"explain {' '.join(names)}", refused
        # no other call prints it
        world = self.blank()
        world.submit(self.files["b0"])
        yield "run b0 f0 v0", answers.accepted(world, 0) + "refused 2 C2 want 1 got 0\nrefused 3 C2 want 1 got 0\n"


def rust_known(keys_text):
    chain = Chain(keys_text)
    table = chain.texts | chain.files
    yield "//! A chain, other blocks of its numbers, and what is printed of them, made by vectors/known.py.\n"
    yield "use crate::files::File;\nuse crate::fixture::Row;\n"
    yield "/// The channel, the keys and the blocks."
    yield "pub(crate) fn files() -> &'static [File<'static>] {\n    &FILES\n}\n"
    yield f"static FILES: [File<'static>; {len(table)}] = ["
    yield from rust_tuples([f'"{name}"', rust_string(octets)] for name, octets in table.items())
    yield "];\n"
    table = list(chain.rows())
    yield "/// Words behind those of the channel and the keys."
    yield "pub(crate) fn answers() -> &'static [Row<'static>] {\n    &ANSWERS\n}\n"
    yield f"static ANSWERS: [Row<'static>; {len(table)}] = ["
    spelled = [(words, out.replace('"', '\\"').replace("\n", "\\n")) for words, out in table]
    yield from rust_tuples([f'"{words}"', "1", f'"{out}"', '""'] for words, out in spelled)
    yield "];"


def files(keys_text):
    yield "vectors.rt", rust_file(rust_known(keys_text))
