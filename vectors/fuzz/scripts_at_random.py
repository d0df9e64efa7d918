#!/usr/bin/env python3
"""Drafts scripts made at random, and compares what `fabcommit` makes of them with what is read here.

`python3 vectors/fuzz/scripts_at_random.py [PROGRAM [COUNT [SEED]]]` makes at least COUNT scripts (1000) from SEED (1), in
chains of up to five blocks. Each is drafted by PROGRAM (`./fabcommit`): a good one has to give the block that
`scripts.py` gives, a faulty one the line that it names, with OUT left as it was. Each block is explained, in the lines of
`explaining.py` and the graph of `drawing.py`, at times with ids, or by an id that it has, that a block before has used, or that none has. Each chain is then handed
to `run`, `conflicts`, `get`, `history`, `scan` and `definition`, whose lines have to be those of `committer.py`. Blocks are of both versions, those
of version 2 with updates that are valid, or aren't for each of the causes; half of the channels have an admin policy. Some blocks are
drafted of raw lines alone, in which signatures, ids and channels are changed. For every chain there are lists too in which old, cut
and otherwise spoiled blocks stand between the good ones, and these are run by 1, 2 and 5 workers and asked by `get`. After each chain
blocks of accepted numbers and other refused ones are explained, in the line of `knowing.py`. It ends with figures: how many scripts,
calls, flags, refusals, outcomes of updates, words of reasons, answers to ids, relations of known blocks, and faults of each kind there
were. It goes on until each of them came, and fails where anything differs.
"""

import hmac
import pathlib
import random
import subprocess
import sys
import tempfile
from collections import Counter
from copy import deepcopy
from functools import partial

sys.dont_write_bytecode = True
sys.path.append(str(pathlib.Path(__file__).resolve().parent.parent))

import answers
from committer import World, is_inside
from counting import counted
from drawing import drawn
from encoding import Refused, data_hash, header_hash, read_block, spelled_block, spelled_signed, spelled_tx, version_of_block
from explaining import explained, explained_of, item_of
from knowing import known
from policies import read_policy
from scripts import LONGEST, Faulty, accepts, drafted, keys_of, txs_of, word_bytes
from words import word

TOP = pathlib.Path(__file__).resolve().parent.parent.parent
ORGS = ("Org1", "Org2")
CHANNEL = {
    "cc": "OR('Org1.peer','Org2.peer')",
    "both": "AND('Org1.peer','Org2.peer')",
    "any": "OR('Org1.member','Org2.member')",
    "two.of-3_": "OutOf(2,'Org1.peer','Org2.peer','Org1.admin')",
    "first-any": "OutOf(2,'Org1.member',AND('Org2.member','Org2.peer'),'Org1.admin')",
}
ADMIN = "OR('Org1.admin',AND('Org2.member','Org2.admin'))"
SIGNERS = [f"{org}:{role}:{label}" for org in ORGS for role, label in (("peer", "p0"), ("peer", "p%251"), ("client", "c"), ("admin", "%"))]
STRANGER = "Org3:peer:p0"
# Words and the same bytes spelled otherwise; the last is the longest key.
KEYS = ["a", "b", "%61", "b%20b", "%00", "%ff", "%FF%ff", "deleted", "~", "k" * 1024]
VALUES = ["v", "%", "deleted", "%64eleted", "de%6Ceted", "%00%01", "a%20%25", "x" * 300, "%C3%A9"]
NO_POLICIES = ["no policy", "'Org1.king'", "OutOf(2,'Org1.peer')"]
POLICIES = [*CHANNEL.values(), "and( 'Org1.peer' , OutOf(1,\"Org2.admin\") )", "'Org1.member'", *NO_POLICIES]
BOUNDS = ["%", "a", "b", "b%00", "~", "%ff"]


def versions(world):
    """Versions that rows have, and one that none has."""
    return [row[1] for row in world.state.values()] + [(99, 7)]


def read_line(pick, world, name):
    key = pick.choice(KEYS[:6])
    row = world.state.get((name.encode(), word_bytes(key)))
    if pick.random() < 0.8:
        return f"read {key} {row[1][0]} {row[1][1]}" if row else f"read {key} absent"
    return "read {} {} {}".format(key, *pick.choice(versions(world)))


def range_lines(pick, world, name):
    start, end = pick.choice(BOUNDS), pick.choice(BOUNDS)
    kind = pick.choice(["all", "part"])
    yield f"range {start}  {end} {kind}"
    rows = sorted((key, row[1]) for (space, key), row in world.state.items() if space == name.encode())
    rows = [row for row in rows if is_inside(row[0], word_bytes(start), word_bytes(end))]
    if kind == "part":
        rows = rows[: pick.randrange(3)]
    if pick.random() < 0.2:
        pick.shuffle(rows)
    if rows and pick.random() < 0.4:
        rows.pop(pick.randrange(len(rows)))
    if pick.random() < 0.2:
        rows += [(word_bytes(pick.choice(KEYS)), pick.choice(versions(world))) for _ in range(pick.randrange(1, 4))]
        rows = pick.choice([rows, sorted(rows)])
    for key, version in rows:
        yield "result {} {} {}".format(word(key), *version)


def entry_lines(pick, world, name):
    roll = pick.random()
    key = pick.choice(KEYS)
    if roll < 0.25:
        yield read_line(pick, world, name)
    elif roll < 0.4:
        yield from range_lines(pick, world, name)
    elif roll < 0.75:
        yield f"write {key} {pick.choice(VALUES)}"
    elif roll < 0.85:
        yield f"delete {key}"
    elif roll < 0.95:
        yield f"policy {key}  {pick.choice(POLICIES)}"
    else:
        yield f"nopolicy {key}"


def creator_and_nonce(pick, before):
    """A nonce of its own, or at times both as they came before."""
    before.append(pick.choice(before) if before and pick.random() < 0.04 else f"{pick.choice(SIGNERS)} n{len(before)}%00")
    return before[-1]


def tx_lines(pick, world, nonces):
    named = pick.choice(["cc"] * 5 + [*CHANNEL, "undefined"])
    yield f"tx {creator_and_nonce(pick, nonces)} {named}"
    spaces = pick.sample([*CHANNEL, "undefined"], pick.choice([0, 1, 1, 2])) if pick.random() < 0.5 else [named]
    if pick.random() < 0.05:
        spaces = spaces * 2
    for name in spaces:
        yield f"ns {name}"
        for _ in range(pick.randrange(5)):
            yield from entry_lines(pick, world, name)
    for signer in pick.sample(SIGNERS, pick.choice([0, 1, 2, 3, 4])) if pick.random() < 0.8 else SIGNERS:
        yield f"endorse {signer}"


def asking_lines(pick, world, nonces):
    """One that all endorse and that reads all of a namespace, where another of the block may write."""
    yield f"tx {creator_and_nonce(pick, nonces)} cc"
    yield "ns cc"
    yield f"range % % {pick.choice(['all', 'part'])}"
    for key, row in sorted(world.state.items()):
        if key[0] == b"cc":
            yield "result {} {} {}".format(word(key[1]), *row[1])
    yield from (f"endorse {signer}" for signer in SIGNERS)


def update_lines(pick, nonces):
    name = pick.choice([*CHANNEL] * 3 + ["undefined"])
    yield f"update {creator_and_nonce(pick, nonces)} {name}  {pick.choice(POLICIES)}"
    admins = [signer for signer in SIGNERS if signer.startswith("Org1:admin")]
    for signer in admins if pick.random() < 0.6 else pick.sample(SIGNERS, pick.randrange(4)):
        yield f"endorse {signer}"


def second_lines(pick, world, nonces):
    """Those of a block of version 2: an update alone, or among others, or none."""
    roll = pick.random()
    if roll < 0.4:
        yield from update_lines(pick, nonces)
        return
    if roll < 0.5:
        yield from update_lines(pick, nonces)
        yield from pick.choice([[], ["raw 00"], update_lines(pick, nonces)])
    yield from good_lines(pick, world, nonces)


def good_lines(pick, world, nonces):
    for _ in range(pick.randrange(7)):
        if pick.random() < 0.06:
            yield f"raw {pick.randbytes(pick.randrange(40)).hex()}".strip()
        yield from pick.choice([*[tx_lines] * 9, asking_lines])(pick, world, nonces)
        if pick.random() < 0.3:
            yield pick.choice(["", "# a comment", "   # an indented one", "    "])


def ids_of(octets):
    """Those of a block."""
    items = [item_of(version_of_block(octets), tx) for tx in read_block(octets)[3]]
    return [item.id for item in items if item]


def changed(pick, keys, version, octets):
    """The bytes with another channel, id or signature, or with some endorsers' signatures bad, or bad and good."""
    item, what = item_of(version, octets), pick.choice(["channel", "id", "signature", *["endorsements"] * 5])
    if item is None:
        return octets
    if what == "channel":
        item.channel = b"other"
    elif what == "id":
        item.id = pick.randbytes(64)
    elif what == "endorsements":
        given = [(who, pick.choice([[signed], [b""], [b"", signed]])) for who, signed in item.endorsements]
        item.endorsements = [(who, signature) for who, signatures in given for signature in signatures]
    item.signature = b"" if what == "signature" else hmac.digest(keys[item.creator], spelled_signed(item), "sha256")
    return spelled_tx(item)


def raw_lines(pick, keys, version, script):
    """The script's transactions and updates by their bytes, half of them changed."""
    for octets in txs_of(b"ch", keys, script, version):
        yield f"raw {pick.choice([octets, changed(pick, keys, version, octets)]).hex()}".strip()


OPEN, SPACE, UPDATE = "tx Org1:peer:p0 n cc", "ns cc", "update Org1:peer:p0 n cc x"
# What is wrong, the lines before it where nothing else is open for it, and the faulty line.
FAULTS = {
    "no such word": ([], "walk on"),
    "word in upper case": ([], "TX Org1:peer:p0 n cc"),
    "tab": ([OPEN], "ns\tcc"),
    "tx without name": ([], "tx Org1:peer:p0 n"),
    "tx with more": ([], "tx Org1:peer:p0 n cc cc"),
    "tx of a stranger": ([], f"tx {STRANGER} n cc"),
    "tx of a king": ([], "tx Org1:king:p0 n cc"),
    "tx without label": ([], "tx Org1:peer: n cc"),
    "nonce that is no word": ([], "tx Org1:peer:p0 n% cc"),
    "nonce too long": ([], f"tx Org1:peer:p0 {'n' * 256} cc"),
    "name too long": ([], f"tx Org1:peer:p0 n {'c' * 65}"),
    "name with a colon": ([], "tx Org1:peer:p0 n c:c"),
    "raw of an odd number": ([], "raw abc"),
    "raw that isn't hexadecimal": ([], "raw xy"),
    "raw too long": ([], "raw " + "00" * (LONGEST + 1)),
    "update without text": ([], "update Org1:peer:p0 n cc"),
    "update with a bad name": ([], "update Org1:peer:p0 n c/c x"),
    "update of a stranger": ([], f"update {STRANGER} n cc x"),
    "update with a text too long": ([], f"update Org1:peer:p0 n cc {'p' * 65536}"),
    "ns behind update": ([UPDATE], "ns cc"),
    "write behind update": ([OPEN, SPACE, UPDATE], "write k v"),
    "endorse of an update by a stranger": ([UPDATE], f"endorse {STRANGER}"),
    "update in version 1": ([OPEN], "update Org1:peer:p0 n cc x"),
    "ns before tx": (None, "ns cc"),
    "ns behind raw": (["raw"], "ns cc"),
    "ns without name": ([OPEN], "ns"),
    "ns with a bad name": ([OPEN], "ns c/c"),
    "read before tx": (None, "read k absent"),
    "read before ns": ([OPEN], "read k absent"),
    "read of no key": ([OPEN, SPACE], "read % absent"),
    "read of a key too long": ([OPEN, SPACE], f"read {'k' * 1025} absent"),
    "read without version": ([OPEN, SPACE], "read k"),
    "read of half a version": ([OPEN, SPACE], "read k 1"),
    "read with more": ([OPEN, SPACE], "read k 1 2 3"),
    "number of 21 digits": ([OPEN, SPACE], f"read k {'0' * 21} 0"),
    "number with a sign": ([OPEN, SPACE], "read k +1 0"),
    "block past 64 bits": ([OPEN, SPACE], f"read k {1 << 64} 0"),
    "transaction past 32 bits": ([OPEN, SPACE], f"read k 0 {1 << 32}"),
    "range without end": ([OPEN, SPACE], "range a all"),
    "range neither all nor part": ([OPEN, SPACE], "range a b some"),
    "bound too long": ([OPEN, SPACE], f"range % {'b' * 1025} all"),
    "result without range": ([OPEN, SPACE, "write k v"], "result k 0 0"),
    "result in the next namespace": ([OPEN, SPACE, "range a b all", SPACE], "result a 0 0"),
    "result absent": ([OPEN, SPACE, "range a b all"], "result a absent"),
    "write without value": ([OPEN, SPACE], "write k"),
    "write of what is no word": ([OPEN, SPACE], "write k %4"),
    "write with more": ([OPEN, SPACE], "write k v w"),
    "delete with more": ([OPEN, SPACE], "delete k v"),
    "delete without key": ([OPEN, SPACE], "delete"),
    "policy without text": ([OPEN, SPACE], "policy k"),
    "policy too long": ([OPEN, SPACE], f"policy k {'p' * 65536}"),
    "nopolicy with text": ([OPEN, SPACE], "nopolicy k 'A.peer'"),
    "endorse before tx": (None, "endorse Org1:peer:p0"),
    "endorse by a stranger": ([OPEN], f"endorse {STRANGER}"),
    "endorse by a king": ([OPEN], "endorse Org1:king:p0"),
    "65th endorser": ([OPEN] + ["endorse Org1:peer:p0"] * 64, "endorse Org1:peer:p0"),
    "4,097th transaction": (["raw"] * 4097, "raw"),
    "65,536th write": ([OPEN, SPACE] + ["delete k"] * 65535, "delete k"),
    "carriage return at the end": ([OPEN], "ns cc\r"),
    "not UTF-8": ([], b"# \xff"),
}
# Those of scripts of version 2; the others are of version 1.
SECOND = {kind for kind in FAULTS if "update" in kind} - {"update in version 1"}
FLAGS = {0, 2, 4, 6, 8, 9, 10, 11, 12, 14, 22, 25}
# Words of reasons, with the flag that they stand behind, and how many transactions an id asks for, or whether one before.
WORDS = {
    6: ["admin", "refused", "missing"],
    10: ["refused", "missing", "order"],
    11: ["by"],
    12: ["all", "part", "by"],
    22: ["fallen", "outside"],
}
ASKED = {"one", "several", "earlier", "none"}
# What is printed of refused blocks, whose number was accepted or not.
KNOWN = {"same", "twin", "fork", "other", "none"}
UPDATES = {"valid", "not-alone", "no-admin-policy", "undefined", "policy", "admin"}
# The `tx` line of a transaction that is too long is at fault, once it ends.
TOO_LONG = {
    "too long, and the last": [],
    "too long, and then a fault": [OPEN, "walk"],
    "too long, and then a faulty tx": ["tx"],
}


def faulty_lines(pick, kind):
    before, line = FAULTS[kind]
    if before is None:
        return [line]
    return ["# before"] * pick.randrange(3) + before + [line]


def lines_of_length(keys, length):
    """A transaction of so many bytes."""

    def lines(value):
        return ["tx Org1:client:c n cc", "ns cc", f"write k {value}", "endorse Org1:peer:p0"]

    (shortest,) = txs_of(b"ch", keys, "\n".join(lines("%")).encode())
    return lines("v" * (length - len(shortest)))


def of_version(version, octets):
    number, previous, hash_of_data, txs = read_block(octets)
    return spelled_block(number, previous, hash_of_data, txs, version)


def spoiled(pick, octets):
    """A block that isn't the next one, unless by chance; some are of another version or magic."""
    place = pick.choice([0, 2, 3, 11, 12, 13, 20, pick.randrange(len(octets))])
    flipped = bytearray(octets)
    flipped[place % len(octets)] ^= 1
    number, previous, hash_of_data, txs = read_block(octets)
    with_wrong_data = [
        spelled_block(number, previous, data_hash([*txs, b"more"]), txs, version) for version in (1, 2)
    ]
    return pick.choice([
        bytes(flipped),
        octets[: pick.randrange(len(octets))],
        octets + b"\0",
        b"FBK3" + octets[4:],
        of_version(1, octets),
        of_version(1, octets),
        *with_wrong_data,
    ])


def related(pick, blocks):
    """A block of the number of one of these, that one at times, with a transaction less or two that were joined, another version,
    another previous hash, or the data hash of others.
    """
    octets = pick.choice(blocks)
    number, previous, hash_of_data, txs = read_block(octets)
    place = pick.randrange(max(1, len(txs)))
    joined = [*txs[:place], b"".join(txs[place : place + 2]), *txs[place + 2 :]]
    left = [*txs[:place], *txs[place + 1 :]]
    others = [header_hash(*read_block(other)[:3]) for other in blocks] + [b"", pick.randbytes(32)]
    previous, txs, hash_of_data = pick.choice([
        (previous, txs, hash_of_data),
        (previous, joined, hash_of_data),
        (previous, left, data_hash(left)),
        (previous, left, hash_of_data),
        (pick.choice(others), txs, hash_of_data),
    ])
    return spelled_block(number, previous, hash_of_data, txs, pick.choice([1, 2, version_of_block(octets)]))


def mixed_list(pick, blocks):
    """The blocks in order, and others before and behind each."""
    for place, octets in enumerate(blocks):
        for _ in range(pick.choice([0, 1, 1, 2])):
            yield spoiled(pick, octets)
        yield octets
        if pick.random() < 0.3:
            yield pick.choice(blocks[: place + 1])


def text_of(lines):
    return "".join(line + "\n" for line in lines)


def words_said(lines):
    for line in lines:
        _, flag, *words = line.split()
        yield from (f"{flag} {said}" for said in WORDS.get(int(flag), []) if said in words)


def kind_of(lines):
    """What an id has led to."""
    if len(lines) == 2:
        return "earlier" if lines[1].startswith("earlier") else "one"
    return "several" if lines else "none"


def spelled_otherwise(octets):
    return "".join(f"%{octet:02x}" for octet in octets)


def outcomes_of_updates(world):
    """Of the last block: `valid`, or what flag 6 is for."""
    octets, _, flags = world.blocks[-1]
    for tx, flag, why in zip(read_block(octets)[3], flags, world.reasons[-1]):
        if flag == 6:
            yield why.split()[0]
        elif flag == 0 and tx.startswith(b"\0"):
            yield "valid"


class Trial:
    def __init__(self, program, folder, pick):
        self.program, self.folder, self.pick = program, folder, pick
        self.calls, self.scripts, self.lists = 0, 0, 0
        self.faults, self.flags, self.refusals, self.updates = Counter(), Counter(), Counter(), Counter()
        self.words, self.asked, self.known = Counter(), Counter(), Counter()
        book = "".join(f"{who} {pick.randbytes(pick.choice([1, 32, 64])).hex()}\n" for who in SIGNERS)
        self.keys = keys_of(book.encode())
        self.definitions = {name.encode(): read_policy(policy.encode()) for name, policy in CHANNEL.items()}
        self.write("keys", book.encode())
        self.take_channel(None)

    def take_channel(self, admin):
        """The channel with this admin policy, if there is one."""
        lines = ["channel ch", *(f"chaincode {name} {policy}" for name, policy in CHANNEL.items())]
        lines += [f"admin {admin}"] if admin else []
        self.admin = admin and read_policy(admin.encode())
        self.write("channel", "".join(line + "\n" for line in lines).encode())

    def blank(self):
        return World(b"ch", self.definitions, partial(accepts, self.keys), self.admin)

    def write(self, name, octets):
        (self.folder / name).write_bytes(octets)

    def call(self, *words):
        self.calls += 1
        command = [self.program, words[0], "--channel", "channel", "--keys", "keys", *words[1:]]
        ended = subprocess.run(command, cwd=self.folder, capture_output=True)
        return ended.returncode, ended.stdout.decode(), ended.stderr.decode()

    def want(self, status, out, err, *words):
        got = self.call(*words)
        assert got == (status, out, err), (words, got, (status, out, err))

    def draft(self, number, blocks, script, version=1):
        """The block, as both have it, or none where both find the same fault."""
        self.scripts += 1
        self.write("script", script)
        self.write("out", b"as it was")
        after = ["--after", f"block{number - 1}"] if blocks else []
        formats = ["--format", str(version)] * (version > 1 or self.pick.random() < 0.2)
        words = ["draft", *after, *formats, "script", "out"]
        try:
            block = drafted(b"ch", self.keys, blocks[-1] if blocks else None, script, version)
        except Faulty as fault:
            self.want(3, "", f"script line {fault}\n", *words)
            assert (self.folder / "out").read_bytes() == b"as it was"
            return None
        self.want(0, "", "", *words)
        assert (self.folder / "out").read_bytes() == block, script
        self.write(f"block{number}", block)
        return block

    def text(self, lines):
        ending = self.pick.choice([b"\n", b"\r\n"])
        texts = [line if isinstance(line, bytes) else line.encode() for line in lines]
        last = ending if self.pick.random() < 0.5 and not (texts and texts[-1].endswith(b"\r")) else b""
        return ending.join(texts) + last

    def fault(self, kind, number, blocks, lines):
        assert self.draft(number, blocks, self.text(lines), 2 if kind in SECOND else 1) is None, kind
        self.faults[kind] += 1

    def explain(self, world, octets, files):
        """The last of the files, which stands behind the world."""
        lines = explained(world, octets)
        self.want(0, text_of(lines), "", "explain", *files)
        self.words.update(words_said(lines[1:]))
        if self.pick.random() < 0.3:
            self.want(0, text_of(explained(world, octets, ids=True)), "", "explain", "--ids", *files)
        every = self.pick.random() < 0.5
        self.want(0, drawn(len(world.blocks), lines[1:], every), "", "explain", "--dot", *["--all"] * every, *files)
        if self.pick.random() < 0.6:
            self.explain_id(world, octets, files)

    def explain_id(self, world, octets, files):
        """The same by an id of the block, of one before, or any other."""
        pick, sources = self.pick, (ids_of(octets), [*world.first_uses], [self.pick.randbytes(64)])
        id, ids = pick.choice(pick.choice([source for source in sources if source])), pick.random() < 0.5
        spelled = pick.choice([word(id), word(id), spelled_otherwise(id)])
        lines = explained_of(world, octets, id, ids)
        said = 0 if lines else 2, text_of(lines), "" if lines else f"no transaction {spelled}\n"
        self.want(*said, "explain", *["--ids"] * ids, *files, f"--id={spelled}")
        self.asked[kind_of(lines)] += 1

    def explain_refused(self, world, octets, files):
        """The last of the files, which is refused after the others."""
        try:
            deepcopy(world).submit(octets)
        except Refused as fault:
            line = known(world, octets)
            words = self.pick.choice([[], [], ["--ids"], ["--dot"], ["--tx", "0"]])
            self.want(1, answers.refused(len(files), fault) + line, "", "explain", *words, *files)
            self.known[line.split()[2] if line else "none"] += 1

    def explain_known(self, world, blocks, files):
        """Blocks whose numbers were accepted already, and others that are refused."""
        for number, make in enumerate((related, related, lambda pick, blocks: spoiled(pick, pick.choice(blocks)))):
            name = f"known{number}"
            self.write(name, make(self.pick, blocks))
            self.explain_refused(world, (self.folder / name).read_bytes(), [*files, name])

    def ask(self, world, files):
        """One key and one range, asked of the chain."""
        pick = self.pick
        name, key = pick.choice([*CHANNEL, "undefined"]), pick.choice(KEYS)
        asked = world, name.encode(), word_bytes(key)
        self.want(0, answers.get(*asked), "", "get", "--ns", name, "--key", key, *files)
        self.want(0, answers.history(*asked), "", "history", *files, "--ns", name, f"--key={key}")
        self.want(0, answers.definition(*asked[:2]), "", "definition", "--ns", name, *files)
        start, end = pick.choice(BOUNDS + ["k" * 1025, "k" * 1024 + "%00"]), pick.choice(BOUNDS + ["k" * 1025])
        limit = pick.choice([1, 2, 3, 100])
        lines = answers.scan(*asked[:2], word_bytes(start), word_bytes(end), limit)
        bounds = ["--start", start] * (start != "%") + ["--end", end] * (end != "%") + ["--limit", str(limit)] * (limit < 100)
        self.want(0, lines, "", "scan", "--ns", name, *bounds, *files)

    def chain(self):
        pick, blocks, nonces, reasons = self.pick, [], [], []
        self.take_channel(pick.choice([None, ADMIN]))
        world = self.blank()
        for number in range(pick.randrange(1, 6)):
            kind = min(FAULTS, key=lambda kind: (self.faults[kind], pick.random()))
            if pick.random() < 0.5:
                self.fault(kind, number, blocks, faulty_lines(pick, kind))
            version = max(world.version(), pick.choice([1, 1, 1, 2]))
            lines = good_lines if version == 1 else second_lines
            script = self.text(list(lines(pick, world, nonces)))
            if pick.random() < 0.3:
                script = self.text(list(raw_lines(pick, self.keys, version, script)))
            block = self.draft(number, blocks, script, version)
            blocks.append(block)
            self.explain(world, block, [f"block{number}" for number in range(len(blocks))])
            reasons.append(explained(world, block)[1:])
            world.submit(block)
            self.flags.update(world.blocks[-1][2])
            self.updates.update(outcomes_of_updates(world))
        files = [f"block{number}" for number in range(len(blocks))]
        lines = "".join(answers.accepted(world, number) for number in range(len(files)))
        self.want(0, lines, "", "run", *files)
        lines = "".join(answers.accepted(world, number) + answers.committed(world, number) for number in range(len(files)))
        self.want(0, lines, "", "run", "--hashes", *files)
        self.count(0, reasons, files)
        for _ in range(3):
            self.ask(world, files)
        self.explain_known(world, blocks, files)
        self.mixed(blocks)

    def count(self, status, reasons, files):
        """What made transactions invalid, in all blocks or from one on."""
        self.want(status, counted(reasons), "", "conflicts", *files)
        top, first = self.pick.choice([0, 1, 2, 65535]), self.pick.randrange(len(reasons) + 2)
        self.want(status, counted(reasons, top, first), "", "conflicts", "--top", str(top), *files, f"--from={first}")

    def mixed(self, blocks):
        """The chain's blocks with spoiled ones between them, by workers and by one thread."""
        self.lists += 1
        world, lines, hashes, files, reasons = self.blank(), "", "", [], []
        for octets in mixed_list(self.pick, blocks):
            files.append(f"mixed{len(files)}")
            self.write(files[-1], octets)
            before = deepcopy(world)
            try:
                world.submit(octets)
                reasons.append(explained(before, octets)[1:])
                told = answers.accepted(world, len(world.blocks) - 1)
                lines, hashes = lines + told, hashes + told + answers.committed(world, len(world.blocks) - 1)
            except Refused as fault:
                told = answers.refused(len(files), fault)
                lines, hashes = lines + told, hashes + told
                self.refusals[str(fault).split()[0]] += 1
        status = 1 if "refused" in lines else 0
        for workers in (1, 2, 5):
            self.want(status, lines, "", "run", "--workers", str(workers), *files)
            self.want(status, hashes, "", "run", "--workers", str(workers), "--hashes", *files)
        self.count(status, reasons, files)
        name, key = self.pick.choice([*CHANNEL]), self.pick.choice(KEYS)
        self.want(status, answers.get(world, name.encode(), word_bytes(key)), "", "get", "--ns", name, "--key", key, *files)

    def lacks(self):
        """Whether there are faults, flags, outcomes of updates, words and answers to ids that haven't come yet."""
        words = [f"{flag} {said}" for flag, all_said in WORDS.items() for said in all_said]
        wanted = (FAULTS, self.faults), (FLAGS, self.flags), (UPDATES, self.updates), (words, self.words), (ASKED, self.asked), (KNOWN, self.known)
        return any(set(all_of) - set(came) for all_of, came in wanted)

    def limits(self):
        """The longest transaction, and those that are one byte too long."""
        assert self.draft(0, [], self.text(lines_of_length(self.keys, LONGEST))) is not None
        for kind, more in TOO_LONG.items():
            self.fault(kind, 0, [], lines_of_length(self.keys, LONGEST + 1) + more)


def main():
    words = sys.argv[1:] + ["./fabcommit", "1000", "1"][len(sys.argv) - 1 :]
    program, count, seed = str(pathlib.Path(words[0]).resolve()), int(words[1]), int(words[2])
    with tempfile.TemporaryDirectory() as folder:
        trial = Trial(program, pathlib.Path(folder), random.Random(seed))
        trial.limits()
        while trial.scripts < count or trial.lacks():
            trial.chain()
    missing = {*answers.FAULTS} - {"TooManyTxs", "TxTooLong"} - set(trial.refusals)
    assert not missing, missing
    print(f"{trial.scripts} scripts, of which {trial.faults.total()} faulty of {len(trial.faults)} kinds, {trial.calls} calls")
    print("flags:", ", ".join(f"{flag} {times} times" for flag, times in sorted(trial.flags.items())))
    print("updates:", ", ".join(f"{name} {times} times" for name, times in sorted(trial.updates.items())))
    print("words:", ", ".join(f"{name} {times} times" for name, times in sorted(trial.words.items())))
    print("known:", ", ".join(f"{name} {times} times" for name, times in sorted(trial.known.items())))
    print("ids:", ", ".join(f"{name} {times} times" for name, times in sorted(trial.asked.items())))
    print(f"{trial.lists} lists, refusals:", ", ".join(f"{name} {times} times" for name, times in sorted(trial.refusals.items())))


if __name__ == "__main__":
    main()
