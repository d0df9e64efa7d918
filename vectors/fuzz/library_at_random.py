#!/usr/bin/env python3
"""Chains at random through the C library, and calls with bad bytes, tables, buffers and handles.

`FABCOMMIT_SO=FILE python3 vectors/fuzz/library_at_random.py [COUNT [SEED]]` makes COUNT chains (1000) from SEED (1), which are dense in
updates. Each is handed to the library, its signatures checked by Python or by the library's keys, and asked as `updates_at_random.py`
asks the program: the lines have to be those of `committer.py`. As many chains follow that are made as in `scripts_at_random.py`, of
scripts and spoiled transactions; each block is explained before it is handed in, and the records have to say the lines of
`explaining.py`. Before all this come the sample's blocks with the one that has every flag, and a block with each kind of reason,
by keys and by answers. Last come three times as many ledgers of the sample's blocks, between which stand spoiled blocks with tables of
any pieces, and calls with buffers of any sizes: a code other than 0 changes nothing, and no call writes beside its buffers. It ends
with figures, and fails where anything differs, or where a kind of reason didn't come in 1,000 chains.
"""

import ctypes
import pathlib
import random
import sys
import tempfile
from collections import Counter
from functools import partial

sys.dont_write_bytecode = True
TOP = pathlib.Path(__file__).resolve().parent.parent.parent
sys.path += [str(TOP / "vectors"), str(TOP / "vectors" / "fuzz"), str(TOP / "clients" / "python")]

import answers
from committer import World
from explain import lines as lines_said
from explained import CHANNEL, KEYS, each_kind
from explaining import explained
from fabcommit import Refused
from fabcommit.binding import Identity, Piece, Reason, ReasonSizes, Receipt, Row, S, Sizes, Verdict, lib
from fabcommit.reasons import KINDS
from keybook import keys_in, verifier
from policies import read_policy
from run import refusal
from scripts import accepts, drafted, keys_of
from scripts_at_random import ADMIN, Trial, good_lines, raw_lines, second_lines, words_said
from tuples import CLOSED, NONE, SHARED, SMALL, Ledger
from updates_at_random import UpdateTrial
from words import word


class LibraryTrial(UpdateTrial):
    """Asks the library in the program's place."""

    def explain(self, world, octets, files):
        """The last of the files, which stands behind the world."""
        ledger, verify = self.blank_ledger()
        for name in files[:-1]:
            ledger.submit((self.folder / name).read_bytes(), verify)
        assert [*lines_said(*ledger.explain(octets, verify))] == explained(world, octets)[1:]
        ledger.close()

    def blank_ledger(self):
        """One of the channel, and what it goes by where it has no keys."""
        channel, keys = ((self.folder / name).read_bytes() for name in ("channel", "keys"))
        verify = self.pick.choice([None, verifier(keys_in(keys))])
        return Ledger(channel, b"" if verify else keys), verify

    @staticmethod
    def check_shared(ledger, octets, verify):
        """While a second handle holds the ledger, neither takes a block."""
        with ledger.share() as share:
            for one in (ledger, share):
                before = one.height()
                try:
                    one.submit(octets, verify)
                    assert False, "a shared ledger took a block"
                except Refused as refused:
                    assert refused.code == SHARED and one.height() == before

    def opened(self, files):
        """A ledger that took these files, their lines with and without hashes, and the status."""
        (ledger, verify), lines, hashes, status = self.blank_ledger(), [], [], 0
        for place, name in enumerate(files, 1):
            octets = (self.folder / name).read_bytes()
            if self.pick.random() < 0.3:
                self.check_shared(ledger, octets, verify)
            try:
                told = ledger.submit(octets, verify)
                flags = ledger.flags(told.number)
                lines.append(" ".join(["accepted", str(told.number), bytes(told.header_hash).hex(), *map(str, flags)]) + "\n")
                hashes += [lines[-1], f"commit {told.number} {bytes(told.commit_hash).hex()}\n"]
            except Refused as refused:
                lines.append(refusal(place, refused) + "\n")
                hashes.append(lines[-1])
                status = 1
        # what is asked of it may be asked of a share that outlives it
        if self.pick.random() < 0.5:
            with ledger:
                ledger = ledger.share()
        return ledger, "".join(lines), "".join(hashes), status

    def definition(self, ledger, name):
        try:
            return f"definition {ledger.definition(name).decode()}\n"
        except Refused as refused:
            assert refused.code == NONE
            return "absent\n"

    def scanned(self, ledger, name):
        """All rows, a few at a time."""
        limit, start, rows, more = self.pick.choice([1, 2, 3, 100]), b"", [], True
        while more:
            some, more = ledger.scan(name, start, b"", limit)
            rows += some
            start = some[-1][0] + b"\0" if some else b""
        for key, *row, value in rows:
            assert ledger.get(name, key) == (*row, value)
        policy = lambda key: (ledger.key_policy(name, key) or b"-").decode()
        return [f"row {word(key)} {block} {tx} {word(value)} {policy(key)}\n" for key, block, tx, value in rows]

    def want(self, status, out, err, *words):
        self.calls += 1
        kind, *words = words
        named = {words[i]: words[i + 1] for i, name in enumerate(words) if name in ("--ns", "--key", "--workers")}
        files = [name for name in words if not name.startswith("--") and name not in named.values()]
        ledger, lines, hashes, got = self.opened(files)
        name, head = named.get("--ns", "").encode(), f"height {ledger.height()}\n"
        if kind == "run":
            assert (got, hashes if "--hashes" in words else lines) == (status, out)
        elif kind == "definition":
            assert head + self.definition(ledger, name) == out
        elif kind == "history":
            writes = ledger.history(name, named["--key"].encode())
            assert head + "".join(answers.entry_line((block, tx), id, value) for block, tx, id, value in writes) == out
        else:
            assert kind == "scan" and head + "".join(self.scanned(ledger, name)) == out
        ledger.close()
        ledger.close()
        try:
            raise AssertionError(ledger.height())
        except Refused as refused:
            assert refused.code == CLOSED


class ReasonTrial(Trial):
    """Explains each block of a chain before it is handed in."""

    def __init__(self, *given):
        super().__init__(*given)
        self.kinds = Counter()

    def chain(self):
        pick, nonces, last = self.pick, [], None
        self.take_channel(pick.choice([None, ADMIN]))
        keys = (self.folder / "keys").read_bytes()
        verify = pick.choice([None, verifier(keys_in(keys))])
        world, ledger = self.blank(), Ledger((self.folder / "channel").read_bytes(), b"" if verify else keys)
        for _ in range(pick.randrange(1, 6)):
            version = max(world.version(), pick.choice([1, 1, 1, 2]))
            script = self.text(list((good_lines if version == 1 else second_lines)(pick, world, nonces)))
            if pick.random() < 0.3:
                script = self.text(list(raw_lines(pick, self.keys, version, script)))
            last = drafted(b"ch", self.keys, last, script, version)
            reasons, *others = ledger.explain(last, verify)
            wanted = explained(world, last)[1:]
            assert [*lines_said(reasons, *others)] == wanted, (script, wanted)
            self.kinds.update(reason.kind for reason in reasons)
            self.words.update(words_said(wanted))
            world.submit(last)
            ledger.submit(last, verify)
            assert ledger.flags(ledger.height() - 1) == [reason.flag for reason in reasons] == world.blocks[-1][2]
        ledger.close()


def spoiled(pick, octets):
    octets = bytearray(octets)
    for _ in range(pick.randrange(1, 4)):
        at = pick.randrange(len(octets) + 1)
        octets[at : at + pick.randrange(3)] = pick.randbytes(pick.randrange(3))
    return bytes(octets[: pick.choice([None, None, pick.randrange(len(octets) + 1)])])


class Guarded:
    """A buffer of so many sevens, with some behind it that no call may touch."""

    def __init__(self, size):
        self.size, self.at = size, ctypes.create_string_buffer(b"\7" * (size + 32), size + 32)

    def is_as_it_was(self):
        return self.at.raw == b"\7" * (self.size + 32)

    def is_whole(self):
        return self.at.raw[self.size :] == b"\7" * 32


class HostileTrial:
    def __init__(self, pick):
        self.pick, self.codes, sample = pick, Counter(), TOP / "sample"
        self.channel, self.keys = ((sample / name).read_bytes() for name in ("channel.txt", "keys.txt"))
        self.blocks = [(sample / f"block{number}.blk").read_bytes() for number in range(6)]
        self.verify = verifier(keys_in(self.keys))

    def list(self, octets):
        room, places = self.pick.choice([0, 10, 100, 100000]), self.pick.choice([0, 1, 3, 200])
        pool, verdicts, sizes = Guarded(room), (Verdict * (places + 1))(), Sizes(7, 7)
        code = lib.fabcommit_list(octets, len(octets), pool.at, room, verdicts, places, sizes)
        self.codes["list", code] += 1
        assert pool.is_whole() and not any(bytes(verdicts[places]))
        assert code == 0 or pool.is_as_it_was() and not any(bytes(verdicts))
        assert (code in (0, SMALL)) == (sizes.pool != 7)
        return pool

    def submit(self, ledger, octets, pool):
        """By the keys, or by a table of any pieces, also of such that are in no pool."""
        count, pick = self.pick.randrange(4), self.pick
        verdicts, receipt = (Verdict * (count + 1))(), Receipt()
        for verdict in verdicts:
            for name in ("org", "label", "message", "signature"):
                setattr(verdict, name, Piece(*pick.choices([0, 1, 5, pool.size, 2**63, 2**64 - 1, pick.randrange(200)], k=2)))
            verdict.role, verdict.accepted = pick.randrange(256), pick.random() < 0.5
        if pick.random() < 0.5:
            code = lib.fabcommit_submit(ledger.handle, octets, len(octets), receipt)
        else:
            code = lib.fabcommit_submit_by(ledger.handle, octets, len(octets), pool.at, pool.size, verdicts, count, receipt)
        self.codes["submit", code] += 1
        return code

    def explain(self, ledger, octets, said):
        """By the keys or by nothing, with buffers that may be too small; and of what the next block isn't."""
        pick, sizes = self.pick, ReasonSizes(7, 7, 7, 7, 7)
        room, places, names = pick.choice([0, 10, 1000]), pick.choice([0, 1, 3, 20]), pick.choice([0, 1, 20])
        pool, reasons, identities = Guarded(room), (Reason * (places + 1))(), (Identity * (names + 1))()
        words = pool.at, room, reasons, places, identities, names, sizes
        if pick.random() < 0.5:
            code = lib.fabcommit_explain(ledger.handle, octets, len(octets), *words)
        else:
            code = lib.fabcommit_explain_by(ledger.handle, octets, len(octets), said.at, said.size, (Verdict * 1)(), 0, *words)
        self.codes["explain", code] += 1
        assert pool.is_whole() and not any(bytes(reasons[places])) and not any(bytes(identities[names]))
        assert code == 0 or pool.is_as_it_was() and not any(bytes(reasons)) and not any(bytes(identities))
        assert (code in (0, SMALL)) == (sizes.pool != 7 or sizes.reasons != 7)

    def ask(self, ledger):
        pick = self.pick
        for number in range(ledger.height()):
            flags, need = ledger.flags(number), S()
            buffer = Guarded(pick.randrange(len(flags) + 2))
            code = lib.fabcommit_flags(ledger.handle, number, buffer.at, buffer.size, need)
            assert need.value == len(flags) and (code == SMALL) == (buffer.size < len(flags))
            assert buffer.is_whole() and (code == 0 or buffer.is_as_it_was())
        name, key = pick.choice([b"cc", b"", b"x" * 65, b"a b", b"dd"]), pick.choice([b"car1", b"", b"k" * 1025, b"\0"])
        buffer = Guarded(pick.randrange(40))
        code = lib.fabcommit_get(ledger.handle, name, len(name), key, len(key), Row(), buffer.at, buffer.size)
        self.codes["get", code] += 1
        assert buffer.is_whole() and (code == 0 or buffer.is_as_it_was())
        buffer = Guarded(pick.randrange(40))
        code = lib.fabcommit_key_policy(ledger.handle, name, len(name), key, len(key), buffer.at, buffer.size, S())
        self.codes["key_policy", code] += 1
        assert buffer.is_whole() and (code == 0 or buffer.is_as_it_was())

    def ledger(self):
        pick, ledger = self.pick, Ledger(self.channel, self.keys if self.pick.random() < 0.5 else b"")
        for number in range(pick.randrange(6)):
            ledger.submit(self.blocks[number], self.verify)
            octets = pick.choice([spoiled(pick, pick.choice(self.blocks)), pick.randbytes(pick.randrange(80)), pick.choice(self.blocks)])
            before = [ledger.flags(i) for i in range(ledger.height())]
            self.explain(ledger, octets, self.list(octets))
            assert before == [ledger.flags(i) for i in range(ledger.height())]
            if self.submit(ledger, octets, self.list(octets)) == 0:
                break
            assert before == [ledger.flags(i) for i in range(ledger.height())]
            self.ask(ledger)
        ledger.close()


def try_each_flag():
    """The sample's blocks and the one with every flag, by the library's keys and by Python's answers: also bad signatures."""
    sample = TOP / "sample"
    channel, keys = ((sample / name).read_bytes() for name in ("channel.txt", "keys.txt"))
    blocks = [(sample / name).read_bytes() for name in (*(f"block{number}.blk" for number in range(6)), "every_flag.blk")]
    by_keys, by_answers = Ledger(channel, keys), Ledger(channel)
    for number, octets in enumerate(blocks):
        told, again = by_keys.submit(octets), by_answers.submit(octets, verifier(keys_in(keys)))
        assert bytes(told) == bytes(again) and by_keys.flags(number) == by_answers.flags(number)
    assert len({*by_keys.flags(6)}) >= 10 and 4 in by_keys.flags(6)


def try_each_kind():
    """A block with a transaction for almost each kind of reason; the kinds that it has."""
    first, second, _ = each_kind()
    definitions = {name.encode(): read_policy(text.encode()) for name, text in CHANNEL.items()}
    world = World(b"ch", definitions, partial(accepts, keys_of(KEYS.encode())))
    channel = "".join(["channel ch\n", *(f"chaincode {name} {text}\n" for name, text in CHANNEL.items())])
    world.submit(first)
    for keys, verify in ((KEYS.encode(), None), (b"", verifier(keys_in(KEYS.encode())))):
        ledger = Ledger(channel.encode(), keys)
        ledger.submit(first, verify)
        reasons, *others = ledger.explain(second, verify)
        assert [*lines_said(reasons, *others)] == explained(world, second)[1:]
        ledger.close()
    return Counter(reason.kind for reason in reasons)


def main():
    try_each_flag()
    kinds = try_each_kind()
    words = sys.argv[1:] + ["1000", "1"][len(sys.argv) - 1 :]
    count, pick = int(words[0]), random.Random(int(words[1]))
    with tempfile.TemporaryDirectory() as folder:
        trial = LibraryTrial("", pathlib.Path(folder), pick)
        for _ in range(count):
            trial.chain()
        reasons = ReasonTrial("", pathlib.Path(folder), pick)
        reasons.kinds.update(kinds)
        for _ in range(count):
            reasons.chain()
    hostile = HostileTrial(pick)
    for _ in range(3 * count):
        hostile.ledger()
    if count >= 1000:
        assert all(reasons.kinds[kind] for kind in range(len(KINDS))), reasons.kinds
    print(f"{count} chains, {trial.calls} ledgers of them")
    print("flags:", ", ".join(f"{flag} {times} times" for flag, times in sorted(trial.flags.items())))
    print("updates:", ", ".join(f"{name} {times} times" for name, times in sorted(trial.updates.items())))
    print("kinds of reasons:", ", ".join(f"{kind} {times} times" for kind, times in sorted(reasons.kinds.items())))
    print("words of reasons:", ", ".join(f"{said} {times} times" for said, times in sorted(reasons.words.items())))
    print("codes:", ", ".join(f"{call} {code} {times} times" for (call, code), times in sorted(hostile.codes.items())))


if __name__ == "__main__":
    main()
