#!/usr/bin/env python3
"""Shows blocks made at random, and drafts them again from what is shown.

`python3 vectors/fuzz/shown_at_random.py [PROGRAM [COUNT [SEED]]]` makes COUNT lists (1000) of one to three blocks from SEED (1), of both
versions. Of their transactions and updates some are cut or have a byte changed, are of another channel, have ids or signatures that
aren't their own, or texts that no line has; some blocks have a wrong hash, and some files hold none. PROGRAM (`./fabcommit`) has to
show them as `showing.py` does, with the keys and without, and to draft the same transactions again from each text, and the same block
where its hashes are right. The blocks of `sample/`, those that are as large as blocks may be and the chain of 32 blocks come before.
It ends with figures, and fails where anything differs.
"""

import hmac
import pathlib
import random
import subprocess
import sys
import tempfile
from collections import Counter

sys.dont_write_bytecode = True
sys.path.append(str(pathlib.Path(__file__).resolve().parent.parent))

from encoding import (
    LONGEST,
    NoSpelling,
    Refused,
    Update,
    data_hash,
    header_hash,
    identity,
    read_block,
    read_item,
    spelled_block,
    spelled_body,
    spelled_signed,
    spelled_tx,
    version_of_block,
)
from scripts import keys_of, txs_of
from scripts_at_random import TOP, Trial, good_lines, lines_of_length, second_lines, spoiled
from showing import shown
from story import story

STRANGER = identity("Org3:peer:p0")
TEXTS = [b"", b" x", b"x ", b"a\nb", b"\xc3\xa9", b"\x1b[K", b"x\r", b"\xff"]


def signed_anew(keys, item):
    body = spelled_body(item)
    item.endorsements = [
        (who, hmac.digest(keys[who], body + who, "sha256") if who in keys else b"ok") for who, _ in item.endorsements
    ]
    if item.creator in keys:
        item.signature = hmac.digest(keys[item.creator], spelled_signed(item), "sha256")
    return spelled_tx(item)


def with_text(pick, item):
    text = pick.choice(TEXTS)
    if isinstance(item, Update):
        item.policy = text
    elif item.namespaces:
        item.namespaces[0].policies.append((b"k", text))


def changed(pick, octets):
    if not octets:
        return b"\0"
    flipped = bytearray(octets)
    flipped[pick.randrange(len(octets))] ^= 1 << pick.randrange(8)
    return bytes(flipped)


def spoilt(pick, keys, version, octets):
    """What was done to a transaction or an update, and its bytes then."""
    try:
        item = read_item(version, octets)
    except NoSpelling:
        return "was raw", octets
    kind = pick.choice(["cut", "changed", "longer", "channel", "id", "creator", "endorser", "signature", "endorsed", "text"])
    if kind == "cut":
        return kind, octets[: pick.randrange(len(octets))]
    if kind == "changed":
        return kind, changed(pick, octets)
    if kind == "longer":
        return kind, octets + b"\0"
    if kind == "signature":
        item.signature = changed(pick, item.signature)
        return kind, spelled_tx(item)
    if kind == "endorsed":
        item.endorsements = [(who, changed(pick, signature)) for who, signature in item.endorsements]
        return kind, spelled_tx(item)
    if kind == "channel":
        item.channel = pick.choice([b"dh", b"c", b"chh"])
    elif kind == "id":
        item.id = pick.choice([b"%" * 64, b"0" * 64, pick.randbytes(64)])
    elif kind == "creator":
        item.creator = STRANGER
    elif kind == "endorser":
        item.endorsements.append((STRANGER, b""))
    else:
        with_text(pick, item)
    return kind, signed_anew(keys, item)


class Showing(Trial):
    def __init__(self, program, folder, pick):
        super().__init__(program, folder, pick)
        self.done, self.blocks, self.wrong, self.no_blocks = Counter(), 0, 0, 0

    def show(self, *words):
        self.calls += 1
        ended = subprocess.run([self.program, "show", *words], cwd=self.folder, capture_output=True)
        return ended.stdout.decode(), ended.returncode

    def drafted_again(self, text, version, after):
        self.write("script", text.encode())
        words = ["draft", *(["--after", after] if after else []), "--format", str(version), "script", "out"]
        self.want(0, "", "", *words)
        return (self.folder / "out").read_bytes()

    def is_shown(self, signing, words, files, octets):
        """Shows the blocks in these files, and drafts each again."""
        for name, block in zip(files, octets):
            self.write(name, block)
        got, wanted = self.show(*words, *files), shown(signing, octets)
        assert got == wanted, (words, files, got, wanted)
        for place, block in enumerate(octets):
            try:
                number, previous, hash_of_data, txs = read_block(block)
            except Refused:
                continue
            after = files[place - 1] if self.follows(octets, place) else None
            text, _ = shown(signing, [block])
            again = self.drafted_again(text, version_of_block(block), after)
            assert read_block(again)[3] == txs, (words, files, place)
            is_right = hash_of_data == data_hash(txs) and (after or (number, previous) == (0, b""))
            assert not is_right or again == block, (words, files, place)

    def follows(self, octets, place):
        try:
            number, *hashes, _ = read_block(octets[place - 1]) if place else (0, None)
            number_here, previous, _, _ = read_block(octets[place])
        except (Refused, ValueError):
            return False
        return place > 0 and number_here == number + 1 and previous == header_hash(number, *hashes)

    def both(self, octets):
        files = [f"shown{place}" for place in range(len(octets))]
        self.is_shown((b"ch", self.keys), ["--channel", "channel", "--keys", "keys"], files, octets)
        self.is_shown(None, [], files, octets)

    def txs(self, version):
        """Of a block at random, some of them spoilt."""
        lines = second_lines if version == 2 else good_lines
        script = self.text(list(lines(self.pick, self.blank(), [])))
        for octets in txs_of(b"ch", self.keys, script, version):
            if self.pick.random() < 0.4:
                kind, octets = spoilt(self.pick, self.keys, version, octets)
                self.done[kind] += 1
            yield octets

    def block(self, number, before):
        version = self.pick.choice([1, 2])
        txs = list(self.txs(version))
        previous = header_hash(*before[:3]) if before else b""
        hash_of_data = data_hash(txs)
        if self.pick.random() < 0.2:
            self.wrong += 1
            hash_of_data, previous = self.pick.choice([(bytes(32), previous), (hash_of_data, bytes(32)), (hash_of_data, b"")])
        self.blocks += 1
        return spelled_block(number, previous, hash_of_data, txs, version)

    def list(self):
        octets, before = [], None
        for number in range(self.pick.randrange(1, 4)):
            octets.append(self.block(number, before))
            before = read_block(octets[-1])
            if self.pick.random() < 0.3:
                self.no_blocks += 1
                octets[-1] = spoiled(self.pick, octets[-1])
                before = None
        self.both(octets)

    def limits(self):
        """Blocks as large as they may be, and the chain of 32."""
        (longest,) = txs_of(b"ch", self.keys, "\n".join(lines_of_length(self.keys, LONGEST)).encode())
        for txs in ([longest], [b"\xff" * LONGEST], [b""] * 4096, []):
            self.both([spelled_block(0, b"", data_hash(txs), txs, 1)])
        self.both([octets for octets, *_ in story().blocks])


def stored():
    """The blocks of each folder of the repository that has a channel, keys and blocks."""
    for channel in sorted(TOP.glob("crates/fabcommit*/data/channel.txt")):
        folder = channel.parent
        yield folder, [block.read_bytes() for block in sorted(folder.glob("*.blk"))]


def main():
    words = sys.argv[1:] + ["./fabcommit", "1000", "1"][len(sys.argv) - 1 :]
    program, count, seed = str(pathlib.Path(words[0]).resolve()), int(words[1]), int(words[2])
    with tempfile.TemporaryDirectory() as folder:
        trial = Showing(program, pathlib.Path(folder), random.Random(seed))
        for place, octets in stored():
            trial.keys = keys_of((place / "keys.txt").read_bytes())
            trial.write("keys", (place / "keys.txt").read_bytes())
            trial.write("channel", (place / "channel.txt").read_bytes())
            name = (place / "channel.txt").read_text().split("channel ")[1].split()[0].encode()
            files = [f"shown{number}" for number in range(len(octets))]
            trial.is_shown((name, trial.keys), ["--channel", "channel", "--keys", "keys"], files, octets)
            trial.is_shown(None, [], files, octets)
        trial = Showing(program, pathlib.Path(folder), random.Random(seed))
        trial.limits()
        for _ in range(count):
            trial.list()
    done = ", ".join(f"{kind} {number}" for kind, number in sorted(trial.done.items()))
    print(f"{trial.calls} calls, {trial.blocks} blocks, {trial.wrong} with a wrong hash, {trial.no_blocks} spoiled; {done}")


if __name__ == "__main__":
    main()
