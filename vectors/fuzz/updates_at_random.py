#!/usr/bin/env python3
"""Chains at random that are dense in updates, run by `fabcommit` and by the serial committer here.

`python3 vectors/fuzz/updates_at_random.py [PROGRAM [COUNT [SEED]]]` makes COUNT chains (1000) of six to eight blocks from SEED (1).
PROGRAM (`./fabcommit`) runs each chain with 1, 2 and 5 workers; at every height it tells the definition of each name, and of the
whole chain all rows, histories and first uses, at times by an id. Its lines have to be those of `committer.py`. It ends with figures:
the outcomes of updates, and how many valid ones changed a later flag, which is told by a world that doesn't take the update. It
fails where anything differs, or where something came too seldom in 1,000 chains.
"""

import pathlib
import random
import sys
import tempfile
from copy import deepcopy

sys.dont_write_bytecode = True
sys.path.append(str(pathlib.Path(__file__).resolve().parent.parent))

import answers
from encoding import data_hash, header_hash, read_block, spelled_block
from scripts import drafted
from scripts_at_random import CHANNEL, SIGNERS, UPDATES, Trial, creator_and_nonce, outcomes_of_updates, update_lines

NAMES = [*CHANNEL, "undefined"]
# Of all signers this one alone meets it, so that an update is valid as often as it isn't.
ADMIN = "'Org1.admin'"
KEYS = "abc"


def write_lines(pick, nonces):
    """Transactions whose flags stand or fall with the policies of chaincodes."""
    for _ in range(pick.randrange(1, 5)):
        name = pick.choice([*CHANNEL])
        yield f"tx {creator_and_nonce(pick, nonces)} {name}"
        yield f"ns {name}"
        yield f"write {pick.choice(KEYS)} {pick.randrange(100)}"
        for signer in pick.sample(SIGNERS, pick.randrange(1, 4)):
            yield f"endorse {signer}"


def block_lines(pick, nonces, number, version):
    if version == 1 or number % 2:
        yield from write_lines(pick, nonces)
        return
    yield from update_lines(pick, nonces)
    if pick.random() < 0.1:
        yield from pick.choice([["raw 00"], list(update_lines(pick, nonces)), list(write_lines(pick, nonces))])


def behind(blocks, txs):
    """The block of version 2 of these transactions behind the last one."""
    number, *hashes, _ = read_block(blocks[-1])
    return spelled_block(number + 1, header_hash(number, *hashes), data_hash(txs), txs, 2)


class UpdateTrial(Trial):
    def __init__(self, *given):
        super().__init__(*given)
        self.changing = 0

    def without(self, world, octets):
        """The world behind a block of which it takes no update."""
        other = deepcopy(world)
        other.admin = None
        other.submit(octets)
        other.admin = world.admin
        return other

    def take(self, world, others, octets):
        """Takes the block, and tells which other worlds are left: those that don't show yet that they lack an update."""
        before = deepcopy(world)
        world.submit(octets)
        flags, outcomes = world.blocks[-1][2], [*outcomes_of_updates(world)]
        for other in others:
            other.submit(octets)
        left = [other for other in others if other.blocks[-1][2] == flags]
        self.changing += len(others) - len(left)
        self.flags.update(flags)
        self.updates.update(outcomes)
        return left + [self.without(before, octets)] * ("valid" in outcomes)

    def ask_definitions(self, world, files):
        for name in NAMES:
            self.want(0, answers.definition(world, name.encode()), "", "definition", "--ns", name, *files)

    def ask_all(self, world, files):
        for name in NAMES:
            self.want(0, answers.scan(world, name.encode(), b"", b"", 100), "", "scan", "--ns", name, *files)
            for key in KEYS:
                self.want(0, answers.history(world, name.encode(), key.encode()), "", "history", "--ns", name, "--key", key, *files)

    def chain(self):
        pick, blocks, files, nonces, others = self.pick, [], [], [], []
        self.take_channel(ADMIN if pick.random() < 0.9 else None)
        world, first = self.blank(), pick.randrange(3)
        for number in range(pick.randrange(6, 9)):
            version = 1 if number < first else 2
            script = self.text(block_lines(pick, nonces, number, version))
            blocks.append(drafted(b"ch", self.keys, blocks[-1] if blocks else None, script, version))
            files.append(f"block{number}")
            self.write(files[-1], blocks[-1])
            others = self.take(world, others, blocks[-1])
            self.ask_definitions(world, files)
        self.ask_all(world, files)
        # each item once more: its reason is the first use of its id
        self.write("again", behind(blocks, [tx for octets in blocks for tx in read_block(octets)[3]]))
        files.append("again")
        octets = (self.folder / "again").read_bytes()
        self.explain(world, octets, files)
        world.submit(octets)
        lines = "".join(answers.accepted(world, number) + answers.committed(world, number) for number in range(len(files)))
        for workers in (1, 2, 5):
            self.want(0, lines, "", "run", "--workers", str(workers), "--hashes", *files)


def main():
    words = sys.argv[1:] + ["./fabcommit", "1000", "1"][len(sys.argv) - 1 :]
    program, count, seed = str(pathlib.Path(words[0]).resolve()), int(words[1]), int(words[2])
    with tempfile.TemporaryDirectory() as folder:
        trial = UpdateTrial(program, pathlib.Path(folder), random.Random(seed))
        for _ in range(count):
            trial.chain()
    print(f"{count} chains, {trial.calls} calls")
    print("flags:", ", ".join(f"{flag} {times} times" for flag, times in sorted(trial.flags.items())))
    print("updates:", ", ".join(f"{name} {times} times" for name, times in sorted(trial.updates.items())))
    print(f"valid updates that changed a later flag: {trial.changing}")
    if count >= 1000:
        assert all(trial.updates[name] >= 50 for name in UPDATES) and trial.changing >= 200


if __name__ == "__main__":
    main()
