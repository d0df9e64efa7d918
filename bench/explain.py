#!/usr/bin/env python3
"""Times `explain` of a block beside `submit_one` of it, by the ledger, on one thread.

Run as `bench/explain.py [WORKLOAD ..]` from anywhere, on a quiet machine that has the kit. It builds the program of
`peer.py`, and hands it the blocks of a workload, behind two that make the state.

- `valid`: 20 blocks of 500 transactions, which read two of 2,000 keys and write two others; all are valid.
- `mixed`: the same, but every other transaction has one of the kinds of reason, each in turn.
- `duplicates`: a block of 4,096, of which the second half carries the id of the last one of the first half.
- `touched`: a block of 4,096, each of which writes the policy of one key.
- `repeats 1,024` and so on: a transaction whose reads are so many keys that fall, the last of them twice.

A line has the microseconds for one transaction, the least of five runs or of as many as RUNS says in the environment, how many
times as long as a submit an explanation takes, and the same by the median over the runs, in which both take turns. Behind all
it says what load the machine had before and after, and what part of its time was stolen from it.
"""

import pathlib
import sys
import tempfile

from peer import CRATES, CREATOR, PEERS, POLICY, PROGRAM, VALUE, Blocks, for_one, key, timed
from scratch import Machine, build, times_as_long
from encoding import Namespace, Tx, identity, spelled_tx, tx_id

STATE, OWN = 2000, 100


class Mixed(Blocks):
    """Blocks over keys of which the last ones have policies of their own."""

    def fill(self):
        plain, own = [key(n) for n in range(STATE - OWN)], [key(n) for n in range(STATE - OWN, STATE)]
        self.add([self.tx(writes=plain), self.tx(writes=own, policies=own)])
        self.add([self.tx(writes=[key(STATE)])])
        self.version = lambda n: (0, 0) if n < STATE - OWN else (0, 1)
        self.setup = self.number

    def drawn(self):
        """Of the first part, to be read; those behind it are written."""
        return self.random.randrange(STATE // 2)

    def valid(self):
        writes = [key(STATE // 2 + self.random.randrange(STATE // 4)) for _ in range(2)]
        return self.tx([self.read(self.drawn()), self.read(self.drawn())], writes)

    def whole(self, namespaces, by=PEERS, channel=b"ch", id_of=None, nonce=None, signer=CREATOR):
        if nonce is None:
            self.nonce += 1
            nonce = b"%d" % self.nonce
        creator = identity(CREATOR)
        tx = Tx(channel, tx_id(id_of or nonce, creator), creator, nonce, b"cc", namespaces, [], b"")
        self.keys.endorse(tx, by)
        self.keys.sign_whole(tx, signer)
        return spelled_tx(tx)

    def in_cc(self, *, by=PEERS, **lists):
        return self.whole([Namespace(b"cc", **lists)], by)

    def asked(self, *numbers, end=None):
        """A range that found these keys."""
        return [(key(0), key(end or 10), True, [self.read(n) for n in numbers])]

    def kinds(self):
        """A transaction of each kind, and what some need before them."""
        write, other = [(key(STATE // 2), VALUE)], key(STATE - OWN - 1 - self.random.randrange(OWN))
        yield self.valid()[:-1]
        yield self.whole([Namespace(b"cc", writes=write)], signer=PEERS[0])
        yield self.whole([Namespace(b"cc", writes=write)], id_of=b"another")
        yield self.whole([Namespace(b"cc", writes=write)], nonce=b"1")
        yield self.whole([Namespace(b"cc", writes=write)], nonce=b"%d" % self.nonce)
        yield self.in_cc(policies=[(other, POLICY)])
        yield self.in_cc(writes=[(other, VALUE)])
        yield self.in_cc(writes=[(key(STATE - 1), VALUE)], by=PEERS[:1])
        yield self.in_cc(writes=write, by=PEERS[:1])
        yield self.whole([], [])
        yield self.in_cc(reads=[(key(self.drawn()), (9, 9))])
        yield self.in_cc(ranges=self.asked(0, 1, 2, 3, 5, 6, 7, 8, 9))
        yield self.whole([Namespace(b"cc", writes=write)], channel=b"other")
        yield self.whole([Namespace(b"cc"), Namespace(b"cc")])
        yield self.in_cc(reads=[self.read(0), self.read(0)])
        yield self.in_cc(ranges=self.asked(1, 0))
        yield self.in_cc(ranges=self.asked(1, 20))
        yield self.in_cc(policies=[(key(0), b"AND(")])
        yield self.whole([Namespace(b"zz", writes=write)])


def valid(blocks):
    for _ in range(20):
        blocks.add([blocks.valid() for _ in range(500)])


def mixed(blocks):
    for _ in range(20):
        kinds = iter(())
        txs = []
        while len(txs) < 500:
            txs.append(blocks.valid())
            bad = next(kinds, None)
            if bad is None:
                kinds = blocks.kinds()
                bad = next(kinds)
            txs.append(bad)
        blocks.add(txs)


def duplicates(blocks):
    txs = [blocks.valid() for _ in range(2048)]
    last = b"%d" % blocks.nonce
    blocks.add(txs + [blocks.whole([], nonce=last) for _ in range(2048)])


def touched(blocks):
    blocks.add([blocks.in_cc(policies=[(key(0), POLICY)]) for _ in range(4096)])


def repeats(count):
    def make(blocks):
        keys = [b"%04x" % number for number in range(count, 1, -1)]
        blocks.add([blocks.in_cc(reads=[(name, None) for name in keys + keys[-1:]])])

    return make


WORKLOADS = {
    "valid": valid,
    "mixed": mixed,
    "duplicates": duplicates,
    "touched": touched,
    **{f"repeats {count:,}": repeats(count) for count in (1024, 4096, 16384, 65535)},
}


def told(program, name, blocks):
    found = timed(program, [("ledger", blocks), ("explain", blocks)])
    submit, explain = (for_one(runs, blocks) for runs, _ in found)
    ratio, median = times_as_long(explain, submit)
    print(f"{name:>15} {min(submit):>12,.1f} {min(explain):>14,.1f} {ratio:>7.2f} {median:>7.2f}", flush=True)


def main():
    wanted = sys.argv[1:] or WORKLOADS
    machine = Machine()
    with tempfile.TemporaryDirectory() as name:
        folder = pathlib.Path(name)
        program = build(folder / "program", "peer", PROGRAM, own=CRATES, kit=["anyhow"])
        print("                 µs for one transaction")
        print("                      submit        explain   ratio  median")
        for title, make in WORKLOADS.items():
            if title in wanted:
                blocks = Mixed(folder / title, STATE)
                blocks.fill()
                make(blocks)
                told(program, title, blocks)
    print(machine)


if __name__ == "__main__":
    main()
