#!/usr/bin/env python3
"""Times the decoding of transactions against hashing their bytes with the same sha2, and counts its memory.

Run as `bench/decode.py` from anywhere, on a machine that has the kit and a C compiler; it needs 3 GB under TMPDIR, since
what the crates' last check kept is copied. Run it behind `rt check` of the crate `transaction`: else it is proved first.
It prints the least of five runs of both, and for the example and the dearest inputs the bytes of allocations for each
byte of input. It fails where either is more than what is promised.
"""

import hashlib
import os
import pathlib
import subprocess
import sys
import tempfile

from scratch import RUNS, build
from encoding import Namespace, Tx, identity, long, short, spelled_tx

BENCH = pathlib.Path(__file__).resolve().parent
MAX_BYTES = 1 << 20
MAX_COUNT = (1 << 16) - 1

# What decode_tx says of itself, in bytes of allocations for a byte of input, and the times of hashing that decoding may take.
HELD = {"good": 12, "refused": 22}
RATIO = 0.25

# Prints the least nanoseconds of hashing the file that it is given, of decoding its transactions of 200 bytes, and
# how many of these are good.
TIMER = r"""
#![tactic(auto)]

use transaction::decode_tx;
use sha2::{Digest, Sha256};
use std::alloc::Global;
use std::time::Instant;
use std::{env, fs};

fn good(alloc: Global, bytes: &[u8]) -> usize {
    let mut count = 0usize;
    for tx in bytes.chunks_exact(200) {
        if decode_tx(alloc, tx).is_ok() {
            count = count.wrapping_add(1);
        }
    }
    count
}

fn main(rt: HostRuntime) -> anyhow::Result<()> {
    let alloc = rt.alloc();
    for path in env::args(&rt)?.skip(1) {
        let bytes = fs::read(&rt, path.as_str())?;
        let (mut hashing, mut decoding, mut count) = (u128::MAX, u128::MAX, 0);
        for _ in 0..RUNSu8 {
            let start = Instant::now(&rt)?;
            let digest = Sha256::digest(bytes.as_slice());
            hashing = hashing.min(start.elapsed(&rt)?.as_nanos());
            let first = digest[0];
            eprintln!(rt; "{first}")?;
            let start = Instant::now(&rt)?;
            count = good(alloc, bytes.as_slice());
            decoding = decoding.min(start.elapsed(&rt)?.as_nanos());
        }
        println!(rt; "{hashing} {decoding} {count}")?;
    }
    Ok(())
}
"""

# Decodes each file that it is given, between the markers of count_allocations.c.
ONCE = r"""
#![tactic(auto)]

use transaction::decode_tx;
use std::alloc::{AllocError, Global};
use std::{env, fs};

fn mark(alloc: Global, size: usize) -> Result<(), AllocError> {
    let _block = Vec::<u8>::with_capacity(alloc, size)?;
    Ok(())
}

fn main(rt: HostRuntime) -> anyhow::Result<()> {
    let alloc = rt.alloc();
    for path in env::args(&rt)?.skip(1) {
        let bytes = fs::read(&rt, path.as_str())?;
        mark(alloc, 0x5eed01)?;
        let good = decode_tx(alloc, bytes.as_slice()).is_ok();
        mark(alloc, 0x5eed02)?;
        println!(rt; "{good}")?;
    }
    Ok(())
}
"""


def listed(size, items, claimed=None):
    """So many items, or what claims to be so many."""
    return (len(items) if claimed is None else claimed).to_bytes(size, "big") + b"".join(items)


def example(number):
    """The transaction of docs/format.md with another id, nonce and signatures for each number."""
    seed = hashlib.sha512(number.to_bytes(8, "big")).digest()
    namespace = Namespace(b"cc", reads=[(b"k1", (0, 0))], writes=[(b"k3", b"v")])
    endorsements = [(identity("Org1:peer:p0"), seed[:32])]
    creator = identity("Org1:client:c0")
    return spelled_tx(Tx(b"ch", seed, creator, seed[:2], b"cc", [namespace], endorsements, seed[32:]))


# The shortest of each kind.
KEY = long(b"k")
READ = WRITE = POLICY_WRITE = KEY + b"\0"
RESULT = KEY + bytes(12)
RANGE = bytes(7)
ENDORSEMENT = short(b"O") + bytes(4)


def namespace(reads=b"\0\0", ranges=b"\0\0", writes=b"\0\0", policy_writes=b"\0\0"):
    return short(b"c") + reads + ranges + writes + policy_writes


def transaction(namespaces, endorsements=b"\0"):
    head = short(b"c") + bytes(64) + short(b"O") + bytes(2) + bytes(1) + short(b"c")
    return head + namespaces + endorsements + bytes(2)


def as_many(item):
    """So many of the item as a transaction has room for beside 100 other bytes, or one past a power of two."""
    room = min(MAX_COUNT, (MAX_BYTES - 100) // len(item))
    return [room, (1 << (room.bit_length() - 1)) + 1]


def heavy():
    """Names and bytes of the transactions that take the most memory for their length."""
    one = {
        "reads": listed(2, [READ]), "ranges": listed(2, [RANGE]),
        "writes": listed(2, [WRITE]), "policy_writes": listed(2, [POLICY_WRITE]),
    }
    for kind, item in (("reads", READ), ("ranges", RANGE), ("writes", WRITE), ("policy_writes", POLICY_WRITE)):
        for count in as_many(item):
            yield f"{count} {kind}", transaction(listed(2, [namespace(**{kind: listed(2, [item] * count)})]))
    for count in as_many(RESULT):
        ranges = listed(2, [bytes(5) + listed(2, [RESULT] * count)])
        yield f"{count} results", transaction(listed(2, [namespace(ranges=ranges)]))
    for choice in range(16):
        kinds = [kind for place, kind in enumerate(one) if choice >> place & 1]
        item = namespace(**{kind: one[kind] for kind in kinds})
        for count in as_many(item):
            yield f"{count} namespaces, one of {kinds}", transaction(listed(2, [item] * count))
    yield "64 endorsements", transaction(listed(2, []), listed(1, [ENDORSEMENT] * 64))
    yield "one of each", transaction(listed(2, [namespace(**one)]), listed(1, [ENDORSEMENT]))
    yield "the example", example(0)
    # Counts that promise more than is there.
    full = listed(2, [POLICY_WRITE] * (MAX_COUNT - 1), MAX_COUNT)
    yield "promised namespaces and policy writes", transaction(listed(2, [namespace(policy_writes=full)], MAX_COUNT))
    for size in (400, MAX_BYTES):
        for kind, item in (("reads", READ), ("ranges", RANGE), ("writes", WRITE), ("policy_writes", POLICY_WRITE)):
            rest = (size - 100) // len(item)
            promised = listed(2, [item] * min(rest, MAX_COUNT - 1), MAX_COUNT)
            yield f"promised namespaces and {kind}, {size}", transaction(listed(2, [namespace(**{kind: promised})], MAX_COUNT))
        results = bytes(5) + listed(2, [RESULT] * min((size - 120) // len(RESULT), MAX_COUNT - 1), MAX_COUNT)
        ranges = listed(2, [results], MAX_COUNT)
        yield f"promised namespaces, ranges and results, {size}", transaction(listed(2, [namespace(ranges=ranges)], MAX_COUNT))


def time_of(folder):
    timer = build(folder / "timer", "timer", TIMER.replace("RUNS", str(RUNS)), own=["values", "transaction"], kit=["sha2", "anyhow"])
    count = 500_000
    path = folder / "transactions"
    path.write_bytes(b"".join(example(number) for number in range(count)))
    size = path.stat().st_size
    done = subprocess.run([timer, str(path)], capture_output=True, text=True, check=True)
    hashing, decoding, good = map(int, done.stdout.split())
    if size != 200 * count or good != count:
        sys.exit(f"{good} of {count} transactions were decoded")
    print(f"{count} transactions, {size} bytes: hashing {hashing / 1e9:.3f} s, decoding {decoding / 1e9:.3f} s, "
          f"ratio {decoding / hashing:.2f}")
    if RATIO * hashing < decoding:
        sys.exit(f"decoding takes more than {RATIO} of the time of hashing")


def memory_of(folder):
    once = build(folder / "once", "once", ONCE, own=["values", "transaction"], kit=["anyhow"])
    counter = folder / "count_allocations.so"
    subprocess.run(["cc", "-O2", "-fPIC", "-shared", "-o", counter, BENCH / "count_allocations.c"], check=True)
    path = folder / "transaction"
    worst = {}
    for name, tx in heavy():
        path.write_bytes(tx)
        done = subprocess.run([once, str(path)], capture_output=True, text=True, check=True,
                              env=os.environ | {"LD_PRELOAD": str(counter)})
        held, asked, chunks = (int(word) / len(tx) for word in done.stderr.split())
        answer = {"true": "good", "false": "refused"}[done.stdout.strip()]
        row = (held, f"{name}, {len(tx)} bytes, {answer}: for a byte of input {held:.2f} held at most, "
                     f"{asked:.2f} asked for in all, {chunks:.2f} at most in chunks of the heap")
        worst[answer] = max(worst.get(answer, row), row)
        if name == "the example":
            print(row[1])
    for answer, most in HELD.items():
        print(worst[answer][1])
        if most < worst[answer][0]:
            sys.exit(f"more than {most} bytes are held")


def main():
    with tempfile.TemporaryDirectory() as name:
        folder = pathlib.Path(name)
        time_of(folder)
        memory_of(folder)


main()
