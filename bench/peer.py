#!/usr/bin/env python3
"""Times a peer by its workers: transactions a second, memory, and how far that is from hashing alone.

Run as `bench/peer.py [--beside FOLDER] [WORKLOAD ..]` from anywhere, on a quiet machine with four cores that has the kit; it needs
4 GB under TMPDIR. It builds a program over the repository's crates in a scratch folder, which hands the blocks of a workload in: those
that make its state by themselves, and all others at once, to `run` of a `commit::Committer` of 1, 2 and 4 workers; or one by
one to the `ledger::Ledger`, which has one thread and none to start. A state is made by blocks of at most 50,000 keys.

Each transaction has two endorsements, which its policy asks for; values are of 100 bytes, keys of 16. The seed is fixed.

- `small`: 20 blocks of 50 transactions, which read two of 1,000 keys and write two others.
- `typical`: 100 blocks of 500 of the same.
- `contended`: as typical, but all four keys are drawn by Zipf's law, so that the first key is in each seventh draw.
- `wide`: 5 blocks of 4,096 transactions, each of which reads and writes keys that no other one has.
- `chain`: 2 blocks of 4,096 transactions, each of which reads what the one before it wrote.
- `drawn`: 20 blocks of 500 as in typical, over 100,000 keys.
- `state`: the same over 1,000,000 keys.
- `history`: 100 blocks of 500 transactions, all of which write the same 10 keys.
- `ranges`: 20 blocks of 500 transactions that read a range of 10 keys and write a key elsewhere.
- `policies`: 20 blocks of 500 transactions that write two keys with policies of their own.
- `writes`: 40 blocks of 500 transactions that write eight of 20,000 keys, so that the thread that commits sets the pace.
- `written`: a block whose first 2,048 transactions write one key, which 2,048 behind them read.
- `overruled`: the same where no writer is valid, so that each reader passes all of them.

`hashing` is the time in which one thread of the same sha2 hashes, for one transaction, what has to be hashed: its part of
the data hash, its id, the HMAC-SHA-256 of what its creator and its endorsers sign, each from the key on, and its part of the commit
hash. `ratio` is the time for a transaction with one worker, divided by that. `explain` is the time in which a ledger tells the reasons of a
block that it isn't handed yet. `faster` is one worker's time divided by that of two and four.

Above it stands the limit of the machine, `limit`: how much faster two and four processes hash that share nothing.

A second table has the time for one transaction with one worker, to whom blocks are handed in one by one: by the size of a
block, the length of the chain and the keys of the state; the slope is that of its logarithm by theirs: 0 where it doesn't
grow.

Another one, `slow`, is of `typical` and `state` by a verifier that takes some 60 µs more for a signature, as one of ECDSA P-256 does:
how long a transaction takes with 1, 2 and 4 workers, how much faster than one two and four are, and how much faster two and four
programs of one worker are in the same turns, of which each takes all blocks: what the machine gives.

`--beside` has another checkout of this repository whose libraries are built, and another table: how long a transaction takes, with
1, 2 and 4 workers, by this one's committer and by that one's, in turns, and what that is divided by.

Times are the least of five runs, or of as many as RUNS says in the environment. What stands in one line takes turns in them.
UNDER has words that are put before each program that is timed. A system that gathers new threads on few processors, as one
whose kernel saves processors of a virtual machine, doesn't show what four cores give: there `UNDER="chrt -f 50"` spreads them.
`ratio` and `faster` are by the least times; `medians` has the same by the median over the turns, which differs where the
machine changes its speed: then neither says much.
`memory` is the most of a run with four workers, in MB. Behind both tables it says what load the machine had before and after,
and what part of its time was stolen from it.
"""

import argparse
import math
import os
import pathlib
import random
import subprocess
import sys
import tempfile

from scratch import RUNS, UNDER, Machine, build, built_of, times_as_long
from encoding import Namespace, Tx, data_hash, header_hash, identity, spelled_block, spelled_tx, tx_id
from signing import Keys

CRATES = ["block", "transaction", "values", "header_hash", "policy_eval", "key_book", "rules", "gates", "ledger", "commit"]
WORKERS = [1, 2, 4]
# How many keys a transaction writes that makes the state, and how many of them a block has.
STEP, STEPS = 2500, 20
CHANNEL = "channel ch\nchaincode cc AND('Org1.peer','Org2.peer')\n"
CREATOR, PEERS = "Org1:client:c0", ["Org1:peer:p0", "Org2:peer:q0"]
KEYS = "".join(f"{who} {number:02x}{'5a' * 31}\n" for number, who in enumerate([CREATOR] + PEERS))
VALUE = b"v" * 100
POLICY = b"AND('Org1.peer','Org2.peer')"

# Its words are `hash`, `ledger`, `explain`, `submit`, or for `run` the number of workers, behind `slow` where the verifier is; how
# many blocks make the state; and files of blocks. For each it prints the nanoseconds that it took, or that its hashing took, and how
# many of its transactions are valid; for `run` that of each that makes the state, and that of all others together.
PROGRAM = r"""
#![tactic(auto)]

ghost use Rattle.std.specs.Prelude.{◌&&◌, not};
ghost use Rattle.std.specs.Str.{bytes_eq};
ghost use Rattle.key_book.specs.Book.{accepts};
ghost use Rattle.key_book.specs.Hmac.{hmac};

use anyhow::bail;
use block::decode_block;
use commit::{Channel, Committer, Flag};
use gates::Open;
use header_hash::{DataHasher, commit_hash, tx_id};
use key_book::{KeyBook, hmac_sha256};
use ledger::Ledger;
use policy_eval::Verify;
use rules::Delta;
use std::alloc::Global;
use std::io::Print;
use std::rt::Files;
use std::sync::Wait;
use std::thread::Threads;
use std::time::{Clock, Instant};
use std::{env, fs};
use transaction::{Identity, SpelledTx, append_identity, decode_tx, encode_body};
use values::{Bytes, Shared, Slice};

// So many bytes are hashed beside a signature by a verifier that takes 60 µs more, where a byte takes 4.4 ns.
const SLOW_BYTES: usize = 13_600;

/// A key book that takes its time: it hashes some bytes beside each signature that it accepts.
#[derive(Drop)]
struct Slow<'k> {
    keys: &'k KeyBook,
    key: [u8; 32],
    bytes: &'k [u8],
}

impl<'k> Verify for Slow<'k> {
    ghost accepts = { λ v identity message signature. accepts v.keys.now identity message signature && not (bytes_eq (hmac v.key v.bytes.now) message) };

    fn verify(&self, identity: &Identity<'_>, message: &[u8], signature: &[u8]) -> bool {
        self.keys.verify(identity, message, signature)
            && hmac_sha256(&self.key, self.bytes).as_slice() != message
    }
}

// Of a row that differs: lengths and the row's version; and of a block.
const OF_A_ROW: usize = 22;
const OF_A_BLOCK: usize = 18;

fn copied(alloc: Global, parts: &[&[u8]]) -> anyhow::Result<Vec<u8>> {
    let mut bytes = Vec::new(alloc);
    for part in parts {
        bytes.extend_from_slice(part)?;
    }
    Ok(bytes)
}

// What is hashed of a block beside its transactions: signed messages, and what ids are made of.
#[derive(Drop)]
struct Hashed {
    signed: Vec<Vec<u8>>,
    ids: Vec<Vec<u8>>,
}

fn add(alloc: Global, all: &mut Hashed, tx: &SpelledTx<'_>) -> anyhow::Result<()> {
    all.signed.push(copied(alloc, &[tx.creator_message()])?)?;
    all.ids.push(copied(alloc, &[tx.tx().nonce.as_slice(), tx.creator_bytes()])?)?;
    for endorsement in tx.tx().endorsements.as_slice() {
        let Ok(body) = encode_body(alloc, tx.tx()) else {
            bail!("no body");
        };
        let mut message = body.into_vec();
        append_identity(&mut message, &endorsement.endorser)?;
        all.signed.push(message)?;
    }
    Ok(())
}

fn messages(alloc: Global, txs: &[Slice<'_>]) -> anyhow::Result<Hashed> {
    let mut all = Hashed {
        signed: Vec::new(alloc),
        ids: Vec::new(alloc),
    };
    for bytes in txs {
        match decode_tx(alloc, bytes.as_slice()) {
            Ok(tx) => add(alloc, &mut all, &tx)?,
            Err(_) => bail!("no transaction"),
        }
    }
    Ok(all)
}

// As many bytes as are hashed for the commit hash, whatever they are.
fn changed(alloc: Global, delta: &Delta) -> anyhow::Result<Vec<u8>> {
    let mut bytes = copied(alloc, &[&[0; OF_A_BLOCK]])?;
    bytes.resize(OF_A_BLOCK.wrapping_add(delta.block.get().flags.as_slice().len()), 0)?;
    for change in delta.changes.as_slice() {
        bytes.extend_from_slice(&[0; OF_A_ROW])?;
        bytes.extend_from_slice(change.namespace().as_slice())?;
        bytes.extend_from_slice(change.key().as_slice())?;
        if let Some(row) = change.row() {
            bytes.extend_from_slice(row.value.as_slice())?;
            if let Some(policy) = &row.policy {
                bytes.extend_from_slice(policy.get().text(alloc)?.as_bytes())?;
            }
        }
    }
    Ok(bytes)
}

fn hash_all(txs: &[Slice<'_>], all: &Hashed, changed: &[u8]) -> u8 {
    let mut sum = 0u8;
    let mut hasher = DataHasher::new();
    for tx in txs {
        hasher.add(tx.as_slice());
    }
    sum ^= hasher.finish()[0];
    for message in &all.signed {
        sum ^= hmac_sha256(&[7; 32], message.as_slice())[0];
    }
    for message in &all.ids {
        sum ^= tx_id(message.as_slice(), &[])[0];
    }
    sum ^ commit_hash(&[7; 32], changed)[0]
}

// What is summed is shown, so that nothing is left out.
fn hashing<R: Clock + Print>(rt: &R, alloc: Global, bytes: &[u8], changed: &[u8]) -> anyhow::Result<()> {
    let Ok(block) = decode_block(alloc, bytes) else {
        bail!("no block");
    };
    let all = messages(alloc, block.txs.as_slice())?;
    let start = Instant::now(rt)?;
    let sum = hash_all(block.txs.as_slice(), &all, changed);
    let nanos = start.elapsed(rt)?.as_nanos();
    println!(rt; "{nanos} {sum}")?;
    Ok(())
}

fn valid(flags: &[Flag]) -> u32 {
    let mut count = 0u32;
    for flag in flags {
        count = count.wrapping_add(u32::from(flag.is_valid()));
    }
    count
}

fn by_ledger<R: Clock + Print>(rt: &R, ledger: &mut Ledger, keys: &KeyBook, bytes: &[u8]) -> anyhow::Result<()> {
    let start = Instant::now(rt)?;
    let answer = ledger.submit_one(bytes, keys);
    let nanos = start.elapsed(rt)?.as_nanos();
    let Ok(accepted) = answer else {
        bail!("refused");
    };
    let count = valid(accepted.flags.as_slice());
    println!(rt; "{nanos} {count}")?;
    Ok(())
}

// The time of `explain` before the block is handed in.
fn explained<R: Clock + Print>(rt: &R, ledger: &mut Ledger, keys: &KeyBook, bytes: &[u8]) -> anyhow::Result<()> {
    let start = Instant::now(rt)?;
    let told = ledger.explain(bytes, keys);
    let nanos = start.elapsed(rt)?.as_nanos();
    let Ok(reasons) = told else {
        bail!("refused");
    };
    if ledger.submit_one(bytes, keys).is_err() {
        bail!("refused");
    }
    let count = reasons.len();
    println!(rt; "{nanos} {count}")?;
    Ok(())
}

fn by_committer<R: Clock + Print + Threads + Wait + Sync, V: Verify + Sync>(
    rt: &R,
    committer: &mut Committer,
    verifier: &V,
    bytes: &[u8],
) -> anyhow::Result<()> {
    let start = Instant::now(rt)?;
    let answer = committer.submit(rt, bytes, verifier, &Open);
    let nanos = start.elapsed(rt)?.as_nanos();
    let Ok(receipt) = answer else {
        bail!("refused");
    };
    let count = valid(receipt.flags.as_slice());
    println!(rt; "{nanos} {count}")?;
    Ok(())
}

fn text(bytes: &[u8]) -> anyhow::Result<&str> {
    match std::str::from_utf8(bytes) {
        Ok(text) => Ok(text),
        Err(_) => bail!("no text"),
    }
}

fn channel<R: AllocGlobal + Files>(rt: &R) -> anyhow::Result<Channel> {
    let bytes = fs::read(rt, "channel.txt")?;
    match Channel::read(rt.alloc(), text(&bytes)?) {
        Ok(channel) => Ok(channel),
        Err(_) => bail!("no channel"),
    }
}

fn key_book<R: AllocGlobal + Files>(rt: &R) -> anyhow::Result<KeyBook> {
    let bytes = fs::read(rt, "keys.txt")?;
    match KeyBook::read(rt.alloc(), text(&bytes)?) {
        Ok(keys) => Ok(keys),
        Err(_) => bail!("no key book"),
    }
}

// A ledger tells what each block changes.
fn hash_blocks<R: AllocGlobal + Files + Clock + Print>(rt: &R, paths: &[String]) -> anyhow::Result<()> {
    let keys = key_book(rt)?;
    let mut ledger = Ledger::open(rt.alloc(), channel(rt)?);
    for path in paths {
        let bytes = fs::read(rt, path.as_str())?;
        let Ok(delta) = ledger.delta(&bytes, &keys) else {
            bail!("refused");
        };
        let changed = changed(rt.alloc(), &delta)?;
        if ledger.submit_one(&bytes, &keys).is_err() {
            bail!("refused");
        }
        hashing(rt, rt.alloc(), &bytes, &changed)?;
    }
    Ok(())
}

fn submit_to_ledger<R: AllocGlobal + Files + Clock + Print>(rt: &R, is_explained: bool, paths: &[String]) -> anyhow::Result<()> {
    let keys = key_book(rt)?;
    let mut ledger = Ledger::open(rt.alloc(), channel(rt)?);
    for path in paths {
        let bytes = fs::read(rt, path.as_str())?;
        if is_explained {
            explained(rt, &mut ledger, &keys, &bytes)?;
        } else {
            by_ledger(rt, &mut ledger, &keys, &bytes)?;
        }
    }
    Ok(())
}

fn submit_to<R: AllocGlobal + Files + Clock + Print + Threads + Wait + Sync, V: Verify + Sync>(
    rt: &R,
    committer: &mut Committer,
    verifier: &V,
    paths: &[String],
) -> anyhow::Result<()> {
    for path in paths {
        let bytes = fs::read(rt, path.as_str())?;
        by_committer(rt, committer, verifier, &bytes)?;
    }
    Ok(())
}

fn run_all<R: AllocGlobal + Files + Clock + Print + Threads + Wait + Sync, V: Verify + Sync>(
    rt: &R,
    committer: &mut Committer,
    verifier: &V,
    setup: usize,
    paths: &[String],
) -> anyhow::Result<()> {
    let (first, others) = paths.split_at(setup.min(paths.len()));
    submit_to(rt, committer, verifier, first)?;
    if others.is_empty() {
        return Ok(());
    }
    let mut blocks = Vec::new(rt.alloc());
    for path in others {
        let bytes = Bytes::from_vec(fs::read(rt, path.as_str())?);
        blocks.push(Shared::new(rt.alloc(), bytes)?)?;
    }
    let start = Instant::now(rt)?;
    let answers = committer.run(rt, blocks.as_slice(), verifier, &Open)?;
    let nanos = start.elapsed(rt)?.as_nanos();
    let mut count = 0u32;
    for answer in answers {
        let Ok(receipt) = answer else {
            bail!("refused");
        };
        count = count.wrapping_add(valid(receipt.flags.as_slice()));
    }
    println!(rt; "{nanos} {count}")?;
    Ok(())
}

fn submit_to_committer<R: AllocGlobal + Files + Clock + Print + Threads + Wait + Sync, V: Verify + Sync>(
    rt: &R,
    verifier: &V,
    workers: usize,
    setup: usize,
    paths: &[String],
) -> anyhow::Result<()> {
    let Ok((mut committer, _handles)) = Committer::open(rt.alloc(), rt, channel(rt)?, workers, 0) else {
        bail!("no committer");
    };
    let ended = run_all(rt, &mut committer, verifier, setup, paths);
    committer.close(rt);
    ended
}

fn by_keys<R: AllocGlobal + Files + Clock + Print + Threads + Wait + Sync>(
    rt: &R,
    workers: usize,
    setup: usize,
    paths: &[String],
) -> anyhow::Result<()> {
    let keys = key_book(rt)?;
    submit_to_committer(rt, &keys, workers, setup, paths)
}

fn slowly<R: AllocGlobal + Files + Clock + Print + Threads + Wait + Sync>(
    rt: &R,
    workers: usize,
    setup: usize,
    paths: &[String],
) -> anyhow::Result<()> {
    let keys = key_book(rt)?;
    let mut bytes = Vec::new(rt.alloc());
    bytes.resize(SLOW_BYTES, 0)?;
    let slow = Slow {
        keys: &keys,
        key: [7; 32],
        bytes: bytes.as_slice(),
    };
    submit_to_committer(rt, &slow, workers, setup, paths)
}

fn main(rt: HostRuntime) -> anyhow::Result<()> {
    let mut words = env::args(&rt)?.skip(1);
    let (Some(way), Some(setup)) = (words.next(), words.next()) else {
        bail!("no way");
    };
    let Ok(setup) = setup.as_str().parse::<usize>() else {
        bail!("no number");
    };
    let mut paths = Vec::new(rt.alloc());
    for path in words {
        paths.push(path)?;
    }
    match way.as_str() {
        "hash" => hash_blocks(&rt, &paths),
        "ledger" => submit_to_ledger(&rt, false, &paths),
        "explain" => submit_to_ledger(&rt, true, &paths),
        "submit" => by_keys(&rt, 1, paths.len(), &paths),
        "1" => by_keys(&rt, 1, setup, &paths),
        "2" => by_keys(&rt, 2, setup, &paths),
        "4" => by_keys(&rt, 4, setup, &paths),
        "slow 1" => slowly(&rt, 1, setup, &paths),
        "slow 2" => slowly(&rt, 2, setup, &paths),
        "slow 4" => slowly(&rt, 4, setup, &paths),
        _ => bail!("no way"),
    }
}
"""


def key(number):
    return b"key%013d" % number


class Blocks:
    """Linked blocks as files of a folder, of which the first ones, `setup`, make the state that the others find."""

    def __init__(self, folder, state):
        self.folder, self.keys, self.previous, self.paths, self.nonce = folder, Keys(KEYS), b"", [], 0
        self.random, self.state, self.sizes, self.setup = random.Random(1), state, [], 0
        folder.mkdir()
        (folder / "channel.txt").write_text(CHANNEL)
        (folder / "keys.txt").write_text(KEYS)

    @property
    def number(self):
        return len(self.paths)

    def tx(self, reads=(), writes=(), ranges=(), policies=(), value=VALUE):
        """A signed transaction with these reads at versions, writes, ranges and policies."""
        self.nonce += 1
        nonce, creator = b"%d" % self.nonce, identity(CREATOR)
        namespace = Namespace(b"cc")
        namespace.reads += sorted(dict(reads).items())
        namespace.ranges += ranges
        namespace.writes += [(name, value) for name in sorted(set(writes))]
        namespace.policies += [(name, POLICY) for name in sorted(set(policies))]
        tx = Tx(b"ch", tx_id(nonce, creator), creator, nonce, b"cc", [namespace], [], b"")
        self.keys.endorse(tx, PEERS)
        self.keys.sign_whole(tx, CREATOR)
        return spelled_tx(tx)

    def add(self, txs):
        hash_of_data = data_hash(txs)
        path = self.folder / f"{self.number}.blk"
        path.write_bytes(spelled_block(self.number, self.previous, hash_of_data, txs))
        self.previous = header_hash(self.number, self.previous, hash_of_data)
        self.paths.append(path.name)
        self.sizes.append(len(txs))

    def fill(self, with_policies=False):
        """Writes all keys; their versions. The last block, in which the committer's other world catches up, writes one more."""
        for block in range(0, self.state, STEP * STEPS):
            parts = [[key(n) for n in range(first, min(first + STEP, self.state))]
                     for first in range(block, min(block + STEP * STEPS, self.state), STEP)]
            self.add([self.tx(writes=part, policies=part if with_policies else ()) for part in parts])
        self.version = lambda n: divmod(n // STEP, STEPS)
        self.add([self.tx(writes=[key(self.state)])])
        self.setup = self.number

    def read(self, n):
        return key(n), self.version(n)

    def mixed(self, count):
        """A block of transactions that read two keys of the first half, and write two of the other."""
        half = self.state // 2
        draw = lambda: self.random.randrange(half)
        self.add([self.tx([self.read(draw()), self.read(draw())], [key(half + draw()), key(half + draw())]) for _ in range(count)])


def mixed(blocks, count, size):
    blocks.fill()
    for _ in range(count):
        blocks.mixed(size)


def contended(blocks, count, size):
    """All keys by Zipf's law. A read has the version of block 0, so it holds where nobody wrote the key before."""
    blocks.fill()
    keys = range(blocks.state)
    weights = [1 / (n + 1) for n in keys]
    for _ in range(count):
        drawn = blocks.random.choices(keys, weights, k=4 * size)
        blocks.add([blocks.tx(map(blocks.read, drawn[i:i + 2]), map(key, drawn[i + 2:i + 4])) for i in range(0, 4 * size, 4)])


def wide(blocks, count, size):
    blocks.fill()
    for block in range(count):
        first = block * size
        blocks.add([blocks.tx([blocks.read(n)], [key(n)]) for n in range(first, first + size)])


def chain(blocks, count, size):
    blocks.fill()
    for _ in range(count):
        number = blocks.number
        blocks.add([blocks.tx([(key(i), (number, i - 1))] if i else [], [key(i + 1)]) for i in range(size)])


def history(blocks, count, size):
    blocks.fill()
    for _ in range(count):
        blocks.add([blocks.tx(writes=[key(i % 10)]) for i in range(size)])


def ranges(blocks, count, size):
    """The ranges lie in the first half of the keys, which nobody writes."""
    blocks.fill()
    half = blocks.state // 2
    for _ in range(count):
        txs = []
        for _ in range(size):
            first = blocks.random.randrange(half - 10)
            found = [blocks.read(n) for n in range(first, first + 10)]
            txs.append(blocks.tx(ranges=[(key(first), key(first + 10), True, found)], writes=[key(half + blocks.random.randrange(half))]))
        blocks.add(txs)


def policies(blocks, count, size):
    blocks.fill(with_policies=True)
    for _ in range(count):
        draw = lambda: key(blocks.random.randrange(blocks.state))
        blocks.add([blocks.tx(writes=[draw(), draw()]) for _ in range(size)])


def writes(blocks, count, size):
    blocks.fill()
    for _ in range(count):
        blocks.add([blocks.tx(writes=[key(blocks.random.randrange(blocks.state)) for _ in range(8)]) for _ in range(size)])


def written(blocks, size):
    blocks.fill()
    last = (key(0), (blocks.number, size - 1))
    blocks.add([blocks.tx(writes=[key(0)]) for _ in range(size)] + [blocks.tx([last]) for _ in range(size)])


def overruled(blocks, size):
    """The writers read a key at a version that it hasn't, so that no write of them counts."""
    blocks.fill()
    stale = (key(1), (9, 9))
    blocks.add([blocks.tx([stale], [key(0)]) for _ in range(size)] + [blocks.tx([blocks.read(0)]) for _ in range(size)])


# name: the keys of the state, and how the blocks behind the first are made: by what, how many, of how many transactions
WORKLOADS = {
    "small": (2000, mixed, 20, 50),
    "typical": (2000, mixed, 100, 500),
    "contended": (2000, contended, 100, 500),
    "wide": (20_480, wide, 5, 4096),
    "chain": (10, chain, 2, 4096),
    "drawn": (100_000, mixed, 20, 500),
    "state": (1_000_000, mixed, 20, 500),
    "history": (10, history, 100, 500),
    "ranges": (2000, ranges, 20, 500),
    "policies": (2000, policies, 20, 500),
    "writes": (20_000, writes, 40, 500),
    "written": (10, written, 2048),
    "overruled": (10, overruled, 2048),
}


def run(program, way, blocks):
    """The nanoseconds of each line, and the memory in KB."""
    words = [*UNDER, program, way, str(blocks.setup), *blocks.paths]
    process = subprocess.Popen(words, cwd=blocks.folder, stdout=subprocess.PIPE, text=True)
    lines = [int(line.split()[0]) for line in process.stdout]
    _, status, usage = os.wait4(process.pid, 0)
    if status != 0 or not lines:
        sys.exit(f"the run of {way} failed: {status}")
    return lines, usage.ru_maxrss


def timed(asked):
    """For each program, its way and its blocks the nanoseconds of the lines of so many runs, and the most memory of one, in KB.

    They take turns, so that a machine whose speed changes changes it for all of them.
    """
    rounds = [[run(program, way, blocks) for program, way, blocks in asked] for _ in range(RUNS)]
    return [([lines for lines, _ in runs], max(memory for _, memory in runs)) for runs in zip(*rounds)]


def each(runs, part, count):
    """The microseconds for one of so many transactions, which a part of the lines is of, in each run."""
    return [sum(lines[part]) / count / 1000 for lines in runs]


def for_one(runs, blocks):
    """The microseconds for a transaction, over all blocks behind those that make the state, in each run."""
    behind = slice(blocks.setup, None)
    return each(runs, behind, sum(blocks.sizes[behind]))


def told(program, name, blocks):
    found = timed([(program, way, blocks) for way in ("hash", "ledger", "explain", *map(str, WORKERS))])
    hashing, ledger, explain, *workers = [for_one(runs, blocks) for runs, _ in found]
    least = " ".join(f"{min(times):>7.1f}" for times in (ledger, explain, workers[0]))
    rates = " ".join(f"{1_000_000 / min(times):>8,.0f}" for times in workers)
    ratios = [times_as_long(workers[0], hashing), *(times_as_long(workers[0], times) for times in workers[1:])]
    (ratio, *faster), medians = ([f"{number:.2f}" for number in numbers] for numbers in zip(*ratios))
    memory = found[-1][1] // 1000
    print(f"{name:>10} {min(hashing):>8.1f} {least} {ratio:>6} {rates} {' '.join(faster):>10} {memory:>7,}  {' '.join(medians)}", flush=True)


def told_beside(program, other, name, blocks):
    found = timed([(one, str(count), blocks) for count in WORKERS for one in (program, other)])
    times = [for_one(runs, blocks) for runs, _ in found]
    for count, these, those in zip(WORKERS, times[::2], times[1::2]):
        least, median = times_as_long(these, those)
        print(f"{name:>10} {count:>8} {min(these):>8.1f} {min(those):>8.1f} {least:>6.2f} {median:>8.2f}", flush=True)


def slow_turn(program, blocks):
    """The microseconds for a transaction by 1, 2 and 4 workers, and by two and four programs of one worker at once."""
    by_workers = [for_one([run(program, f"slow {count}", blocks)[0]], blocks)[0] for count in WORKERS]
    return [*by_workers, *(at_once(program, "slow 1", blocks, count) for count in WORKERS[1:])]


def told_slow(program, name, blocks):
    one, *others = zip(*(slow_turn(program, blocks) for _ in range(RUNS)))
    least = " ".join(f"{min(runs):>8.1f}" for runs in (one, *others[:2]))
    ratios = [times_as_long(one, runs) for runs in others]
    faster, medians = ([f"{number:.2f}" for number in numbers] for numbers in zip(*ratios))
    print(f"{name:>10} {least}  {' '.join(faster[:2])}  {' '.join(medians[:2])}  {' '.join(medians[2:])}", flush=True)


def slope(found):
    """Of the logarithm of the times by that of the sizes, by least squares."""
    xs, ys = [math.log(size) for size in found], [math.log(time) for time in found.values()]
    x, y = sum(xs) / len(xs), sum(ys) / len(ys)
    return sum((a - x) * (b - y) for a, b in zip(xs, ys)) / sum((a - x) ** 2 for a in xs)


def grows(title, found, least=0):
    times = ", ".join(f"{size:,}: {time:.1f}" for size, time in found.items())
    print(f"{title}: {times} µs; slope {slope({s: t for s, t in found.items() if s >= least}):.3f}", flush=True)


def by_size(program, folder, state):
    """All sizes over one state, so that the dear one is made once."""
    blocks, found = Blocks(folder / f"size{state}", state), {}
    sizes = {1: 40, 10: 40, 100: 20, 1000: 8, 4096: 4}
    mixed(blocks, 0, 0)
    first = blocks.setup
    for size, count in sizes.items():
        for _ in range(count):
            blocks.mixed(size)
    [(runs, _)] = timed([(program, "submit", blocks)])
    for size, count in sizes.items():
        found[size] = min(each(runs, slice(first, first + count), size * count))
        first += count
    grows(f"by transactions of a block, over {state:,} keys, slope from 100 on", found, 100)


def by_length(program, folder):
    blocks = Blocks(folder / "length", 2000)
    mixed(blocks, 10_000, 10)
    [(runs, _)], found = timed([(program, "submit", blocks)]), {}
    for length in (100, 1000, 10_000):
        found[length] = min(each(runs, slice(length - 90, length), 900))
    grows("by blocks before", found)


def by_state(program, folder):
    asked = []
    for state in (1000, 10_000, 100_000, 1_000_000):
        blocks = Blocks(folder / f"state{state}", state)
        mixed(blocks, 10, 500)
        asked.append((program, "submit", blocks))
    found = timed(asked)
    grows("by keys of the state", {blocks.state: min(for_one(runs, blocks)) for (_, _, blocks), (runs, _) in zip(asked, found)})


def at_once(program, way, blocks, count):
    """The microseconds for a transaction where so many processes, each for itself, take the blocks at once."""
    words = [*UNDER, program, way, str(blocks.setup), *blocks.paths]
    all_of_them = [subprocess.Popen(words, cwd=blocks.folder, stdout=subprocess.PIPE, text=True) for _ in range(count)]
    runs = [[int(line.split()[0]) for line in process.stdout] for process in all_of_them]
    for process in all_of_them:
        if process.wait() != 0:
            sys.exit(f"a run of {way} failed")
    return sum(for_one(runs, blocks)) / count / count


def limit(program, folder):
    """How much faster this machine hashes by processes that share nothing: no workers can do better."""
    blocks = Blocks(folder / "limit", 2000)
    mixed(blocks, 40, 500)
    rounds = [[at_once(program, "hash", blocks, count) for count in WORKERS] for _ in range(RUNS)]
    one, *more = zip(*rounds)
    ratios = [(count, *times_as_long(one, times)) for count, times in zip(WORKERS[1:], more)]
    faster = ", ".join(f"{count}: {least:.2f} (median {median:.2f})" for count, least, median in ratios)
    print(f"how much faster processes of their own hash: {faster}", flush=True)


def beside(program, folder, made, top):
    other = built_of(top, folder / "other", "peer", "peer")
    print("            workers   µs for one transaction, here and there, and divided; medians")
    for title, blocks in made.items():
        told_beside(program, other, title, blocks)


def made_in(folder, title):
    """The blocks of a workload."""
    state, make, *sizes = WORKLOADS[title]
    blocks = Blocks(folder / title, state)
    make(blocks, *sizes)
    return blocks


def main():
    words = argparse.ArgumentParser()
    words.add_argument("--beside", metavar="FOLDER")
    words.add_argument("workloads", nargs="*")
    words = words.parse_args()
    wanted, made = words.workloads or ["limit", *WORKLOADS, "slow", "growth"], {}
    machine = Machine()
    with tempfile.TemporaryDirectory() as name:
        folder = pathlib.Path(name)
        program = build(folder / "program", "peer", PROGRAM, own=CRATES, kit=["anyhow"])
        if "limit" in wanted:
            limit(program, folder)
        if set(wanted) & set(WORKLOADS):
            print("             µs for one transaction                  transactions a second, by 1, 2, 4")
            print("            hashing  ledger explain  worker  ratio  workers                       faster      memory  medians")
        for title in WORKLOADS:
            if title in wanted:
                made[title] = made_in(folder, title)
                told(program, title, made[title])
        if words.beside:
            beside(program, folder, made, words.beside)
        if "slow" in wanted:
            print("          µs for one transaction by 1, 2, 4    faster     medians    programs of their own")
            for title in ("typical", "state"):
                told_slow(program, title, made.get(title) or made_in(folder, title))
        if "growth" in wanted:
            for state in (2000, 1_000_000):
                by_size(program, folder, state)
            by_length(program, folder)
            by_state(program, folder)
    print(machine)


if __name__ == "__main__":
    main()
