#!/usr/bin/env python3
"""Measures what publishing costs while others query: blocks and replies a second, and the memory of a published world.

Run as `bench/query.py` from anywhere, on a quiet machine that has the kit: it builds a program over the repository's
crates in a scratch folder.

- 1,000 blocks are published, each of which puts 100 of 10,000 rows and adds as many history entries and ids, while 0, 1,
  4 and 31 readers, each in a thread of its own, ask for one row after the other without pause. The clock starts once each
  reader has asked, and stops behind the last publish. The blocks are made before, and have no transactions, so that
  little but the publishing is timed: each publish looks whether its block is the next one.
- A world gets 1,000 blocks of 1,000 new rows, entries and ids each: once it is published, once alone. Memory is the most
  that the process had.

Rows are 100 bytes at keys of 32. Rates are the best of five runs, memory is that of one.
"""

import os
import pathlib
import subprocess
import sys
import tempfile

from scratch import RUNS, build

READERS = (0, 1, 4, 31)
BLOCKS = 1_000

PROGRAM = r"""
#![tactic(auto)]

ghost use Rattle.std.specs.Prelude.{◌≡◌, length, IsTrue, IfOk};
ghost use Rattle.header_hash.specs.Hashes.{header_hash_of};
ghost use Rattle.rules.specs.Linked.{IsLinkedDelta};

use anyhow::bail;
use block::{Block, Header, Previous, encode_block};
use header_hash::{data_hash, header_hash};
use linking::{DecodedBlock, LinkedBlock};
use policy::Definitions;
use query::{Publisher, QueryHandle, open};
use rules::{Change, CommittedBlock, Delta, FirstUse, Flag, KeptEntry, KeptId, KeptKey, KeyedRow, NewUse, Row};
use std::alloc::Global;
use std::env;
use std::io::Print;
use std::sync::Wait;
use std::sync::atomic::{AtomicBool, AtomicU64, Ordering};
use std::thread;
use std::thread::Threads;
use std::time::{Clock, Instant};
use transaction::{BlockVersion, Version};
use values::{Bytes, Hash, Items, Key, KeyRef, Name, NameRef, Part, Shared, is_key, is_name};
use world::World;

const BLOCKS: u64 = 1_000;

fn name(bytes: &[u8]) -> anyhow::Result<NameRef<'_>> {
    if !is_name(bytes) {
        bail!("no name");
    }
    Ok(NameRef::new(bytes))
}

fn key(bytes: &[u8]) -> anyhow::Result<KeyRef<'_>> {
    if !is_key(bytes) {
        bail!("no key");
    }
    Ok(KeyRef::new(bytes))
}

fn key_bytes(number: u64) -> [u8; 32] {
    let mut bytes = [b'k'; 32];
    bytes[24..].copy_from_slice(&number.to_be_bytes());
    bytes
}

fn id_of(block: u64, place: u32) -> [u8; 64] {
    let mut id = [7; 64];
    id[..8].copy_from_slice(&block.to_be_bytes());
    id[8..12].copy_from_slice(&place.to_be_bytes());
    id
}

// Every `step`th key from `first` on.
#[derive(Clone, Copy)]
struct Keys {
    first: u64,
    step: u64,
    count: u32,
}

/// What a delta changes, before its block is known.
#[derive(Drop)]
struct Changes {
    // in which ids are looked for, and not found
    bytes: Shared<Bytes>,
    changes: Items<Change>,
    entries: Items<KeptEntry>,
    uses: Items<NewUse>,
}

// The entry shares the row, as it does behind a block.
fn put(alloc: Global, list: &mut Changes, version: Version, number: u64) -> anyhow::Result<()> {
    let namespace = name(b"cc")?;
    let bytes = key_bytes(number);
    let key = key(&bytes)?;
    let id = id_of(version.block, version.tx);
    let value = Part::copied(alloc, &[7; 100])?;
    let key = KeptKey::copied(alloc, &namespace, &key)?;
    let row = Row {
        value,
        version,
        policy: None,
    };
    let keyed = Shared::new(alloc, KeyedRow::new(key, row))?;
    let kept_id = KeptId::kept(alloc, &list.bytes, 0, &id)?;
    list.entries.push(KeptEntry::written(keyed.share()?, kept_id))?;
    list.changes.push(Change::Put(keyed))?;
    let first_use = FirstUse {
        block: version.block,
        place: version.tx,
        flag: Flag::Valid,
    };
    list.uses.push(NewUse { id, first_use })?;
    Ok(())
}

fn changes_at(alloc: Global, block: u64, keys: Keys) -> anyhow::Result<Changes> {
    let mut list = Changes {
        bytes: Shared::new(alloc, Bytes::from_vec(Vec::new(alloc)))?,
        changes: Items::new(alloc),
        entries: Items::new(alloc),
        uses: Items::new(alloc),
    };
    for tx in 0..keys.count {
        let number = keys.first.wrapping_add(keys.step.wrapping_mul(tx as u64));
        put(alloc, &mut list, Version { block, tx }, number)?;
    }
    Ok(list)
}

// A block of no transactions.
fn block_at(
    alloc: Global,
    number: u64,
    previous: Option<Hash>,
) -> anyhow::Result<CommittedBlock> {
    let txs = Items::new(alloc);
    let header = Header {
        number,
        previous: match previous {
            None => Previous::Empty,
            Some(hash) => Previous::Hash(hash),
        },
        data_hash: data_hash(txs.as_slice()),
    };
    let Ok(bytes) = encode_block(alloc, &Block { version: BlockVersion::V1, header, txs }) else {
        bail!("no bytes");
    };
    Ok(CommittedBlock {
        bytes: Shared::new(alloc, bytes)?,
        header_hash: header_hash(&header),
        commit_hash: [0; 32],
        version: BlockVersion::V1,
        flags: Items::new(alloc),
    })
}

fn delta_at(
    alloc: Global,
    number: u64,
    previous: Option<Hash>,
    keys: Keys,
) -> anyhow::Result<Delta> {
    let Changes {
        bytes: _bytes,
        changes,
        entries,
        uses,
    } = changes_at(alloc, number, keys)?;
    let block = block_at(alloc, number, previous)?;
    Ok(Delta {
        changes,
        entries: Shared::new(alloc, entries)?,
        uses: Shared::new(alloc, uses)?,
        definitions: Items::new(alloc),
        block: Shared::new(alloc, block)?,
    })
}

// A hundred of ten thousand keys each, so that each hundred blocks put all.
fn deltas(alloc: Global) -> anyhow::Result<Vec<Delta>> {
    let mut deltas = Vec::new(alloc);
    let mut previous = None;
    for number in 0..BLOCKS {
        let keys = Keys {
            first: number % 100,
            step: 100,
            count: 100,
        };
        let delta = delta_at(alloc, number, previous, keys)?;
        previous = Some(delta.block.get().header_hash);
        deltas.push(delta)?;
    }
    Ok(deltas)
}

// Whether a block is kept as what it is.
fn is_kept_of(kept: &CommittedBlock, block: &LinkedBlock<'_>) -> bool
    ensures { IsTrue result → (kept.now.header_hash ≡ header_hash_of block.now.header) × (kept.now.version ≡ block.now.version)
        × (length kept.now.flags ≡ length block.now.txs) }
{
    if kept.version != block.version() {
        return false;
    }
    kept.header_hash == header_hash(block.header()) && kept.flags.len() == block.txs().len()
}

fn is_linked(alloc: Global, world: &World, delta: &Delta) -> anyhow::Result<bool>
    ensures { IfOk result (λ linked. IsTrue linked → IsLinkedDelta world.now delta.now) }
{
    let kept = delta.block.get();
    let Ok(decoded) = DecodedBlock::decode(alloc, kept.bytes.get().as_slice()) else {
        bail!("no block");
    };
    let Ok(placed) = decoded.at_place(world.height(), world.header_hash()) else {
        bail!("another place");
    };
    let Ok(block) = placed.linked(world.version()) else {
        bail!("not the next block");
    };
    Ok(is_kept_of(kept, &block))
}

fn publish_next<R: Wait>(
    rt: &R,
    alloc: Global,
    publisher: &mut Publisher,
    delta: Delta,
) -> anyhow::Result<()> {
    if publisher.failed() {
        bail!("a publish failed");
    }
    if !is_linked(alloc, publisher.published(), &delta)? {
        bail!("not the next block");
    }
    let _receipt = publisher.publish(rt, delta)?;
    Ok(())
}

/// What the threads share.
#[derive(Drop)]
struct Watched {
    /// How many readers have asked.
    begun: AtomicU64,
    replies: AtomicU64,
    has_failed: AtomicBool,
    is_over: AtomicBool,
}

// Asks for one row after the other, and counts replies by 64.
fn ask_all(handle: &mut QueryHandle, watched: &Watched) -> anyhow::Result<()> {
    let namespace = name(b"cc")?;
    for turn in 0..u64::MAX {
        if watched.is_over.load(Ordering::SeqCst) {
            break;
        }
        let bytes = key_bytes(turn.wrapping_mul(4801) % 10_000);
        let _reply = handle.get(&namespace, &key(&bytes)?)?;
        if turn == 0 {
            watched.begun.fetch_add(1, Ordering::SeqCst);
        }
        if turn % 64 == 63 {
            watched.replies.fetch_add(64, Ordering::SeqCst);
        }
    }
    Ok(())
}

fn read(mut handle: QueryHandle, watched: &Watched) {
    if ask_all(&mut handle, watched).is_err() {
        watched.has_failed.store(true, Ordering::SeqCst);
    }
}

fn wait_for(watched: &Watched, readers: u64) -> anyhow::Result<()> {
    for _ in 0..1_000_000_000u64 {
        if watched.begun.load(Ordering::SeqCst) >= readers {
            return Ok(());
        }
        if watched.has_failed.load(Ordering::SeqCst) {
            break;
        }
        thread::yield_now();
    }
    bail!("a reader doesn't ask")
}

// Microseconds, and replies meanwhile.
fn publish_all<R: Wait + Clock>(
    rt: &R,
    alloc: Global,
    publisher: &mut Publisher,
    deltas: Vec<Delta>,
    watched: &Watched,
) -> anyhow::Result<(u128, u64)> {
    let before = watched.replies.load(Ordering::SeqCst);
    let start = Instant::now(rt)?;
    for delta in deltas {
        publish_next(rt, alloc, publisher, delta)?;
    }
    let micros = start.elapsed(rt)?.as_micros();
    let behind = watched.replies.load(Ordering::SeqCst);
    Ok((micros, behind.wrapping_sub(before)))
}

fn publish_beside_readers<R: Threads + Wait + Clock + Sync>(
    rt: &R,
    alloc: Global,
    publisher: &mut Publisher,
    handles: Vec<QueryHandle>,
    deltas: Vec<Delta>,
    watched: &Watched,
) -> anyhow::Result<(u128, u64)> {
    let readers = handles.len() as u64;
    thread::scope(
        thread::scope_env(),
        rt,
        |scope| {
            for handle in handles {
                let reader = move || read(handle, watched);
                if scope.spawn(reader).is_err() {
                    watched.has_failed.store(true, Ordering::SeqCst);
                }
            }
            let measured = match wait_for(watched, readers) {
                Ok(()) => publish_all(rt, alloc, publisher, deltas, watched),
                Err(fault) => Err(fault),
            };
            watched.is_over.store(true, Ordering::SeqCst);
            measured
        },
    )
}

fn measure<R: Threads + Wait + Clock + Print + Sync>(
    rt: &R,
    alloc: Global,
    publisher: &mut Publisher,
    handles: Vec<QueryHandle>,
) -> anyhow::Result<()> {
    let watched = Watched {
        begun: AtomicU64::new(0),
        replies: AtomicU64::new(0),
        has_failed: AtomicBool::new(false),
        is_over: AtomicBool::new(false),
    };
    let deltas = deltas(alloc)?;
    let (micros, replies) = publish_beside_readers(rt, alloc, publisher, handles, deltas, &watched)?;
    if watched.has_failed.load(Ordering::SeqCst) {
        bail!("a reader failed");
    }
    println!(rt; "{micros} {replies}")?;
    Ok(())
}

// Another thousand rows in each block, all over the state.
fn thousand_at(alloc: Global, number: u64, previous: Option<Hash>) -> anyhow::Result<Delta> {
    let keys = Keys {
        first: number,
        step: BLOCKS,
        count: 1000,
    };
    delta_at(alloc, number, previous, keys)
}

fn publish_million<R: Wait>(rt: &R, alloc: Global, publisher: &mut Publisher) -> anyhow::Result<()> {
    for number in 0..BLOCKS {
        let delta = thousand_at(alloc, number, publisher.published().header_hash())?;
        publish_next(rt, alloc, publisher, delta)?;
    }
    Ok(())
}

fn apply_million(alloc: Global) -> anyhow::Result<()> {
    let mut world = World::new(alloc, Definitions::new(alloc));
    for number in 0..BLOCKS {
        let delta = thousand_at(alloc, number, world.header_hash())?;
        world.apply(&delta)?;
    }
    Ok(())
}

fn opened<R: Wait>(rt: &R, alloc: Global, readers: usize) -> anyhow::Result<(Publisher, Vec<QueryHandle>)> {
    let first = World::new(alloc, Definitions::new(alloc));
    let second = World::new(alloc, Definitions::new(alloc));
    match open(alloc, rt, first, second, readers) {
        Ok(opened) => Ok(opened),
        Err(_) => bail!("not opened"),
    }
}

// The first word of the call is a number of readers, `published` or `alone`.
fn main(rt: HostRuntime) -> anyhow::Result<()> {
    let alloc = rt.alloc();
    let Some(word) = env::args(&rt)?.nth(1) else {
        bail!("no word");
    };
    if word.as_str() == "alone" {
        return apply_million(alloc);
    }
    if word.as_str() == "published" {
        let (mut publisher, _handles) = opened(&rt, alloc, 1)?;
        let done = publish_million(&rt, alloc, &mut publisher);
        publisher.close(&rt);
        return done;
    }
    let Ok(readers) = word.as_str().parse::<usize>() else {
        bail!("no number");
    };
    let (mut publisher, handles) = opened(&rt, alloc, readers)?;
    let measured = measure(&rt, alloc, &mut publisher, handles);
    publisher.close(&rt);
    measured
}
"""

# That a reader's closure may go to a thread.
PROOFS = {
    "fn/publish_beside_readers/scope/Answers.antt": """
use Rattle.world.proofs.Crossing.{crossing}
use Rattle.query.proofs.Crossing.{handle_send}
use Rattle.publishes.proofs.Watched.TheSendSync as watched
use Rattle.publishes.proofs.fn.publish_beside_readers.scope.Goals as goal

pub spawn-requires-send-F : goal.spawn-requires-send-F
spawn-requires-send-F g c κs = search (crossing, handle_send, watched.the_sync) depth 40 fits 100000
"""
}


def ran(program, word):
    """What the program prints, and the most memory that it had, in megabytes."""
    child = subprocess.Popen([program, str(word)], stdout=subprocess.PIPE, text=True)
    printed = child.stdout.read()
    _, status, usage = os.wait4(child.pid, 0)
    if status != 0:
        sys.exit(f"{program} {word} ended with {status}")
    return printed, usage.ru_maxrss / 1024


def rates(program, readers):
    """The most blocks a second, with the replies a second of the same run."""
    runs = (map(int, ran(program, readers)[0].split()) for _ in range(RUNS))
    return max((BLOCKS / micros * 1e6, replies / micros * 1e6) for micros, replies in runs)


def main():
    with tempfile.TemporaryDirectory() as folder:
        kit = ["anyhow", "left_right", "crossbeam_utils", "atomic_table", "logbook", "core"]
        program = build(pathlib.Path(folder), "publishes", PROGRAM, own=["query"], kit=kit, proofs=PROOFS)
        print("readers  blocks a second  replies a second")
        for readers in READERS:
            blocks, replies = rates(program, readers)
            print(f"{readers:>7} {blocks:>16,.0f} {replies:>17,.0f}", flush=True)
        for what in ("alone", "published"):
            print(f"1,000,000 rows {what}: {ran(program, what)[1]:,.0f} MB", flush=True)


if __name__ == "__main__":
    main()
