#!/usr/bin/env python3
"""Times a block of 1,000 transactions at two heights of a world: its cost isn't to depend on the blocks before it.

Run as `bench/world.py` from anywhere, on a machine that has the kit: it builds a program over the repository's crates
in a scratch folder. Each transaction puts a row of 100 bytes at one of 10,000 keys of 32 bytes. It prints the least of
five runs of three blocks at each height (of which one may meet a list or map that grows): once with blocks of no
transactions between the two heights, and once with blocks of 10 between them, which leave a history of 100,000 entries
and as many ids behind. It fails where the later ones take half as much again. The machine is to be quiet; last comes what
load it had before and after, and what part of its time was stolen from it.

So that the blocks between are all that differs, both heights have the same number of rows, put in an order that has
nothing to do with their keys; the timed blocks are made before the world is, and looked at before they are applied.
"""

import pathlib
import subprocess
import sys
import tempfile

from scratch import RUNS, Machine, build

CRATES = ["values", "transaction", "block", "header_hash", "policy", "policy_eval", "text_lines", "channel", "rules",
          "history_index", "state_db", "txid_index", "world"]
HEIGHTS = (10, 10_000)
RATIO = 1.5

PROGRAM = r"""
#![tactic(auto)]

use anyhow::bail;
use policy::Definitions;
use rules::{Change, CommittedBlock, Delta, FirstUse, Flag, KeptEntry, KeptId, KeptKey, KeyedRow, NewUse, Row};
use std::alloc::Global;
use std::io::Print;
use std::time::{Clock, Instant};
use transaction::{BlockVersion, Version};
use values::{Bytes, Items, Key, Name, Part, Shared, is_key, is_name};
use world::World;

fn namespace(alloc: Global) -> anyhow::Result<Name> {
    let bytes = b"cc".as_slice();
    if !is_name(bytes) {
        bail!("no name");
    }
    Ok(Name::from_slice(alloc, bytes)?)
}

fn key(alloc: Global, number: u64) -> anyhow::Result<Key> {
    let mut bytes = Vec::from_slice(alloc, &[b'k'; 24])?;
    bytes.extend_from_slice(&number.to_be_bytes())?;
    if !is_key(bytes.as_slice()) {
        bail!("no key");
    }
    Ok(Key::from_slice(alloc, bytes.as_slice())?)
}

fn value(alloc: Global) -> anyhow::Result<Part> {
    Ok(Part::copied(alloc, &[7; 100])?)
}

fn row(alloc: Global, number: u64, version: Version, value: Part) -> anyhow::Result<Shared<KeyedRow>> {
    let namespace = namespace(alloc)?;
    let key = key(alloc, number)?;
    let row = Row {
        value,
        version,
        policy: None,
    };
    let key = KeptKey::copied(alloc, &namespace.lend(), &key.lend())?;
    Ok(Shared::new(alloc, KeyedRow::new(key, row))?)
}

fn id_of(block: u64, place: u32) -> [u8; 64] {
    let mut id = [7; 64];
    let [.., a, b, c, d] = block.to_be_bytes();
    let [e, f, g, h] = place.to_be_bytes();
    id[0] = a;
    id[1] = b;
    id[2] = c;
    id[3] = d;
    id[4] = e;
    id[5] = f;
    id[6] = g;
    id[7] = h;
    id
}

// Every `step`th key of 10,000: in the order of the keys, or in one that has nothing to do with it.
#[derive(Clone, Copy)]
struct Keys {
    first: u64,
    step: u64,
    sorted: bool,
}

impl Keys {
    fn number(self, place: u32) -> u64 {
        let number = self.first.wrapping_add(self.step.wrapping_mul(place as u64));
        if self.sorted {
            number
        } else {
            number.wrapping_mul(4801) % 10_000
        }
    }
}

// Puts the rows of so many keys.
fn delta_of(alloc: Global, block: u64, count: u32, keys: Keys) -> anyhow::Result<Delta> {
    let mut changes = Items::new(alloc);
    let mut entries = Items::new(alloc);
    let mut uses = Items::new(alloc);
    let bytes = Shared::new(alloc, Bytes::from_vec(Vec::new(alloc)))?;
    for place in 0..count {
        let number = keys.number(place);
        let version = Version { block, tx: place };
        let id = id_of(block, place);
        // the entry shares the row, as it does behind a block
        let row = row(alloc, number, version, value(alloc)?)?;
        entries.push(KeptEntry::written(row.share()?, KeptId::kept(alloc, &bytes, 0, &id)?))?;
        changes.push(Change::Put(row))?;
        let first_use = FirstUse { block, place, flag: Flag::Valid };
        uses.push(NewUse { id, first_use })?;
    }
    let block = CommittedBlock {
        bytes,
        header_hash: [0; 32],
        commit_hash: [0; 32],
        version: BlockVersion::V1,
        flags: Items::new(alloc),
    };
    Ok(Delta {
        changes,
        entries: Shared::new(alloc, entries)?,
        uses: Shared::new(alloc, uses)?,
        definitions: Items::new(alloc),
        block: Shared::new(alloc, block)?,
    })
}

// The blocks to be timed. They are made while the heap is new, so that they lie in it alike whatever the height.
fn to_be_timed(alloc: Global, height: u64, first: u64) -> anyhow::Result<Vec<Delta>> {
    let mut deltas = Vec::new(alloc);
    for more in 0..3u64 {
        let keys = Keys {
            first: first.wrapping_add(more),
            step: 10,
            sorted: true,
        };
        deltas.push(delta_of(alloc, height.wrapping_add(more), 1000, keys)?)?;
    }
    Ok(deltas)
}

fn fill(alloc: Global, world: &mut World, height: u64, count: u32) -> anyhow::Result<()> {
    for block in world.height()..height {
        let keys = Keys {
            first: block % 1000,
            step: 1000,
            sorted: false,
        };
        world.apply(&delta_of(alloc, block, count, keys)?)?;
    }
    Ok(())
}

// Looks at what a delta has, as whoever just made it has done.
fn looked_at(delta: &Delta) -> u64 {
    let mut sum = 0u64;
    for change in delta.changes.as_slice() {
        sum = sum.wrapping_add(change.key().as_slice().len() as u64);
        if change.row().is_some() {
            sum = sum.wrapping_add(1);
        }
    }
    for entry in delta.entries.get().as_slice() {
        sum = sum.wrapping_add(entry.key().as_slice().len() as u64);
        let (namespace, key) = (entry.namespace(), entry.key());
        if key.as_slice().contains(&0) && namespace.as_slice().contains(&0) {
            sum = sum.wrapping_add(1);
        }
    }
    for used in delta.uses.get().as_slice() {
        if used.id.contains(&0) {
            sum = sum.wrapping_add(1);
        }
    }
    sum
}

fn apply_all(rt: &(impl Print + Clock), world: &mut World, deltas: &[Delta]) -> anyhow::Result<()> {
    for delta in deltas {
        let seen = looked_at(delta);
        let start = Instant::now(rt)?;
        world.apply(delta)?;
        let micros = start.elapsed(rt)?.as_micros();
        println!(rt; "{micros} {seen}")?;
    }
    Ok(())
}

fn measure(rt: &(impl Print + Clock), alloc: Global, count: u32) -> anyhow::Result<()> {
    // The later ones put other keys, so that what they replace isn't what the earlier ones put.
    let early = to_be_timed(alloc, FIRST, 0)?;
    let late = to_be_timed(alloc, LAST, 5)?;
    let mut world = World::new(alloc, Definitions::new(alloc));
    let all = Keys {
        first: 0,
        step: 1,
        sorted: false,
    };
    world.apply(&delta_of(alloc, 0, 10_000, all)?)?;
    fill(alloc, &mut world, FIRST, 10)?;
    apply_all(rt, &mut world, early.as_slice())?;
    fill(alloc, &mut world, LAST, count)?;
    apply_all(rt, &mut world, late.as_slice())
}

// Prints three lines for each height, each begins with the microseconds of a block of 1,000. First with blocks of none
// between the heights, then with blocks of 10.
fn main(rt: HostRuntime) -> anyhow::Result<()> {
    let alloc = rt.alloc();
    measure(&rt, alloc, 0)?;
    measure(&rt, alloc, 10)
}
"""


def main():
    machine = Machine()
    with tempfile.TemporaryDirectory() as name:
        folder = pathlib.Path(name)
        source = PROGRAM.replace("FIRST", str(HEIGHTS[0])).replace("LAST", str(HEIGHTS[1]))
        program = build(folder, "heights", source, own=CRATES, kit=["anyhow"])
        runs = []
        for _ in range(RUNS):
            done = subprocess.run([program], cwd=folder, capture_output=True, text=True, check=False)
            if done.returncode != 0:
                sys.exit(f"the run failed: {done.stdout[:300]}{done.stderr[:300]}")
            runs.append([int(line.split()[0]) for line in done.stdout.splitlines()])
        times = [min(min(run[i:i + 3]) for run in runs) for i in range(0, 12, 3)]
        dear = []
        for between, first, last in (("none", *times[:2]), ("10", *times[2:])):
            print(f"blocks of {between} between: {first / 1000:.2f} ms at height {HEIGHTS[0]:,}, "
                  f"{last / 1000:.2f} ms at height {HEIGHTS[1]:,}, {last / first:.2f} times as long")
            if last > RATIO * first:
                dear.append(between)
        print(machine)
        if dear:
            sys.exit(f"too dear at the later height, with blocks between of: {', '.join(dear)}")


if __name__ == "__main__":
    main()
