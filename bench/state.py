#!/usr/bin/env python3
"""Times the state in pages at 1,000 to 1,000,000 rows of 32-byte keys and 100-byte values.

Run as `bench/state.py` from anywhere, on a machine that has the kit: it builds a program over the repository's crates
in a scratch folder. It prints, the least of five runs each, a look-up, a range of 100 rows, a batch of 1,000 changes
at random and one of 1,000 new rows, and the peak memory of one state and of three that share their rows. It fails
where a million rows cost more than they may against 100,000 in the same run: look-ups and batches two and a half
times as much, a range twice. The machine is to be quiet: what runs beside it changes these ratios.
"""

import os
import pathlib
import subprocess
import sys
import tempfile

from scratch import RUNS, Machine, build

CRATES = ["values", "transaction", "block", "header_hash", "policy", "policy_eval", "text_lines", "channel", "rules",
          "state_db"]
BLOCKS = (1, 10, 100, 1_000)
# How many of each the program does, and how much dearer a million rows may be than 100,000.
COUNTS = {"get": 100_000, "range": 10_000, "changes": 1, "new_rows": 1}
RATIOS = {"get": 2.5, "range": 2.0, "changes": 2.5, "new_rows": 2.5}

PROGRAM = r"""
#![tactic(auto)]

use rules::Row;
use state_db::{Batch, StateDb};
use std::alloc::{AllocError, Global};
use std::env;
use std::time::Instant;
use transaction::Version;
use values::{BoundRef, Key, Name, NameRef, Part, is_bound, is_key, is_name};

fn mixed(seed: u64) -> u64 {
    let a = (seed ^ (seed >> 30)).wrapping_mul(0xbf58_476d_1ce4_e5b9);
    let b = (a ^ (a >> 27)).wrapping_mul(0x94d0_49bb_1331_11eb);
    b ^ (b >> 31)
}

fn name(alloc: Global) -> Result<Option<Name>, AllocError> {
    let bytes = b"cc".as_slice();
    if is_name(bytes) {
        return Ok(Some(Name::from_slice(alloc, bytes)?));
    }
    Ok(None)
}

/// A key of 32 bytes.
fn key(alloc: Global, index: u64) -> Result<Option<Key>, AllocError> {
    let mut bytes = Vec::new(alloc);
    bytes.extend_from_slice(mixed(index).to_be_bytes().as_slice())?;
    bytes.extend_from_slice(mixed(index ^ 1).to_be_bytes().as_slice())?;
    bytes.extend_from_slice(mixed(index ^ 2).to_be_bytes().as_slice())?;
    bytes.extend_from_slice(index.to_be_bytes().as_slice())?;
    if is_key(bytes.as_slice()) {
        return Ok(Some(Key::from_slice(alloc, bytes.as_slice())?));
    }
    Ok(None)
}

fn row(alloc: Global, block: u64) -> Result<Row, AllocError> {
    Ok(Row {
        value: Part::copied(alloc, [7u8; 100].as_slice())?,
        version: Version { block, tx: 0 },
        policy: None,
    })
}

fn add(alloc: Global, batch: &mut Batch, index: u64) -> Result<(), AllocError> {
    let Some(name) = name(alloc)? else {
        return Ok(());
    };
    let Some(key) = key(alloc, index)? else {
        return Ok(());
    };
    let row = row(alloc, index)?;
    batch.put(name, key, row)
}

fn puts(alloc: Global, first: u64) -> Result<Batch, AllocError> {
    let mut batch = Batch::new(alloc);
    for i in 0..1000u64 {
        add(alloc, &mut batch, first.wrapping_add(i))?;
    }
    Ok(batch)
}

fn changes(alloc: Global, rows: u64, round: u64) -> Result<Batch, AllocError> {
    let mut batch = Batch::new(alloc);
    for i in 0..1000u64 {
        let index = if rows == 0 {
            0
        } else {
            mixed(i ^ (round << 20) ^ 99) % rows
        };
        add(alloc, &mut batch, index)?;
    }
    Ok(batch)
}

fn keys(alloc: Global, rows: u64, count: u64) -> Result<Vec<Key>, AllocError> {
    let mut keys = Vec::new(alloc);
    for i in 0..count {
        let index = if rows == 0 { 0 } else { mixed(i ^ 77) % rows };
        if let Some(key) = key(alloc, index)? {
            keys.push(key)?;
        }
    }
    Ok(keys)
}

fn hits(state: &StateDb, name: &NameRef<'_>, keys: &[Key]) -> u32 {
    let mut hits = 0u32;
    for key in keys {
        if state.get(name, &key.lend()).is_some() {
            hits = hits.wrapping_add(1);
        }
    }
    hits
}

fn fill(alloc: Global, state: &mut StateDb, blocks: u64) -> Result<(), AllocError> {
    for block in 0..blocks {
        let batch = puts(alloc, block.wrapping_mul(1000))?;
        state.apply(&batch)?;
    }
    Ok(())
}

/// Three states that share their rows.
fn fill_three(alloc: Global, blocks: u64) -> Result<usize, AllocError> {
    let mut a = StateDb::new(alloc);
    let mut b = StateDb::new(alloc);
    let mut c = StateDb::new(alloc);
    for block in 0..blocks {
        let batch = puts(alloc, block.wrapping_mul(1000))?;
        a.apply(&batch)?;
        b.apply(&batch)?;
        c.apply(&batch)?;
    }
    Ok(a.pages() ^ b.pages() ^ c.pages())
}

fn timed_apply(
    rt: &HostRuntime,
    state: &mut StateDb,
    batch: Batch,
    what: &str,
) -> anyhow::Result<()> {
    let start = Instant::now(rt)?;
    state.apply(&batch)?;
    let micros = start.elapsed(rt)?.as_micros();
    println!(rt; "{what} {micros}")?;
    Ok(())
}

fn timed_changes(rt: &HostRuntime, state: &mut StateDb, rows: u64) -> anyhow::Result<()> {
    for round in 0..5u64 {
        let batch = changes(rt.alloc(), rows, round)?;
        timed_apply(rt, state, batch, "changes")?;
    }
    Ok(())
}

fn timed_puts(rt: &HostRuntime, state: &mut StateDb, rows: u64) -> anyhow::Result<()> {
    for round in 0..5u64 {
        let batch = puts(rt.alloc(), rows.wrapping_add(round.wrapping_mul(1000)))?;
        timed_apply(rt, state, batch, "new_rows")?;
    }
    Ok(())
}

fn timed_gets(rt: &HostRuntime, state: &StateDb, rows: u64) -> anyhow::Result<()> {
    let alloc = rt.alloc();
    let Some(name) = name(alloc)? else {
        return Ok(());
    };
    let keys = keys(alloc, rows, 100_000)?;
    let start = Instant::now(rt)?;
    let found = hits(state, &name.lend(), keys.as_slice());
    let micros = start.elapsed(rt)?.as_micros();
    println!(rt; "found {found}")?;
    println!(rt; "get {micros}")?;
    Ok(())
}

fn hundred<'a>(
    state: &'a StateDb,
    name: &NameRef<'a>,
    start: &BoundRef<'a>,
    end: &BoundRef<'a>,
) -> u32 {
    let mut count = 0u32;
    for row in state.range(name, start, end) {
        if row.row().version.tx == 0 {
            count = count.wrapping_add(1);
        }
        if count >= 100 {
            return count;
        }
    }
    count
}

fn from<'a>(state: &'a StateDb, name: &NameRef<'a>, key: &'a Key, end: &BoundRef<'a>) -> u32 {
    let bytes = key.as_slice();
    if !is_bound(bytes) {
        return 0;
    }
    hundred(state, name, &BoundRef::new(bytes), end)
}

fn hundreds<'a>(
    state: &'a StateDb,
    name: &NameRef<'a>,
    starts: &'a [Key],
    end: &BoundRef<'a>,
) -> u32 {
    let mut total = 0u32;
    for start in starts {
        total = total.wrapping_add(from(state, name, start, end));
    }
    total
}

fn timed_ranges(rt: &HostRuntime, state: &StateDb, rows: u64) -> anyhow::Result<()> {
    let alloc = rt.alloc();
    let Some(name) = name(alloc)? else {
        return Ok(());
    };
    let empty = b"".as_slice();
    if !is_bound(empty) {
        return Ok(());
    }
    let end = BoundRef::new(empty);
    let keys = keys(alloc, rows, 10_000)?;
    let start = Instant::now(rt)?;
    let total = hundreds(state, &name.lend(), keys.as_slice(), &end);
    let micros = start.elapsed(rt)?.as_micros();
    println!(rt; "lent {total}")?;
    println!(rt; "range {micros}")?;
    Ok(())
}

fn timed_fill(rt: &HostRuntime, state: &mut StateDb, blocks: u64) -> anyhow::Result<()> {
    let start = Instant::now(rt)?;
    fill(rt.alloc(), state, blocks)?;
    let micros = start.elapsed(rt)?.as_micros();
    let pages = state.pages();
    println!(rt; "fill {micros}")?;
    println!(rt; "pages {pages}")?;
    Ok(())
}

fn number(rt: &HostRuntime, place: usize) -> anyhow::Result<u64> {
    for (at, word) in env::args(rt)?.enumerate() {
        if at == place {
            if let Ok(number) = word.as_str().parse::<u64>() {
                return Ok(number);
            }
        }
    }
    Ok(1)
}

fn main(rt: HostRuntime) -> anyhow::Result<()> {
    let blocks = number(&rt, 1)?;
    let states = number(&rt, 2)?;
    let alloc = rt.alloc();
    if states == 3 {
        let pages = fill_three(alloc, blocks)?;
        println!(rt; "three states of {pages} pages")?;
        return Ok(());
    }
    let mut state = StateDb::new(alloc);
    timed_fill(&rt, &mut state, blocks)?;
    if states == 2 {
        return Ok(());
    }
    let rows = blocks.wrapping_mul(1000);
    timed_gets(&rt, &state, rows)?;
    timed_ranges(&rt, &state, rows)?;
    timed_changes(&rt, &mut state, rows)?;
    timed_puts(&rt, &mut state, rows)
}
"""


def ran(program, blocks, states):
    """What the program prints, and the most memory that it had, in megabytes."""
    child = subprocess.Popen([program, str(blocks), str(states)], stdout=subprocess.PIPE, text=True)
    printed = child.stdout.read()
    _, status, usage = os.wait4(child.pid, 0)
    if status != 0:
        sys.exit(f"{program} {blocks} {states} ended with {status}")
    return printed, usage.ru_maxrss / 1024


def least(program):
    """For each size the least microseconds of each kind, over the runs and, of batches, over those of a run.

    The sizes take turns, so that a machine whose speed changes changes it for all of them.
    """
    best = {blocks: {} for blocks in BLOCKS}
    for blocks in BLOCKS * RUNS:
        for line in ran(program, blocks, 1)[0].splitlines():
            kind, number = line.split()
            if kind in COUNTS:
                micros = int(number) / COUNTS[kind]
                best[blocks][kind] = min(micros, best[blocks].get(kind, micros))
    return best


def main():
    machine = Machine()
    with tempfile.TemporaryDirectory() as folder:
        program = build(pathlib.Path(folder), "state_bench", PROGRAM, CRATES, ["anyhow"])
        times = least(program)
        for blocks in BLOCKS:
            told = ", ".join(f"{kind} {micros:.2f} us" for kind, micros in times[blocks].items())
            print(f"{blocks * 1000:>9} rows: {told}")
        one = ran(program, BLOCKS[-1], 2)[1]
        three = ran(program, BLOCKS[-1], 3)[1]
        print(f"{BLOCKS[-1] * 1000} rows: {one:.0f} MB for one state, {three:.0f} MB for three that share")
    print(machine)
    dear = []
    for kind, most in RATIOS.items():
        ratio = times[1_000][kind] / times[100][kind]
        print(f"{kind}: {ratio:.2f} times as much as at 100,000 rows, at most {most}")
        if ratio > most:
            dear.append(kind)
    if dear:
        sys.exit(f"too dear: {', '.join(dear)}")


if __name__ == "__main__":
    main()
