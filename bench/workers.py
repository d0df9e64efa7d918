#!/usr/bin/env python3
"""Times `check_workers::check_all` with 1, 2 and 4 workers beside the same checks in a plain loop, `serial_checks::flags`.

Run as `bench/workers.py [--beside FOLDER]` from anywhere, on a quiet machine that has the kit and four cores. It builds a program over the
repository's crates in a scratch folder. Each transaction reads a key and writes one, and has the two endorsements that its
policy asks for; signatures are verified before anything is timed.

- `independent`: 4,096 transactions, each of which writes the key that it read.
- `chain`: 4,096 transactions, each of which reads the key that the one before it writes.
- `one`: a block of one transaction, with 4 workers, beside the starting and joining of 4 scoped threads that do nothing.

Times are the least of five runs, or of as many as RUNS says in the environment, in each of which each is done ten times one
after the other, so that the processors are awake, as they are in a committer at work. Ratios are by the median over the turns,
beside them by the least times. The two differ where a machine changes its speed: then the least times of one worker and of four
are of different speeds, and those of a turn seldom are. By the medians it fails where one worker takes more than 1.3 times the
loop, or four are less than 2.5 times faster than one where transactions are independent.

`--beside` has another checkout of this repository whose libraries are built: how many times as long each takes here as there, in turns,
by the median over the turns and by the least times.

UNDER has words that are put before each program that is timed: `UNDER="chrt -f 50"` spreads threads at once over the
processors, where a system gathers new ones on few of them.

Behind them stands the limit of the machine: how many times the loops of one process are done in its time by four that
share nothing. Where that is less than 2.5, four workers can't reach it either. Last comes the load that the machine had before
and after, and what part of its time was stolen from it.
"""

import argparse
import pathlib
import subprocess
import sys
import tempfile

from scratch import RUNS, UNDER, Machine, build, built_of, times_as_long
from encoding import Namespace, Tx, data_hash, header_hash, identity, spelled_block, spelled_tx, tx_id
from signing import Keys

CRATES = ["block", "channel", "check_workers", "gates", "intake", "key_book", "key_chains", "ledger", "rules", "serial_checks"]
ONE_WORKER, FOUR_WORKERS = 1.3, 2.5
TIMED, TIMES = ["loop", "1", "2", "4", "threads"], 10
CHANNEL = "channel ch\nchaincode cc AND('Org1.peer','Org2.peer')\n"
CREATOR, PEERS = "Org1:client:c0", ["Org1:peer:p0", "Org2:peer:q0"]
KEYS = "".join(f"{who} {number:02x}{'5a' * 31}\n" for number, who in enumerate([CREATOR] + PEERS))

# Takes the first block, and times the checks of each other one. Behind `all` those are the nanoseconds of the loop, of 1, 2 and 4
# workers and of threads, ten of each, and last the number of valid transactions and how many verdicts no worker found; behind
# `loops` the nanoseconds of many loops.
PROGRAM = r"""
#![tactic(auto)]

ghost use Rattle.std.specs.Prelude.{◌≤◌};

use anyhow::bail;
use block::{MAX_TXS, decode_block};
use channel::{Channel, Configuration};
use check_workers::{Checked, check_all};
use gates::Open;
use intake::{tentative, take_in};
use key_book::KeyBook;
use key_chains::Job;
use ledger::Ledger;
use rules::Flag;
use std::alloc::{AllocError, Global};
use std::io::Print;
use std::sync::Wait;
use std::thread::Threads;
use std::time::{Clock, Instant};
use std::{env, fs, thread};

const TIMES: u32 = 10;
const LOOPS: u32 = 1000;

fn start_and_join<R: Threads + Wait + Sync>(rt: &R) {
    thread::scope(
        thread::scope_env(),
        rt,
        |scope| {
            for _ in 0..4 {
                if scope.spawn(|| {}).is_err() {
                    break;
                }
            }
        },
    );
}

fn valid(flags: &[Flag]) -> u32 {
    let mut count = 0u32;
    for flag in flags {
        count = count.wrapping_add(u32::from(flag.is_valid()));
    }
    count
}

fn time_loop<R: Clock>(rt: &R, alloc: Global, job: &Job<'_>, found: &mut Vec<u128>) -> anyhow::Result<()> {
    for _ in 0..TIMES {
        let start = Instant::now(rt)?;
        let _flags = serial_checks::flags(alloc, job)?;
        found.push(start.elapsed(rt)?.as_nanos())?;
    }
    Ok(())
}

fn checked<R: Threads + Wait + Sync>(
    rt: &R,
    alloc: Global,
    job: &Job<'_>,
    workers: usize,
) -> Result<Checked, AllocError>
    requires { (1 ≤ workers) × (workers ≤ 64) }
{
    check_all(rt, alloc, job, workers, &Open)
}

fn time_workers<R: Clock + Threads + Wait + Sync>(
    rt: &R,
    alloc: Global,
    job: &Job<'_>,
    workers: usize,
    found: &mut Vec<u128>,
) -> anyhow::Result<()>
    requires { (1 ≤ workers) × (workers ≤ 64) }
{
    for _ in 0..TIMES {
        let start = Instant::now(rt)?;
        let _checked = checked(rt, alloc, job, workers)?;
        found.push(start.elapsed(rt)?.as_nanos())?;
    }
    Ok(())
}

fn time_threads<R: Clock + Threads + Wait + Sync>(rt: &R, found: &mut Vec<u128>) -> anyhow::Result<()> {
    for _ in 0..TIMES {
        let start = Instant::now(rt)?;
        start_and_join(rt);
        found.push(start.elapsed(rt)?.as_nanos())?;
    }
    Ok(())
}

fn time_all<R: Clock + Print + Threads + Wait + Sync>(rt: &R, alloc: Global, job: &Job<'_>) -> anyhow::Result<()> {
    let mut found = Vec::new(alloc);
    time_loop(rt, alloc, job, &mut found)?;
    time_workers(rt, alloc, job, 1, &mut found)?;
    time_workers(rt, alloc, job, 2, &mut found)?;
    time_workers(rt, alloc, job, 4, &mut found)?;
    time_threads(rt, &mut found)?;
    for nanos in found {
        println!(rt; "{nanos}")?;
    }
    let last = checked(rt, alloc, job, 4)?;
    let valid = valid(last.flags.as_slice());
    let gathered = last.gathered;
    println!(rt; "{valid} {gathered}")?;
    Ok(())
}

fn time_loops<R: Clock + Print>(rt: &R, alloc: Global, job: &Job<'_>) -> anyhow::Result<()> {
    let start = Instant::now(rt)?;
    for _ in 0..LOOPS {
        let _flags = serial_checks::flags(alloc, job)?;
    }
    let nanos = start.elapsed(rt)?.as_nanos();
    println!(rt; "{nanos}")?;
    Ok(())
}

fn time_block<R: Clock + Print + Threads + Wait + Sync>(
    rt: &R,
    alloc: Global,
    are_loops: bool,
    channel: &Configuration,
    ledger: &Ledger,
    keys: &KeyBook,
    bytes: &[u8],
) -> anyhow::Result<()> {
    let Ok(block) = decode_block(alloc, bytes) else {
        bail!("no block");
    };
    let taken = take_in(alloc, channel, keys, block.version, block.txs.as_slice())?;
    let (_ids, candidates) = tentative(alloc, taken)?;
    if candidates.as_slice().len() > MAX_TXS {
        bail!("too many");
    }
    let before = ledger.view();
    let job = Job::build(alloc, 1, before.state(), before.definitions(), channel.admin(), candidates)?;
    if are_loops {
        time_loops(rt, alloc, &job)
    } else {
        time_all(rt, alloc, &job)
    }
}

fn text(bytes: &[u8]) -> anyhow::Result<&str> {
    match std::str::from_utf8(bytes) {
        Ok(text) => Ok(text),
        Err(_) => bail!("no text"),
    }
}

fn channel(alloc: Global, bytes: &[u8]) -> anyhow::Result<Channel> {
    match Channel::read(alloc, text(bytes)?) {
        Ok(channel) => Ok(channel),
        Err(_) => bail!("no channel"),
    }
}

fn keys(alloc: Global, bytes: &[u8]) -> anyhow::Result<KeyBook> {
    match KeyBook::read(alloc, text(bytes)?) {
        Ok(keys) => Ok(keys),
        Err(_) => bail!("no key book"),
    }
}

fn main(rt: HostRuntime) -> anyhow::Result<()> {
    let alloc = rt.alloc();
    let channel_bytes = fs::read(&rt, "channel.txt")?;
    let key_bytes = fs::read(&rt, "keys.txt")?;
    let before = fs::read(&rt, "before.blk")?;
    let keys = keys(alloc, &key_bytes)?;
    let mut ledger = Ledger::open(alloc, channel(alloc, &channel_bytes)?);
    if ledger.submit_one(&before, &keys).is_err() {
        bail!("refused");
    }
    let (channel, _definitions) = channel(alloc, &channel_bytes)?.into_parts();
    let mut words = env::args(&rt)?.skip(1);
    let Some(way) = words.next() else {
        bail!("no way");
    };
    let are_loops = way.as_str() == "loops";
    for path in words {
        let bytes = fs::read(&rt, path.as_str())?;
        time_block(&rt, alloc, are_loops, &channel, &ledger, &keys, &bytes)?;
    }
    Ok(())
}
"""


def key(number):
    return b"key%013d" % number


def tx(keys, number, reads, writes):
    nonce, creator = b"%d" % number, identity(CREATOR)
    namespace = Namespace(b"cc", reads=reads, writes=[(name, b"v" * 100) for name in writes])
    made = Tx(b"ch", tx_id(nonce, creator), creator, nonce, b"cc", [namespace], [], b"")
    keys.endorse(made, PEERS)
    keys.sign_whole(made, CREATOR)
    return spelled_tx(made)


def write_files(folder):
    """Block 0 writes 4,098 keys, half of them in each of its transactions; each other file has a block 1."""
    keys, half = Keys(KEYS), 2049
    (folder / "channel.txt").write_text(CHANNEL)
    (folder / "keys.txt").write_text(KEYS)
    before = [tx(keys, place, [], [key(n) for n in range(place * half, (place + 1) * half)]) for place in range(2)]
    (folder / "before.blk").write_bytes(spelled_block(0, b"", data_hash(before), before))
    previous = header_hash(0, b"", data_hash(before))

    def reading(n, written):
        return tx(keys, 2 + n, [(key(n), (0, n // half))], [key(written)])

    blocks = {
        "independent": [reading(n, n) for n in range(4096)],
        "chain": [reading(n, n + 1) for n in range(4096)],
        "one": [reading(0, 0)],
    }
    for name, txs in blocks.items():
        (folder / f"{name}.blk").write_bytes(spelled_block(1, previous, data_hash(txs), txs))
    return {name: len(txs) for name, txs in blocks.items()}


def run(program, folder, name, found):
    """Adds the nanoseconds of each thing that is timed; what stands behind them."""
    done = subprocess.run([*UNDER, program, "all", f"{name}.blk"], cwd=folder, capture_output=True, text=True, check=False)
    lines = [tuple(map(int, line.split())) for line in done.stdout.splitlines()]
    if done.returncode != 0 or not lines:
        sys.exit(f"the run failed: {done.stdout[-300:]}{done.stderr[-300:]}")
    nanos = [number for [number] in lines[:-1]]
    for place, timed in enumerate(TIMED):
        found[timed] += nanos[place * TIMES:(place + 1) * TIMES]
    return lines[-1]


def times(program, folder, name):
    """The nanoseconds of each thing that is timed, each time."""
    found = {timed: [] for timed in TIMED}
    for _ in range(RUNS):
        valid, gathered = run(program, folder, name, found)
    return found, valid, gathered


def beside(program, other, folder, name):
    here, there = ({timed: [] for timed in TIMED} for _ in range(2))
    for _ in range(RUNS):
        run(program, folder, name, here)
        run(other, folder, name, there)
    for timed in TIMED[:-1]:
        least, median = times_as_long(here[timed], there[timed])
        print(f"{name:>12} {timed:>5} takes {median:.2f} times as long here (by the least {least:.2f})", flush=True)


def loops(program, folder, count):
    """The mean of the nanoseconds in which each of so many processes at once does its loops."""
    words = [*UNDER, program, "loops", "independent.blk"]
    all_of_them = [subprocess.Popen(words, cwd=folder, stdout=subprocess.PIPE, text=True) for _ in range(count)]
    return sum(int(process.communicate()[0]) for process in all_of_them) / count


def limit(program, folder):
    """How many times as fast four processes do their loops as one does them one after the other."""
    one, four = zip(*[(loops(program, folder, 1), loops(program, folder, 4)) for _ in range(RUNS)])
    least, median = times_as_long(one, four)
    return 4 * least, 4 * median


def main():
    words = argparse.ArgumentParser()
    words.add_argument("--beside", metavar="FOLDER")
    words = words.parse_args()
    machine = Machine()
    with tempfile.TemporaryDirectory() as name:
        folder = pathlib.Path(name)
        program = build(folder / "program", "checks", PROGRAM, own=CRATES, kit=["anyhow"])
        found = {}
        for name, count in write_files(folder).items():
            found[name], valid, gathered = times(program, folder, name)
            told = ", ".join(f"{what} {min(nanos) / 1000:,.0f}" for what, nanos in found[name].items())
            print(f"{name:>12} {count:>5,} (µs): {told}; valid {valid:,}, gathered {gathered}", flush=True)
        if words.beside:
            other = built_of(words.beside, folder / "other", "workers", "checks")
            for name in found:
                beside(program, other, folder, name)
        least, median = limit(program, folder)
    independent, chain = found["independent"], found["chain"]
    least_loop, loop = map(max, zip(*(times_as_long(case["1"], case["loop"]) for case in (independent, chain))))
    least_faster, faster = times_as_long(independent["1"], independent["4"])
    print(f"one worker takes {loop:.2f} times the loop (by the least {least_loop:.2f}), "
          f"four are {faster:.2f} times faster than one (by the least {least_faster:.2f})")
    print(f"four loops by processes of their own are done {median:.2f} times as fast as one after the other "
          f"(by the least {least:.2f})")
    print(machine)
    if loop > ONE_WORKER or faster < FOUR_WORKERS:
        sys.exit("more than is promised")


if __name__ == "__main__":
    main()
