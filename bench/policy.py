#!/usr/bin/env python3
"""Times the evaluation of policies with 256 principals in 32 gates against 64 signers.

Run as `bench/policy.py` from anywhere, on a machine that has the kit: it builds a program over the repository's
crates in a scratch folder. It prints, for each policy, the answer, the steps of one evaluation (comparisons of a
signer with a principal, counted here) and the evaluations per second (the best of five runs).
"""

import pathlib
import subprocess
import sys
import tempfile

from scratch import RUNS, build
from encoding import Tx, identity, spelled_tx

CRATES = ["values", "transaction", "policy", "policy_eval"]
EVALUATIONS = 2000

PROGRAM = r"""
#![tactic(auto)]

use policy::Policy;
use policy_eval::{Verify, satisfied, signers};
use std::alloc::Global;
use std::time::Instant;
use std::{env, fs};
use transaction::{Identity, decode_tx};

struct Any;

impl Verify for Any {
    ghost use Rattle.std.specs.Prelude.{true};

    ghost accepts = { λ _ _ _ _. true };

    fn verify(&self, _identity: &Identity<'_>, _message: &[u8], _signature: &[u8]) -> bool {
        true
    }
}

// Prints a line for each policy: how many of the evaluations hold, and the microseconds.
fn main(rt: HostRuntime) -> anyhow::Result<()> {
    let alloc = rt.alloc();
    let bytes = fs::read(&rt, "tx")?;
    let tx = decode_tx(alloc, bytes.as_slice())?;
    let found = signers(alloc, tx.tx(), &Any)?;
    for path in env::args(&rt)?.skip(1) {
        let text = fs::read_to_string(&rt, path.as_str())?;
        let policy = Policy::parse(alloc, text.as_str())?;
        let mut held = 0u32;
        let start = Instant::now(&rt)?;
        for _ in 0..EVALUATIONS {
            if satisfied(&policy, &found) {
                held = held.wrapping_add(1);
            }
        }
        let micros = start.elapsed(&rt)?.as_micros();
        println!(rt; "{held} {micros}")?;
    }
    Ok(())
}
"""


def tx_bytes(labels):
    """A transaction with peers of A as its endorsers, whose signatures are empty."""
    endorsements = [(identity(f"A:peer:{label}"), b"") for label in labels]
    return spelled_tx(Tx(b"ch", bytes(64), identity("A:client:c"), b"", b"cc", [], endorsements, b""))


def principals(org, count):
    return [org] * count


def nested(threshold, org):
    """32 gates, each in the one before it behind 8 principals."""
    tree = (min(threshold, 8), principals(org, 8))
    for _ in range(31):
        tree = (threshold, principals(org, 8) + [tree])
    return tree


def beside(threshold, inner, orgs):
    """31 gates of 8 principals, and 8 principals beside them."""
    return (threshold, [(inner, list(orgs)) for _ in range(31)] + principals(orgs[0], 8))


def text_of(tree):
    if isinstance(tree, str):
        return f"'{tree}.peer'"
    return f"OutOf({tree[0]},{','.join(text_of(it) for it in tree[1])})"


def evaluate(tree, orgs, used):
    """The answer, the set after it and the steps, by the definition."""
    if isinstance(tree, str):
        for place, org in enumerate(orgs):
            if place not in used and org == tree:
                return True, used | {place}, place + 1
        return False, used, len(orgs)
    count, after, steps = 0, used, 0
    for member in tree[1]:
        answer, after, more = evaluate(member, orgs, after)
        count, steps = count + answer, steps + more
    return (True, after, steps) if count >= tree[0] else (False, used, steps)


def main():
    orgs = ["A"] * 64
    policies = {
        "nested, each gate of one": nested(1, "A"),
        "nested, each gate of all": nested(9, "A"),
        "nested, and no signer is wanted": nested(1, "B"),
        "side by side, each gate of all": beside(8, 8, ["A"] * 8),
        "side by side, each gate fails at its end": beside(8, 8, ["A"] * 7 + ["B"]),
    }
    with tempfile.TemporaryDirectory() as name:
        folder = pathlib.Path(name)
        source = PROGRAM.replace("EVALUATIONS", str(EVALUATIONS))
        program = build(folder, "evaluations", source, own=CRATES, kit=["anyhow"])
        (folder / "tx").write_bytes(tx_bytes([f"{i:02}" for i in range(64)]))
        for i, tree in enumerate(policies.values()):
            (folder / f"policy{i}").write_text(text_of(tree))
        paths = [f"policy{i}" for i in range(len(policies))]
        runs = []
        for _ in range(RUNS):
            done = subprocess.run([program] + paths, cwd=folder, capture_output=True, text=True, check=False)
            if done.returncode != 0 or len(done.stdout.splitlines()) != len(paths):
                sys.exit(f"the run failed: {done.stdout[:300]}{done.stderr[:300]}")
            runs.append([line.split() for line in done.stdout.splitlines()])
        for i, (title, tree) in enumerate(policies.items()):
            answer, _, steps = evaluate(tree, orgs, frozenset())
            if any(int(run[i][0]) != answer * EVALUATIONS for run in runs):
                sys.exit(f"{title}: the program's answer isn't {answer}")
            micros = min(int(run[i][1]) for run in runs)
            print(f"{title}: {'holds' if answer else 'fails'}, {steps:,} steps, "
                  f"{EVALUATIONS * 1000000 // max(micros, 1):,} evaluations per second, "
                  f"{micros * 1000 / EVALUATIONS / steps:.1f} ns a step")


main()
