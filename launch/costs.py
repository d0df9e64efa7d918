"""What proofs cost, when they were measured last: launch/costs.txt.

A line has a crate, the processor seconds and the MB of its proof, and the processor seconds of the proof of its tests and of all its
must-fail edits, which may be left out.
"""

from typing import NamedTuple

# What is taken of a crate that was never measured: seconds and MB.
UNKNOWN = (150, 2000)


class Cost(NamedTuple):
    seconds: int
    megabytes: int
    tests: int = 0
    edits: int = 0


class Costs:
    def __init__(self, top):
        lines = (line.split() for line in (top / "launch" / "costs.txt").read_text().splitlines())
        self.known = {name: Cost(*map(int, numbers)) for name, *numbers in lines}

    def __getitem__(self, name):
        return self.known.get(name) or Cost(*UNKNOWN)

    def __contains__(self, name):
        return name in self.known

    def of(self, name, edits):
        """The processor seconds of a crate in the merge gate by kind, with so many edits."""
        cost = self[name]
        found = {"proof": cost.seconds, "edits": cost.edits or (cost.seconds + 25 * edits if edits else 0), "tests": cost.tests}
        return {kind: seconds for kind, seconds in found.items() if seconds}
