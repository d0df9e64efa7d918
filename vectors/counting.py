"""What made the transactions of a chain invalid, in the lines of `fabcommit conflicts`: written from docs/format.md, over the
lines of `explain`, and not from the crates.
"""

from collections import Counter

from explaining import NAMES
from scripts import word_bytes

WAYS = ("stale", "phantom", "policy", "touched")


def key_of(flag, reason):
    """The key that a reason is about, the way in which, and whether a transaction of the block is behind it; or nothing."""
    in_block = reason[-2:-1] == ["by"]
    match flag, *reason:
        case 11, "read", name, key, *_:
            return (name, key), "stale", in_block
        case 12, "range", name, _, _, "key", key, *_:
            return (name, key), "phantom", in_block
        case 10, "key", name, key, *_:
            return (name, key), "policy", False
        case 10, "touched", name, key, _:
            return (name, key), "touched", True
    return None


def missing_of(flag, reason):
    """The chaincode whose own policy barred a transaction, and who was missing; or nothing."""
    match flag, *reason:
        case 10, "chaincode", name, _, *lack:
            return name, lack[lack.index("missing") + 1]
        case 10, "named", name, *lack:
            return name, lack[lack.index("missing") + 1]
    return None


class Counts:
    def __init__(self):
        self.flags, self.keys, self.chaincodes = Counter(), {}, {}

    def add(self, line):
        """A transaction's line of `explain`."""
        _, flag, _, *reason = line.split()
        self.flags[int(flag)] += 1
        if found := key_of(int(flag), reason):
            at, way, in_block = found
            self.keys.setdefault(at, Counter()).update([way] + ["in-block"] * in_block)
        if found := missing_of(int(flag), reason):
            name, principal = found
            self.chaincodes.setdefault(name, Counter())[principal] += 1

    def key_lines(self):
        totals = {at: sum(counts[way] for way in WAYS) for at, counts in self.keys.items()}
        for at in sorted(totals, key=lambda at: (-totals[at], *map(word_bytes, at))):
            ways = [f"{way} {self.keys[at][way]}" for way in (*WAYS, "in-block")]
            yield " ".join(["key", *at, str(totals[at]), *ways])

    def chaincode_lines(self):
        totals = {name: missing.total() for name, missing in self.chaincodes.items()}
        for name in sorted(totals, key=lambda name: (-totals[name], word_bytes(name))):
            missing = self.chaincodes[name]
            principal = min(missing, key=lambda principal: (-missing[principal], word_bytes(principal)))
            yield f"chaincode {name} {totals[name]} missing {principal} {missing[principal]}"

    def lines(self, top):
        for flag, count in sorted(self.flags.items()):
            yield f"flag {flag} {NAMES[flag]} {count}"
        yield from [*self.key_lines()][:top]
        yield from self.chaincode_lines()


def counted(reasons, top=20, first=0):
    """The lines for accepted blocks, from one on, of each of which the lines of `explain` are given, without the first."""
    counts = Counts()
    for lines in reasons[first:]:
        for line in lines:
            counts.add(line)
    return "".join(line + "\n" for line in counts.lines(top))
