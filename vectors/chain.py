"""The chains on which the serial committer in Rattle is tried, with what a committer in Python finds.

The flags stand in story.py and worked.py as they were worked out by hand, and the committer has to give the same.
A few of them, by the rules:

| block, place | flag | why |
|---|---|---|
| 1, 1 | 11 | place 0 wrote k1, which is now at (1, 0) and was read at (0, 0) |
| 1, 4 | 0 | k5 is still at (0, 0) |
| 3, 2 | 0 | its id came in block 2 with a bad signature of the creator: not used up |
| 3, 1 | 9 | place 0 has the same id; that it failed its endorsement doesn't matter |
| 11, 3 | 0 | the first member takes p0; the gate takes p1, fails and gives it back; the last takes p1: two of three |
| 14, 5 | 10 | place 4 wrote j's policy; j has no row, so it had no effect, but j is touched |
| 16, 1 | 10 | place 0 passed its endorsement and wrote k3's policy; that its read was stale doesn't matter |
| 16, 3 | 0 | place 2 repeats a namespace and never came to its endorsement: k4 isn't touched |
| 19, 1 | 0 | place 0 deleted k3 |
| 21, 4 | 10 | k2 was deleted and written again; until the block ends its policy from before, 'Org1.admin', holds |
| 22, 0 | 0 | the row of k2 that place 3 of block 21 made has no policy of its own |
| 24, 2 | 0 | not exhausted: compared through a alone, b lies behind it |
| 26, 2 | 12 | compared through cc, and b lies between a and cc |
| 27, 0 | 12 | a policy write alone gave a the version (26, 5) |
"""

from committer import World, text_of
from counting import counted
from drafts import Chain
from encoding import read_block
from explaining import explained
from rust import rust_file, rust_lines, rust_string, rust_table
from story import story
from words import at, named, told, word
from worked import ALL, ENDORSERS, RANGES, READS, script_of, worked


def rust_flags(flags):
    return "&[" + ", ".join(map(str, flags)) + "]"


def rust_block(octets, header_hash, flags):
    yield "    Committed {"
    yield f"        bytes: {rust_string(octets)},"
    yield f"        header_hash: {rust_string(header_hash)},"
    yield f"        flags: {rust_flags(flags)},"
    yield "    },"


def rust_blocks(doc, name, blocks):
    yield "//! Blocks of one chain, made by vectors/make.py.\n"
    yield "use super::Committed;\n"
    yield from rust_table(doc, name, "Committed", ["\n".join(rust_block(*block)) for block in blocks])


def written_keys(world, *others):
    return sorted(set(world.history) | set(world.state) | set(others))


def story_keys(world):
    return written_keys(world, (b"cc", b"j"), (b"zz", b"x"))


def rust_row(row):
    if row is None:
        yield "        row: None,"
        return
    value, (block, tx), _ = row
    yield "        row: Some(LeftRow {"
    yield f"            value: {rust_string(value)},"
    yield f"            block: {block},"
    yield f"            tx: {tx},"
    yield f'            policy: "{text_of(row) or ""}",'
    yield "        }),"


def rust_entry(version, id, value):
    """The bytes of `Left::history` for one entry."""
    block, tx = version
    tail = b"-" if value is None else b"=" + len(value).to_bytes(8, "big") + value
    return block.to_bytes(8, "big") + tx.to_bytes(4, "big") + id + tail


def rust_left(world, place):
    namespace, key = map(rust_string, place)
    history = b"".join(rust_entry(*entry) for entry in reversed(world.history.get(place, [])))
    yield "    Left {"
    yield f"        namespace: {namespace},"
    yield f"        key: {key},"
    yield from rust_row(world.state.get(place))
    yield f"        history: {rust_string(history)},"
    yield "    },"


def rust_rows(world):
    yield "//! What the chain leaves at each key, made by vectors/make.py.\n"
    yield "use super::{Left, LeftRow};\n"
    doc = "What is left at each key that the blocks write, and at `j` of `cc` and `x` of `zz`, in their order."
    yield from rust_table(doc, "rows", "Left", ["\n".join(rust_left(world, place)) for place in story_keys(world)])


def use_octets(world):
    return b"".join(id + bytes(use) for id, use in world.first_uses.items())


def rust_uses(world):
    yield "//! Where the chain uses each id first, made by vectors/make.py.\n"
    octets = use_octets(world)
    yield "/// The first use of each id: its 64 bytes, then block, place and the number of the flag, a byte each."
    yield "pub fn uses() -> &'static [[u8; 67]] {\n    USES.as_chunks().0\n}\n"
    yield f"static USES: &[u8; {len(octets)}] =\n    {rust_string(octets)};"


def rust_scripted(octets, flags):
    yield "            Scripted {"
    yield f"                script: {rust_lines(script_of(octets))},"
    yield f"                flags: {rust_flags(flags)},"
    yield "            },"


def indented(lines):
    for line in "\n".join(lines).split("\n"):
        yield "        " + line


def rust_chain(name, world):
    """A chain of scripts, and what it leaves at each key that it writes, at `k` and `none` of `cc`, and at each id."""
    yield "    WorkedChain {"
    yield f'        name: "{name.lower()}",'
    yield "        blocks: &["
    for octets, _, flags in world.blocks:
        yield from rust_scripted(octets, flags)
    yield "        ],"
    yield "        left: &["
    for place in written_keys(world, (b"cc", b"k"), (b"cc", b"none")):
        yield from indented(rust_left(world, place))
    yield "        ],"
    yield f"        uses: {rust_string(use_octets(world))},"
    yield "    },"


def rust_worked(doc, name, groups):
    yield "//! Chains that each show one thing, made by vectors/make.py.\n"
    yield "use super::{Left, LeftRow, Scripted, WorkedChain};\n"
    yield from rust_table(doc, name, "WorkedChain", ["\n".join(rust_chain(*row)) for row in worked(groups)])


def told_blocks(blocks, reasons):
    """A line for each transaction: its place, flag and why, and what it is."""
    for number, ((octets, _, flags), why) in enumerate(zip(blocks, reasons)):
        yield f"block {number}" + ("" if flags else ", without transactions")
        for place, (tx, flag, reason) in enumerate(zip(read_block(octets)[3], flags, why)):
            yield f"  {place}: {flag}, {reason} | {told(tx)}"


def told_story(world):
    yield "The blocks of the chain, made by vectors/make.py: for each transaction its place, flag and why, and what it is."
    yield "Keys and values are words, in which % and two digits stand for a byte, and % alone for none. An endorser with ! behind"
    yield "its name has a bad signature.\n"
    yield from told_blocks(world.blocks, world.reasons)
    yield "\nWhat is left at each key, with its own policy, and its history, the newest first.\n"
    for place in story_keys(world):
        row = world.state.get(place)
        left = f"{word(row[0])} {at(row[1])}, {text_of(row) or '-'}" if row else "absent"
        yield f"{named(*place)}: {left}"
        for version, _, value in reversed(world.history.get(place, [])):
            yield f"  {at(version)} {'deleted' if value is None else word(value)}"


def told_worked():
    yield "Chains that each show one thing, made by vectors/make.py and told as in story.txt."
    for name, world in worked(ALL):
        yield f"\n{name}"
        yield from told_blocks(world.blocks, world.reasons)


def rust_counts(world):
    """What made the transactions of the chain invalid, of all blocks and of the later half."""
    before, reasons = World(world.channel, dict(Chain().world.definitions)), []
    for octets, _, _ in world.blocks:
        reasons.append(explained(before, octets)[1:])
        before.submit(octets)
    half = len(reasons) // 2
    for name, text in (("counts", counted(reasons)), ("later_counts", counted(reasons, 3, half))):
        yield f"pub(crate) static {name.upper()}: &str = {rust_lines(text)};\n"


def count_files():
    yield "vectors.rt", rust_file(["//! What made transactions of the chain invalid, made by vectors/chain.py.\n", *rust_counts(story())])


WORKED = [
    ("worked_reads", "reads and policies of keys", READS),
    ("worked_endorsers", "policy writes, endorsers, faults and ids", ENDORSERS),
    ("worked_ranges", "ranges", RANGES),
]


def files():
    world = story()
    half = len(world.blocks) // 2
    halves = (("first_blocks", "first", world.blocks[:half]), ("later_blocks", "last", world.blocks[half:]))
    for name, which, blocks in halves:
        doc = f"The {which} {len(blocks)} of the chain's {len(world.blocks)} blocks, in order."
        yield f"{name}.rt", rust_file(rust_blocks(doc, name, blocks))
    yield "rows.rt", rust_file(rust_rows(world))
    yield "uses.rt", rust_file(rust_uses(world))
    for name, subject, groups in WORKED:
        doc = f"Chains about {subject}, each of which shows one thing."
        yield f"{name}.rt", rust_file(rust_worked(doc, name, groups))
    yield "story.txt", rust_file(told_story(world))
    yield "worked.txt", rust_file(told_worked())
