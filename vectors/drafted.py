"""Three draft scripts, the first of them that of docs/format.md, with their blocks and what is answered of these."""

from functools import partial

import answers
from committer import World
from rust import rust_file, rust_string, rust_tuples
from sample import channel_of
from scripts import accepts, drafted, keys_of
from showing import shown

CHANNEL = b"channel ch\nchaincode cc OR('Org1.peer','Org2.peer')\nadmin 'Org1.admin'\n"
NAMES = ("first", "second", "third")
SCRIPTS = [
    b"""\
tx Org1:client:c0 n0 cc
ns cc
write k1 v1
policy k1 AND('Org1.peer','Org2.peer')
endorse Org1:peer:p0
""",
    b"""\
tx Org1:client:c0 n1 cc
endorse Org2:peer:p0
ns cc
write a%20%25 deleted
write b %
write k3 de%6c%FF
tx Org1:client:c0 n2 cc
ns cc
delete a%20%25
nopolicy b
endorse Org2:peer:p0
""",
    b"""\
update Org1:client:c0 n3 cc AND('Org1.peer', 'Org1.admin')
endorse Org1:admin:a0
""",
]
VERSIONS = (1, 1, 2)


def worlds(keys):
    """The world behind each block, with the block."""
    name, definitions, admin = channel_of(CHANNEL)
    world, before = World(name, definitions, partial(accepts, keys), admin), None
    for script, version in zip(SCRIPTS, VERSIONS):
        before = drafted(name, keys, before, script, version)
        world.submit(before)
        assert set(world.blocks[-1][2]) == {0}
        yield world, before


def readers(count, height):
    """The lines of so many readers."""
    return "".join(f"reader {place} height {height}\n" for place in range(1, count + 1))


def runs(world):
    """Runs with workers and readers over both blocks, with refused ones between and behind them, and over none."""
    lines = (
        f"{answers.accepted(world, 0)}refused 2 C2 want 1 got 0\n{answers.accepted(world, 1)}refused 4 C1 B1\n"
    )
    for workers, count in ((1, 2), (2, 0), (2, 2), (64, 0), (64, 32)):
        yield f"run --workers {workers} --readers {count} b0 b0 b1 k", 1, lines + readers(count, 2)
    yield "run --workers 02 --readers 1 k", 1, "refused 1 C1 B1\n" + readers(1, 0)


def of_both_versions(world):
    """Runs in which `c0` and `c1` have the contents of `b0` and `b1` in version 2, whose hashes are the same."""
    first, second = answers.accepted(world, 0), answers.accepted(world, 1)
    yield "run c0 b1", 1, first + "refused 2 C8\n"
    yield "run b0 c1", 0, first + second
    yield "run --workers 5 c0 b1 c1 b1", 1, f"{first}refused 2 C8\n{second}refused 4 C2 want 2 got 1\n"
    yield "explain c0 b1", 1, "refused 2 C8\n"


def shows(keys):
    """The scripts of these blocks, of one behind a block that it doesn't belong to, and of a file that has none."""
    blocks = [octets for _, octets in worlds(keys)]
    files = {"b0": blocks[0], "b1": blocks[1], "b2": blocks[2], "k": b"Org1"}
    for names in (["b0"], ["b0", "b1", "b2"], ["b0", "b2"], ["b0", "k", "b1"]):
        text, status = shown((b"ch", keys), [files[name] for name in names])
        yield f"show {' '.join(names)}", status, text


def rows(keys):
    """Words behind `--channel` and `--keys`, the status, and what goes to standard output."""
    name, definitions, _ = channel_of(CHANNEL)
    blank = World(name, definitions)
    states = worlds(keys)
    world, _ = next(states)
    yield "run b0", 0, answers.accepted(world, 0)
    for key in (b"k1", b"k2"):
        yield f"get --ns cc --key {key.decode()} b0", 0, answers.get(world, b"cc", key)
    yield "get --ns cc --key %6b%31 b0", 0, answers.get(world, b"cc", b"k1")
    yield "get --ns dd --key k1 b0", 0, answers.get(world, b"dd", b"k1")
    yield "get --ns cc --key k1", 0, answers.get(blank, b"cc", b"k1")
    yield "get --ns cc --key k1 b0 b0", 1, answers.get(world, b"cc", b"k1")
    yield "scan --ns cc --limit 1 b0", 0, answers.scan(world, b"cc", b"", b"", 1)
    yield "scan --ns cc", 0, answers.scan(blank, b"cc", b"", b"", 1)
    yield "scan --ns cc b1 b0", 1, answers.scan(world, b"cc", b"", b"", 100)
    yield "history --ns cc --key k1 b0", 0, answers.history(world, b"cc", b"k1")
    yield "history --ns cc --key k2 b0", 0, answers.history(world, b"cc", b"k2")
    yield "history --ns cc --key k1 b0 k", 1, answers.history(world, b"cc", b"k1")
    for name in (b"cc", b"dd"):
        yield f"definition --ns {name.decode()}", 0, answers.definition(blank, name)
        yield f"definition --ns {name.decode()} b0", 0, answers.definition(world, name)
    yield "definition --ns cc b0 k", 1, answers.definition(world, b"cc")
    world, _ = next(states)
    yield "run b0 b1", 0, answers.accepted(world, 0) + answers.accepted(world, 1)
    yield from runs(world)
    yield from of_both_versions(world)
    yield "get --ns cc --key b b0 b1", 0, answers.get(world, b"cc", b"b")
    yield "history --ns cc --key a%20%25 b0 b1", 0, answers.history(world, b"cc", b"a %")
    for start, end, limit in (("%", "%", 2), ("%", "%", 3), ("b%00", "k3", 100), ("k1", "k1%00", 2), ("k3", "b", 1)):
        words = f"scan --ns cc --start {start} --end {end} --limit {limit} b0 b1"
        bounds = [bound.replace("%00", "\0").strip("%").encode() for bound in (start, end)]
        yield words, 0, answers.scan(world, b"cc", *bounds, limit)
    yield "definition --ns cc b0 b1", 0, answers.definition(world, b"cc")
    yield from shows(keys)
    world, _ = next(states)
    yield "run b0 b1 b2", 0, "".join(answers.accepted(world, number) for number in range(3))
    yield "definition --ns cc b0 b1 b2", 0, answers.definition(world, b"cc")


def rust_drafted(keys_text):
    keys = keys_of(keys_text)
    yield "//! Three scripts, their blocks, and what is answered of these, made by vectors/drafted.py.\n"
    yield "use crate::fixture::Row;\n"
    for name, octets in zip(NAMES, SCRIPTS):
        yield f"pub(crate) fn {name}_script() -> &'static [u8] {{\n    {name.upper()}_SCRIPT\n}}\n"
        yield f"static {name.upper()}_SCRIPT: &[u8] =\n    {rust_string(octets)};\n"
    for name, (_, octets) in zip(NAMES, worlds(keys)):
        yield f"pub(crate) fn {name}_block() -> &'static [u8] {{\n    {name.upper()}_BLOCK\n}}\n"
        yield f"static {name.upper()}_BLOCK: &[u8] =\n    {rust_string(octets)};\n"
    table = list(rows(keys))
    yield "/// Words behind those of the channel and the keys."
    yield "pub(crate) fn answers() -> &'static [Row<'static>] {\n    &ANSWERS\n}\n"
    yield f"static ANSWERS: [Row<'static>; {len(table)}] = ["
    yield from rust_tuples([f'"{words}"', str(status), '"{}"'.format(out.replace("\n", "\\n")), '""'] for words, status, out in table)
    yield "];"


def files(keys_text):
    yield "vectors.rt", rust_file(rust_drafted(keys_text))
