"""The lines that `fabcommit` prints of a world."""

from committer import is_inside, text_of
from policies import canonical
from words import word


def accepted(world, number):
    _, header_hash, flags = world.blocks[number]
    return " ".join(["accepted", str(number), header_hash.hex(), *map(str, flags)]) + "\n"


def committed(world, number):
    """The line behind it where commit hashes are asked for."""
    return f"commit {number} {world.commit_hashes[number].hex()}\n"


FAULTS = {
    "BadMagic": "C1 B1",
    "Truncated": "C1 B2",
    "PreviousLength": "C1 B3",
    "TooManyTxs": "C1 B4",
    "TxTooLong": "C1 B5",
    "TrailingBytes": "C1 B6",
    "WrongNumber": "C2",
    "WrongPrevious": "C3",
    "WrongDataHash": "C4",
    "OldVersion": "C8",
}


def refused(place, fault):
    """The place is from 1."""
    name, _, numbers = str(fault).partition(" ")
    return " ".join(filter(None, ["refused", str(place), FAULTS[name], numbers])) + "\n"


def height(world):
    return f"height {len(world.blocks)}\n"


def row_line(key, row):
    value, version, _ = row
    return f"row {word(key)} {version[0]} {version[1]} {word(value)} {text_of(row) or '-'}\n"


def entry_line(version, id, value):
    told = "deleted" if value is None else "%64eleted" if value == b"deleted" else word(value)
    return f"entry {version[0]} {version[1]} {id.decode()} {told}\n"


def get(world, namespace, key):
    row = world.state.get((namespace, key))
    return height(world) + (row_line(key, row) if row else "absent\n")


def history(world, namespace, key):
    entries = reversed(world.history.get((namespace, key), []))
    return height(world) + "".join(entry_line(*entry) for entry in entries)


def scan(world, namespace, start, end, limit):
    rows = sorted((key, row) for (space, key), row in world.state.items() if space == namespace and is_inside(key, start, end))
    return height(world) + "".join(row_line(*row) for row in rows[:limit]) + ("more\n" if len(rows) > limit else "")


def definition(world, name):
    policy = world.definitions.get(name)
    return height(world) + (f"definition {canonical(policy)}\n" if policy else "absent\n")
