"""The commit hash of a block, by the states before and after it, and not by what its transactions write."""

from hashlib import sha256

from encoding import long, optional, short, u8, u32, u64, version
from policies import canonical


def spelled_row(row):
    value, at, policy = row
    return version(at) + u32(len(value)) + value + long(canonical(policy).encode() if policy else b"")


def differing(before, after):
    """The keys whose row isn't the same in both, in order, each with the row after or none."""

    def seen(row):
        return row and spelled_row(row)

    keys = sorted(key for key in {**before, **after} if seen(before.get(key)) != seen(after.get(key)))
    return [(key, after.get(key)) for key in keys]


def spelled_change(change):
    (namespace, key), row = change
    return short(namespace) + long(key) + optional(spelled_row, row)


def spelled_definition(definition):
    name, policy = definition
    return short(name) + long(canonical(policy).encode())


def hashed(previous, version_of_block, number, flags, before, after, definition):
    """What is hashed of a block: a definition is a chaincode's name with its new policy, or none."""
    changes = differing(before, after)
    return (
        (previous or bytes(32))
        + u8(version_of_block)
        + u64(number)
        + u32(len(flags))
        + bytes(flags)
        + u32(len(changes))
        + b"".join(map(spelled_change, changes))
        + optional(spelled_definition, definition)
    )


def commit_hash(*block):
    return sha256(hashed(*block)).digest()
