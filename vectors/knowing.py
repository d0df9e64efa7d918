"""How a block is related to the accepted block of its number, in the line of `fabcommit explain`: written from docs/cli.md and
docs/behaviour.md, and not from the crates.
"""

from encoding import Refused, data_hash, header_hash, read_block, version_of_block


def is_linked_in_place(world, octets):
    """Whether the next block of a ledger that ends before its number may be this one."""
    number, previous, hash_of_data, txs = read_block(octets)
    wanted, oldest = b"", 1
    if number > 0:
        octets_before, wanted, _ = world.blocks[number - 1]
        oldest = version_of_block(octets_before)
    return previous == wanted and hash_of_data == data_hash(txs) and version_of_block(octets) >= oldest


def relation(world, octets, own):
    """The word, of a block whose number was accepted, with its header hash."""
    accepted, accepted_hash, _ = world.blocks[read_block(octets)[0]]
    if accepted == octets:
        return "same"
    if not is_linked_in_place(world, octets):
        return "other"
    return "twin" if own == accepted_hash else "fork"


def known(world, octets):
    """The line, or no text if the bytes are no block, or its number was not accepted."""
    try:
        number, previous, hash_of_data, _ = read_block(octets)
    except Refused:
        return ""
    if number >= len(world.blocks):
        return ""
    own = header_hash(number, previous, hash_of_data)
    return f"known {number} {relation(world, octets, own)} {world.blocks[number][1].hex()} is {own.hex()}\n"


def known_object(line):
    """The object of that line, made as docs/format.md says."""
    _, number, how, accepted, _, own = line.split()
    return f'{{"kind":"known","number":{number},"as":"{how}","accepted":"{accepted}","own":"{own}"}}\n'
