"""The sample's blocks, as an outside reading of its scripts gives them, and the lines that the program is to print.

The flags were worked out by hand, as the scripts' comments say, and are those of the committer too.
"""

from functools import partial

from committer import World
from encoding import Namespace, Tx, identity, spelled_tx, tx_id
from explaining import explained
from policies import read_policy
from scripts import accepts, drafted, keys_of, lines_of
from signing import Keys

FLAGS = [
    [0, 0, 10, 9, 2],
    [0, 11, 12, 0, 0],
    [10, 0, 0, 0],
    [10],
    [0],
    [0],
    [0, 2, 4, 6, 8, 9, 10, 11, 12, 14, 22, 25],
]

# The other blocks are of version 1.
OF_VERSION_2 = ("block4", "block5", "every_flag")

# The block behind the others. Of what no other line of a script can say the bytes are made here.
EVERY_FLAG = """\
# A transaction for each flag, in the order of their numbers, and an update, behind block5.blk, in version 2. A long raw line
# has the bytes of one of Org1:client:c0 that writes car6, endorsed by Org1:peer:p0. This file is made by vectors/sample.py.

# A new car: 0.
tx Org1:client:c0 n17 cc
ns cc
read car5 absent
write car5 white
endorse Org1:peer:p0

# Bytes that are no transaction: 2.
raw 6e6f

# Signed by Org1:admin:a0 in the place of its creator: 4.
raw {signature}

# An update stands alone in its block: 6.
update Org1:admin:a0 n19 cc 'Org2.peer'
endorse Org1:admin:a0

# Nonce n20, with the id that belongs to nonce n21: 8.
raw {id}

# The nonce of the first transaction of all: 9.
tx Org1:client:c0 n1 cc
ns cc
write car6 grey
endorse Org1:peer:p0

# One organization isn't enough for car2: 10.
tx Org1:client:c0 n22 cc
ns cc
write car2 black
endorse Org1:peer:p0

# car5 is there by now: 11.
tx Org1:client:c0 n23 cc
ns cc
read car5 absent
write car5 black
endorse Org1:peer:p0

# It is in this range too: 12.
tx Org1:client:c0 n24 cc
ns cc
range car1 car9 all
result car2 2 1
result car3 2 3
result car4 5 0
write count 3
endorse Org1:peer:p0

# For the channel other: 14.
raw {channel}

# One key, read twice: 22.
tx Org1:client:c0 n26 cc
ns cc
read car2 2 1
read car2 2 1
write car6 grey
endorse Org1:peer:p0

# No chaincode is called parts: 25.
tx Org1:client:c0 n27 cc
ns parts
write wheel 4
endorse Org1:peer:p0
"""
CLIENT, PEER, ADMIN = "Org1:client:c0", "Org1:peer:p0", "Org1:admin:a0"

# Worked out by hand, but for the hash and the id.
LINES = """\
block 6 {hash}
0 0 VALID
1 2 BAD_PAYLOAD
2 4 BAD_CREATOR_SIGNATURE creator Org1:client:c0
3 6 INVALID_CONFIG_TRANSACTION not-alone
4 8 BAD_PROPOSAL_TXID wanted {id}
5 9 DUPLICATE_TXID used 0 0 0 VALID
6 10 ENDORSEMENT_POLICY_FAILURE key cc car2 AND('Org1.peer','Org2.peer') Org1:peer:p0 missing Org2.peer
7 11 MVCC_READ_CONFLICT read cc car5 was absent is 6 0 by 0
8 12 PHANTOM_READ_CONFLICT range cc car1 car9 key car5 was absent is 6 0 all by 0
9 14 TARGET_CHAIN_NOT_FOUND channel other
10 22 BAD_RWSET repeated cc reads car2
11 25 INVALID_CHAINCODE undefined parts
"""


def channel_of(text):
    """The name of a channel text without faults, its chaincodes' policies, and the admin policy, if it has one."""
    name, definitions, admin = None, {}, None
    for _, line in lines_of(text):
        word, rest = line.split(" ", 1)
        if word == "channel":
            name = rest.strip().encode()
        elif word == "admin":
            admin = read_policy(rest.strip().encode())
        else:
            chaincode, policy = rest.strip().split(" ", 1)
            definitions[chaincode.encode()] = read_policy(policy.strip().encode())
    return name, definitions, admin


def raw(keys, nonce, channel=b"ch", id=None, signer=CLIENT, key=b"car6", endorsers=(PEER,)):
    """The bytes of a transaction, in hexadecimal digits. The signature of an endorser with `!` behind it is bad."""
    creator = identity(CLIENT)
    sets = [Namespace(b"cc", writes=[(key, b"grey")])]
    tx = Tx(channel, id or tx_id(nonce, creator), creator, nonce, b"cc", sets, [])
    keys.endorse(tx, [who.rstrip("!") for who in endorsers])
    tx.endorsements = [(who, b"" if name.endswith("!") else signed) for name, (who, signed) in zip(endorsers, tx.endorsements)]
    keys.sign_whole(tx, signer)
    return spelled_tx(tx).hex()


def raws(keys):
    """One whose signature is bad, one with another id, and one for another channel."""
    return {
        "signature": raw(keys, b"n18", signer=ADMIN),
        "id": raw(keys, b"n20", id=tx_id(b"n21", identity(CLIENT))),
        "channel": raw(keys, b"n25", channel=b"other"),
    }


def blocks(folder):
    """The sample's blocks in order, by name, with the world that each is handed to."""
    name, definitions, admin = channel_of((folder / "channel.txt").read_bytes())
    keys_text = (folder / "keys.txt").read_text()
    keys = keys_of(keys_text.encode())
    world = World(name, definitions, partial(accepts, keys), admin)
    scripts = {f"block{number}": (folder / f"block{number}.txt").read_bytes() for number in range(6)}
    scripts["every_flag"] = EVERY_FLAG.format(**raws(Keys(keys_text))).encode()
    before = None
    for title, script in scripts.items():
        before = drafted(name, keys, before, script, 2 if title in OF_VERSION_2 else 1)
        yield title, script, before, world
        world.submit(before)


def explanation(block, world):
    """The lines of the last block, worked out by hand and read here alike."""
    lines = "".join(line + "\n" for line in explained(world, block))
    wanted = LINES.format(hash=lines.split()[2], id=tx_id(b"n20", identity(CLIENT)).decode())
    assert lines == wanted, lines
    return lines


def files(folder):
    for title, script, block, world in blocks(folder):
        if title == "every_flag":
            yield f"data/{title}.txt", script
            explanation(block, world)
        yield f"data/{title}.blk", block
    lines = []
    for number, (_, header_hash, flags) in enumerate(world.blocks):
        assert flags == FLAGS[number], (number, flags)
        lines.append(" ".join(["accepted", str(number), header_hash.hex(), *map(str, flags)]))
    # The stored run hands block 0 in twice, and has two readers.
    lines.insert(1, "refused 2 C2 want 1 got 0")
    lines += [f"reader {place} height {len(FLAGS)}" for place in (1, 2)]
    yield "stdout", "".join(line + "\n" for line in lines)
