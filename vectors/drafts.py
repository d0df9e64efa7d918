"""Short ways to write transactions, and a chain that grows block by block."""

from encoding import Namespace, Tx, data_hash, identity, spelled_block, spelled_tx, tx_id
from committer import World
from policies import read_policy

P0, P1, P2 = "Org1:peer:p0", "Org1:peer:p1", "Org1:peer:p2"
Q0 = "Org2:peer:q0"
ADMIN, CLIENT = "Org1:admin:a", "Org1:client:c0"
BOTH_ORGS = "AND('Org1.peer','Org2.peer')"

CHANNEL = {
    "cc": "OR('Org1.peer','Org2.peer')",
    "dd": "'Org1.member'",
    "both": BOTH_ORGS,
    "pair": "AND('Org1.peer','Org1.peer')",
    "chief": "AND('Org1.member','Org1.admin')",
    "either": "OR(AND('Org1.peer','Org2.peer'),'Org1.peer')",
    "greedy": "AND(OR('Org1.peer','Org1.peer'),'Org1.peer')",
    "nested": "OutOf(2,'Org1.peer',AND('Org1.peer','Org2.peer'),'Org1.peer')",
}


def octets(text):
    return text if isinstance(text, bytes) else text.encode()


def read(key, *version):
    return "reads", (octets(key), version)


def absent(key):
    return "reads", (octets(key), None)


def asked(start, end, exhausted, results):
    found = [(octets(key), tuple(version)) for key, *version in results]
    return "ranges", (octets(start), octets(end), exhausted, found)


def whole(start, end, *results):
    return asked(start, end, True, results)


def part(start, end, *results):
    return asked(start, end, False, results)


def write(key, value="v"):
    return "writes", (octets(key), octets(value))


def delete(key):
    return "writes", (octets(key), None)


def policy(key, text=BOTH_ORGS):
    return "policies", (octets(key), octets(text))


def nopolicy(key):
    return "policies", (octets(key), None)


def within(name, *entries):
    namespace = Namespace(name.encode())
    for kind, entry in entries:
        getattr(namespace, kind).append(entry)
    return namespace


class Chain:
    """Blocks with the flags that were written down by hand beside them, which the committer has to give."""

    def __init__(self):
        definitions = {octets(name): read_policy(octets(text)) for name, text in CHANNEL.items()}
        self.world, self.count = World(b"ch", definitions), 0

    def draft(self, *namespaces, by=(P0,), named="cc", nonce=None, creator=CLIENT, channel="ch", signature=b"ok"):
        """A transaction with a nonce of its own; an endorser that ends by `!` has a bad signature."""
        self.count += 1
        nonce = octets(nonce or f"n{self.count}")
        endorsements = [(identity(who.rstrip("!")), b"no" if who.endswith("!") else b"ok") for who in by]
        creator = identity(creator)
        id = tx_id(nonce, creator)
        return Tx(octets(channel), id, creator, nonce, octets(named), list(namespaces), endorsements, signature)

    def tx(self, *entries, **options):
        """A transaction of entries in `cc`, as bytes."""
        return spelled_tx(self.draft(within("cc", *entries), **options))

    def wide(self, *namespaces, **options):
        """A transaction of these namespaces, as bytes."""
        return spelled_tx(self.draft(*namespaces, **options))

    def block(self, flags, *txs):
        blocks = self.world.blocks
        previous = blocks[-1][1] if blocks else b""
        self.world.submit(spelled_block(len(blocks), previous, data_hash(txs), txs))
        assert blocks[-1][2] == flags, (len(blocks) - 1, blocks[-1][2], flags)
        return self
