"""A ledger that answers by tuples and by structs of C, as vectors/fuzz/library_at_random.py compares them."""
import fabcommit
from fabcommit import Code, NoBlock, binding

CLOSED, NONE, SHARED, SMALL = Code.CLOSED, Code.NONE, Code.SHARED, Code.SMALL


class Ledger(fabcommit.Ledger):
    @property
    def handle(self):
        return self._handle

    def submit(self, block, verify=None):
        told = super().submit(block, verify)
        hashes = (binding.Hash(*octets) for octets in (told.header_hash, told.commit_hash))
        return binding.Receipt(told.number, told.number, told.transactions, *hashes)

    def explain(self, block, verify=None):
        """What `explain.lines` takes."""
        return (super().explain(block, verify),)

    def definition(self, chaincode):
        text = super().definition(chaincode)
        if text is None:
            raise NoBlock
        return text.encode()

    def key_policy(self, namespace, key):
        text = super().key_policy(namespace, key)
        return None if text is None else text.encode()

    def get(self, namespace, key):
        row = super().get(namespace, key)
        return None if row is None else (row.version.block, row.version.tx, row.value)

    def scan(self, namespace, start=b"", end=b"", limit=100):
        """So many rows, and whether some are left."""
        rows = super().scan(namespace, start, end, limit)
        some = [(row.key, row.version.block, row.version.tx, row.value) for _, row in zip(range(limit), rows)]
        return some, next(rows, None) is not None

    def history(self, namespace, key):
        return [(write.version.block, write.version.tx, write.id, write.value) for write in super().history(namespace, key)]
