"""Blocks and transactions as bytes, both ways, with their hashes."""

from dataclasses import dataclass, field
from hashlib import sha256

ROLES = ["admin", "client", "peer", "orderer"]
NAME_BYTES = set(b"ABCDEFGHIJKLMNOPQRSTUVWXYZabcdefghijklmnopqrstuvwxyz0123456789.-_")
LONGEST = 1048576
MAGICS = {1: b"FBK1", 2: b"FBK2"}


class NoSpelling(Exception):
    """The bytes spell no such thing."""


class Refused(Exception):
    """The block isn't the next one."""


@dataclass
class Namespace:
    name: bytes
    reads: list = field(default_factory=list)  # (key, version or None)
    ranges: list = field(default_factory=list)  # (start, end, exhausted, [(key, version)])
    writes: list = field(default_factory=list)  # (key, value or None)
    policies: list = field(default_factory=list)  # (key, text or None)


@dataclass
class Tx:
    channel: bytes
    id: bytes
    creator: bytes  # spelled
    nonce: bytes
    chaincode: bytes
    namespaces: list
    endorsements: list  # (spelled identity, signature)
    signature: bytes = b"ok"


@dataclass
class Update:
    """Of a chaincode's definition."""

    channel: bytes
    id: bytes
    creator: bytes  # spelled
    nonce: bytes
    namespace: bytes
    policy: bytes  # its text
    endorsements: list  # (spelled identity, signature)
    signature: bytes = b"ok"


def u8(n):
    return n.to_bytes(1, "big")


def u16(n):
    return n.to_bytes(2, "big")


def u32(n):
    return n.to_bytes(4, "big")


def u64(n):
    return n.to_bytes(8, "big")


def short(octets):
    return u8(len(octets)) + octets


def long(octets):
    return u16(len(octets)) + octets


def listed(spell, items):
    return u16(len(items)) + b"".join(spell(item) for item in items)


def version(v):
    return u64(v[0]) + u32(v[1])


def optional(spell, value):
    return b"\0" if value is None else b"\1" + spell(value)


def identity(text):
    """The bytes of `ORG:ROLE:LABEL`."""
    org, role, label = text.split(":")
    return short(org.encode()) + u8(ROLES.index(role)) + short(label.encode())


def spelled_range(r):
    start, end, exhausted, results = r
    results = listed(lambda result: long(result[0]) + version(result[1]), results)
    return long(start) + long(end) + u8(exhausted) + results


def spelled_namespace(n):
    return (
        short(n.name)
        + listed(lambda r: long(r[0]) + optional(version, r[1]), n.reads)
        + listed(spelled_range, n.ranges)
        + listed(lambda w: long(w[0]) + optional(lambda v: u32(len(v)) + v, w[1]), n.writes)
        + listed(lambda p: long(p[0]) + optional(long, p[1]), n.policies)
    )


def spelled_body(tx):
    """Of a transaction or an update, as the two functions behind it."""
    opening = short(tx.channel) + tx.id + tx.creator + short(tx.nonce)
    if isinstance(tx, Update):
        return b"\0" + opening + short(tx.namespace) + long(tx.policy)
    return opening + short(tx.chaincode) + listed(spelled_namespace, tx.namespaces)


def spelled_signed(tx):
    endorsements = b"".join(identity + long(signature) for identity, signature in tx.endorsements)
    return spelled_body(tx) + u8(len(tx.endorsements)) + endorsements


def spelled_tx(tx):
    return spelled_signed(tx) + long(tx.signature)


def der_integer(n):
    octets = n.to_bytes(n.bit_length() // 8 + 1, "big")
    return b"\x02" + u8(len(octets)) + octets


def der_octets(octets):
    return b"\x04" + u8(len(octets)) + octets


def header_hash(number, previous, data_hash):
    inside = der_integer(number) + der_octets(previous) + der_octets(data_hash)
    return sha256(b"\x30" + u8(len(inside)) + inside).digest()


def data_hash(txs):
    return sha256(b"".join(txs)).digest()


def tx_id(nonce, creator):
    return sha256(nonce + creator).hexdigest().encode()


def spelled_block(number, previous, hash_of_data, txs, version=1):
    header = MAGICS[version] + u64(number) + short(previous) + hash_of_data
    return header + u32(len(txs)) + b"".join(u32(len(tx)) + tx for tx in txs)


class Reader:
    """Takes fields off the front; too few bytes are `fault`."""

    def __init__(self, octets, fault):
        self.octets, self.fault = octets, fault

    def take(self, count):
        if len(self.octets) < count:
            raise self.fault
        taken, self.octets = self.octets[:count], self.octets[count:]
        return taken

    def number(self, count):
        return int.from_bytes(self.take(count), "big")

    def test(self, holds):
        if not holds:
            raise self.fault

    def name(self):
        octets = self.take(self.number(1))
        self.test(1 <= len(octets) <= 64 and set(octets) <= NAME_BYTES)
        return octets

    def bound(self):
        octets = self.take(self.number(2))
        self.test(len(octets) <= 1024)
        return octets

    def key(self):
        octets = self.bound()
        self.test(octets)
        return octets

    def bit(self):
        number = self.number(1)
        self.test(number <= 1)
        return number == 1

    def version(self):
        return self.number(8), self.number(4)

    def listed(self, read):
        return [read() for _ in range(self.number(2))]

    def identity(self):
        org, role = self.name(), self.number(1)
        self.test(role < 4)
        return short(org) + u8(role) + short(self.take(self.number(1)))

    def opening(self):
        return self.name(), self.take(64), self.identity(), self.take(self.number(1))

    def namespace(self):
        def read_range():
            start, end, exhausted = self.bound(), self.bound(), self.bit()
            return start, end, exhausted, self.listed(lambda: (self.key(), self.version()))

        return Namespace(
            self.name(),
            self.listed(lambda: (self.key(), self.version() if self.bit() else None)),
            self.listed(read_range),
            self.listed(lambda: (self.key(), self.take(self.number(4)) if self.bit() else None)),
            self.listed(lambda: (self.key(), self.take(self.number(2)) if self.bit() else None)),
        )

    def endorsements(self):
        count = self.number(1)
        self.test(count <= 64)
        return [(self.identity(), self.take(self.number(2))) for _ in range(count)]


def read_whole(octets, read):
    """What a function reads, where nothing follows."""
    reader = Reader(octets, NoSpelling())
    reader.test(len(octets) <= LONGEST)
    item = read(reader)
    reader.test(not reader.octets)
    return item


def read_tx(octets):
    return read_whole(octets, lambda reader: Tx(
        *reader.opening(),
        reader.name(),
        reader.listed(reader.namespace),
        reader.endorsements(),
        reader.take(reader.number(2)),
    ))


def read_update(octets):
    def fields(reader):
        reader.test(reader.take(1) == b"\0")
        opening, name, text = reader.opening(), reader.name(), reader.take(reader.number(2))
        return Update(*opening, name, text, reader.endorsements(), reader.take(reader.number(2)))

    return read_whole(octets, fields)


def read_item(version, octets):
    """A transaction, or in a block of version 2 an update, which begins with the byte 0."""
    return read_update(octets) if version == 2 and octets[:1] == b"\0" else read_tx(octets)


def version_of_block(octets):
    """1 or 2."""
    for number, magic in MAGICS.items():
        if octets.startswith(magic):
            return number
    raise Refused("BadMagic")


def read_block(octets):
    """Number, previous hash, data hash, and the bytes of transactions and updates."""
    version_of_block(octets)
    reader = Reader(octets[4:], Refused("Truncated"))
    number, length = reader.number(8), reader.number(1)
    if length not in (0, 32):
        raise Refused("PreviousLength")
    previous, hash_of_data, count = reader.take(length), reader.take(32), reader.number(4)
    if count > 4096:
        raise Refused("TooManyTxs")
    txs = []
    for _ in range(count):
        length = reader.number(4)
        if length > LONGEST:
            raise Refused("TxTooLong")
        txs.append(reader.take(length))
    if reader.octets:
        raise Refused("TrailingBytes")
    return number, previous, hash_of_data, txs
