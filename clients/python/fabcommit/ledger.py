"""A ledger, and what it is asked."""
import threading
import weakref
from collections.abc import Iterator
from types import TracebackType
from typing import Any

from . import binding as c
from .buffers import filled, part
from .errors import Closed, Code, Malformed, NoBlock, refused
from .listing import Listing
from .reasons import Reason
from .records import Flag, Receipt, Row, Use, Verify, Version, Versions, Write
from .told import Record

# A name, a key or a text; a str is spelled in UTF-8.
Octets = bytes | str


# A key has so many bytes at the most, and so has a bound of `scan`.
LONGEST = 1024


def least_above(key: bytes) -> bytes:
    """The least bound above a key. Nothing is above a longest key of bytes 255: then it is the key, after which no row is left."""
    if len(key) < LONGEST:
        return key + b"\0"
    front = key.rstrip(b"\xff")
    return front[:-1] + bytes([front[-1] + 1]) if front else key


def words(*given: Octets) -> list[Any]:
    """Each with its length, as the calls take it."""
    octets = [one.encode() if isinstance(one, str) else one for one in given]
    return [word for one in octets for word in (one, len(one))]


def versions() -> Versions:
    told = c.Versions()
    c.lib.fabcommit_versions(told)
    return Versions(told.interface, told.first_block, told.last_block)


class Ledger:
    """The ledger of a channel, which is closed as a context is left, or by `close`.

    Threads may call it: its calls wait for each other. To query it from several threads at the same time, give each the
    `Ledger` that `share` returns. A call that is refused raises a `Refused` and changes nothing.
    """

    def __init__(self, channel: Octets, keys: Octets = b"") -> None:
        """Opens the ledger of height 0 of a channel's text. A text of keys is needed only if the library checks signatures."""
        self._make_handle()
        self._checked("open", *words(channel, keys))

    def _make_handle(self) -> None:
        """A closed one. What it holds later is freed with this object."""
        self._lock, self._handle = threading.RLock(), c.Handle()
        # at the process's end other threads may still be in a call
        weakref.finalize(self, c.lib.fabcommit_close, self._handle).atexit = False

    def share(self) -> "Ledger":
        """One more `Ledger` of the same ledger and keys, for another thread: the two don't wait for each other.

        While more than one is open, a block is refused with `Shared`: close all but one, submit, and share again.
        """
        other = type(self).__new__(type(self))
        other._make_handle()
        self._checked("share", other._handle)
        return other

    def __enter__(self) -> "Ledger":
        return self

    def __exit__(self, kind: type[BaseException] | None, fault: BaseException | None, trace: TracebackType | None) -> None:
        self.close()

    def close(self) -> None:
        """Frees what the ledger holds, unless others share it. A closed one answers all but `close` with `Closed`."""
        with self._lock:
            c.lib.fabcommit_close(self._handle)

    def _code(self, name: str, *given: Any) -> int:
        with self._lock:
            code: int = getattr(c.lib, f"fabcommit_{name}")(self._handle, *given)
            return code

    def _checked(self, name: str, *given: Any) -> None:
        if code := self._code(name, *given):
            raise refused(code)

    def _receipt(self, name: str, *given: Any) -> Receipt:
        told = c.Receipt()
        if code := self._code(name, *given, told):
            raise refused(code, told.number, told.got)
        return Receipt(told.number, told.flags, bytes(told.header_hash), bytes(told.commit_hash))

    def _octets(self, name: str, *given: Any) -> bytes:
        need = c.S()
        (buffer,) = filled(lambda *room: self._code(name, *given, *room, need), lambda: [need.value], (c.Octet, 0))
        octets: bytes = buffer.raw[: need.value]
        return octets

    def _text(self, name: str, *given: Any) -> str | None:
        try:
            return self._octets(name, *given).decode()
        except NoBlock:
            return None

    def submit(self, block: bytes, verify: Verify | None = None) -> Receipt:
        """Hands in the next block, whose signatures are checked by `verify`, or by the ledger's keys."""
        listing = None if verify is None else self._listing(block, verify)
        return self._receipt("submit", block, len(block)) if listing is None else self.submit_by(listing)

    def submit_by(self, listing: Listing) -> Receipt:
        """Hands in the next block, whose signatures were checked."""
        return self._receipt("submit_by", *listing.words())

    def explain(self, block: bytes, verify: Verify | None = None) -> list[Reason]:
        """Tells why each transaction of the next block would have its flag, and commits nothing."""
        listing = None if verify is None else self._listing(block, verify)
        return self._reasons("explain", block, len(block)) if listing is None else self.explain_by(listing)

    def explain_by(self, listing: Listing) -> list[Reason]:
        """The same of a block whose signatures were checked."""
        return self._reasons("explain_by", *listing.words())

    @staticmethod
    def _listing(block: bytes, verify: Verify) -> Listing | None:
        """The block's signatures, checked. There is none for what is no block: a call by keys tells its fault."""
        try:
            return Listing(block).check(verify)
        except Malformed:
            return None

    def _reasons(self, name: str, *given: Any) -> list[Reason]:
        sizes = c.ReasonSizes()

        def call(*room: Any) -> int:
            code = self._code(name, *given, *room, sizes)
            if code in (Code.MALFORMED, Code.WRONG_NUMBER):
                raise refused(code, sizes.number, sizes.got)
            return code

        needs = lambda: (sizes.pool, sizes.reasons, sizes.identities)
        pool, reasons, identities = filled(call, needs, (c.Octet, 0), (c.Reason, 0), (c.Identity, 0))
        octets, named = pool.raw, identities[: sizes.identities]
        return [Record(reason, named, octets).reason() for reason in reasons[: sizes.reasons]]

    def height(self) -> int:
        """The number of the next block."""
        height = c.U64()
        self._checked("height", height)
        return height.value

    def block(self, number: int) -> Receipt:
        """The receipt of an accepted block."""
        return self._receipt("block", number)

    def flags(self, number: int) -> list[Flag]:
        """The flags of an accepted block, one for each transaction."""
        return [Flag(flag) for flag in self._octets("flags", number)]

    def get(self, namespace: Octets, key: Octets) -> Row | None:
        """A key's row, or none."""
        row, given = c.Row(), words(namespace, key)
        code = lambda value, room: self._code("get", *given, row, value, room)
        try:
            (value,) = filled(code, lambda: [row.len], (c.Octet, 64))
        except NoBlock:
            return None
        return Row(given[2], value.raw[: row.len], Version(row.block, row.tx))

    def scan(self, namespace: Octets, start: Octets = b"", end: Octets = b"", at_once: int = 256) -> Iterator[Row]:
        """The rows of a namespace from a start to before an end, which is no bound if it is empty, in order of their keys.

        A call takes `at_once` of them. If blocks come in meanwhile, the rows of later calls are those after these blocks.
        """
        if at_once < 1:
            raise ValueError("a call takes one row at least")
        sizes, room, more = c.ScanSizes(), 1 << 12, True
        while more:
            given = words(namespace, start, end)
            call = lambda *buffers: self._code("scan", *given, *buffers, sizes)
            pool, rows = filled(call, lambda: (sizes.pool, sizes.rows), (c.Octet, room), (c.Scanned, at_once))
            octets, room, more = pool.raw, len(pool) - 1, sizes.more
            for row in rows[: sizes.rows]:
                yield Row(part(octets, row.key), part(octets, row.value), Version(row.block, row.tx))
                start = least_above(part(octets, row.key))

    def history(self, namespace: Octets, key: Octets) -> Iterator[Write]:
        """The value writes and deletes of a key, the newest first."""
        sizes, given = c.PastSizes(), words(namespace, key)
        call = lambda *buffers: self._code("history", *given, *buffers, sizes)
        pool, writes = filled(call, lambda: (sizes.pool, sizes.writes), (c.Octet, 0), (c.Past, 0))
        octets = pool.raw
        value = lambda w: None if w.deleted else part(octets, w.value)
        return (Write(part(octets, w.id), value(w), Version(w.block, w.tx)) for w in writes[: sizes.writes])

    def key_policy(self, namespace: Octets, key: Octets) -> str | None:
        """The canonical text of the policy that a key has of its own, or none."""
        return self._text("key_policy", *words(namespace, key))

    def definition(self, chaincode: Octets) -> str | None:
        """The canonical text of a chaincode's policy, or none."""
        return self._text("definition", *words(chaincode))

    def first_use(self, id: Octets) -> Use | None:
        """Where an id of 64 bytes was used first, or none."""
        first = c.Use()
        try:
            self._checked("first_use", *words(id), first)
        except NoBlock:
            return None
        return Use(Version(first.block, first.tx), Flag(first.flag))
