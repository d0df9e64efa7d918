"""The signatures of a block, for a caller that checks them."""
from collections.abc import Iterable
from typing import Any

from .binding import Octet, Sizes, Verdict, lib
from .buffers import filled, part
from .records import Identity, Request, Role, Verify


class Listing:
    """The signatures that a block may ask about, none of which is accepted at first.

    It needs no ledger, so blocks may be listed and checked before their turn, and side by side.
    """

    def __init__(self, block: bytes) -> None:
        sizes = Sizes()
        call = lambda *room: lib.fabcommit_list(block, len(block), *room, sizes)
        pool, verdicts = filled(call, lambda: (sizes.pool, sizes.verdicts), (Octet, 0), (Verdict, 0))
        self.block, self._pool, self._verdicts, self._sizes = block, pool, verdicts, sizes
        octets = pool.raw
        piece = lambda at: part(octets, at)
        self.requests = tuple(
            Request(Identity(piece(v.org), Role(v.role), piece(v.label)), piece(v.message), piece(v.signature))
            for v in verdicts[: sizes.verdicts]
        )

    def __len__(self) -> int:
        return len(self.requests)

    def answer(self, answers: Iterable[bool]) -> "Listing":
        """Says of each request, in their order, whether its signature is good."""
        # all are asked before the first is set, so that a fault leaves the listing as it was
        for place, (_, is_good) in enumerate(list(zip(self.requests, answers, strict=True))):
            self._verdicts[place].accepted = is_good
        return self

    def check(self, verify: Verify) -> "Listing":
        """Has each request answered here."""
        return self.answer(map(verify, self.requests))

    def words(self) -> tuple[Any, ...]:
        """What fabcommit_submit_by and fabcommit_explain_by take."""
        return self.block, len(self.block), self._pool, self._sizes.pool, self._verdicts, self._sizes.verdicts
