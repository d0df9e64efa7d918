"""Buffers as large as a call needs them, and pieces of them."""
from collections.abc import Callable, Sequence
from typing import Any

from .errors import Code, refused


def filled(call: Callable[..., int], needs: Callable[[], Sequence[int]], *buffers: tuple[Any, int]) -> list[Any]:
    """What a call writes into buffers of these kinds, which are made larger until they are as long as it needs.

    `call` is given each buffer with its length. After a call to which they were too small, `needs` tells the lengths.
    """
    kinds, lengths = [kind for kind, _ in buffers], [length for _, length in buffers]
    while True:
        # with one more, since no pointer may be null
        made = [(kind * (length + 1))() for kind, length in zip(kinds, lengths)]
        code = call(*(word for pair in zip(made, lengths) for word in pair))
        if code == Code.OK:
            return made
        if code != Code.SMALL:
            raise refused(code)
        lengths = [max(length, need) for length, need in zip(lengths, needs())]


def part(pool: bytes, piece: Any) -> bytes:
    return pool[piece.at : piece.at + piece.len]
