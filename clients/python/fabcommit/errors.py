"""A class for each code of a call that is refused."""
from enum import IntEnum
from typing import ClassVar


class Code(IntEnum):
    """The answers of the calls, as the header numbers them."""

    OK = 0
    MALFORMED = 1
    WRONG_NUMBER = 2
    WRONG_PREVIOUS = 3
    WRONG_DATA_HASH = 4
    OLD_VERSION = 5
    MEMORY = 6
    CLOSED = 7
    NO_TEXT = 8
    NO_CHANNEL = 9
    NO_KEYS = 10
    NO_NAME = 11
    NONE = 12
    SMALL = 13
    SHARED = 14


class Refused(Exception):
    """A call was refused, and changed nothing."""

    code: ClassVar[Code]
    text: ClassVar[str]

    def __str__(self) -> str:
        return self.text


class BlockRefused(Refused):
    """The block isn't the next one."""


class Malformed(BlockRefused):
    """The bytes spell no block. `fault` is the number of their first fault, 1 to 6; listing signatures doesn't tell it."""

    code, text = Code.MALFORMED, "the bytes spell no block"

    def __init__(self, fault: int | None = None) -> None:
        super().__init__(fault)
        self.fault = fault

    def __str__(self) -> str:
        return self.text if self.fault is None else f"{self.text}: fault {self.fault}"


class WrongNumber(BlockRefused):
    """The block has the number `got` instead of `wanted`."""

    code, text = Code.WRONG_NUMBER, "the block's number isn't the height"

    def __init__(self, wanted: int, got: int) -> None:
        super().__init__(wanted, got)
        self.wanted, self.got = wanted, got

    def __str__(self) -> str:
        return f"{self.text}: {self.got} instead of {self.wanted}"


class WrongPrevious(BlockRefused):
    code, text = Code.WRONG_PREVIOUS, "the block's previous hash isn't the last header hash"


class WrongDataHash(BlockRefused):
    code, text = Code.WRONG_DATA_HASH, "the block's data hash isn't that of its transactions"


class OldVersion(BlockRefused):
    code, text = Code.OLD_VERSION, "a block of version 1 comes after one of version 2"


class OutOfMemory(Refused, MemoryError):
    code, text = Code.MEMORY, "the library was refused an allocation"


class Closed(Refused, ValueError):
    code, text = Code.CLOSED, "the ledger is closed"


class NoText(Refused, ValueError):
    code, text = Code.NO_TEXT, "a text isn't UTF-8"


class NoChannel(Refused, ValueError):
    code, text = Code.NO_CHANNEL, "the text is no channel's"


class NoKeys(Refused, ValueError):
    code, text = Code.NO_KEYS, "the text is no key book"


class NoName(Refused, ValueError):
    code, text = Code.NO_NAME, "a namespace or chaincode is no name, a key no key, or an id no id"


class NoBlock(Refused, LookupError):
    """No block of this number was accepted."""

    code, text = Code.NONE, "there is no such block"


class Shared(Refused):
    code, text = Code.SHARED, "the ledger takes no block while another handle shares it"


WITHOUT_NUMBERS = {
    kind.code: kind
    for kind in (
        WrongPrevious, WrongDataHash, OldVersion, OutOfMemory, Closed, NoText, NoChannel, NoKeys, NoName, NoBlock,
        Shared,
    )
}


def refused(code: int, number: int = 0, got: int = 0) -> Refused:
    """The exception for a code, with what was told of the block."""
    if code == Code.MALFORMED:
        return Malformed(got or None)
    if code == Code.WRONG_NUMBER:
        return WrongNumber(number, got)
    return WITHOUT_NUMBERS[Code(code)]()
