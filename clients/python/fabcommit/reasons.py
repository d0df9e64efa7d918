"""Why a transaction has its flag: a class for each kind of reason, with what it tells."""
from dataclasses import dataclass
from enum import IntEnum
from typing import ClassVar

from .records import Flag, Identity, Role, Version


class TextFault(IntEnum):
    """Why a policy's text can't be read."""

    TOO_LARGE = 1
    SYNTAX = 2
    ROLE = 3
    THRESHOLD = 4
    TOO_DEEP = 5


@dataclass(frozen=True, slots=True)
class Principal:
    """Whom a policy asks for. Without a role it is any member."""

    org: bytes
    role: Role | None


@dataclass(frozen=True, slots=True)
class Lack:
    """A policy that isn't satisfied, by its canonical text: who signed, whose signatures were refused, who is missing.

    `another_order` tells whether the same signers would do in another order.
    """

    policy: str
    signers: tuple[Identity, ...]
    refused: tuple[Identity, ...]
    missing: Principal | None
    another_order: bool


@dataclass(frozen=True)
class Reason:
    """A transaction's flag, and why it has it."""

    flag: Flag
    kind: ClassVar[int]


@dataclass(frozen=True)
class Named(Reason):
    """It is about a namespace, a chaincode or a channel."""

    name: bytes


@dataclass(frozen=True)
class Keyed(Named):
    """It is about a key of a namespace."""

    key: bytes


@dataclass(frozen=True)
class Unsatisfied(Keyed):
    """A policy isn't satisfied that goes for a key."""

    lack: Lack


@dataclass(frozen=True)
class FaultyResult(Named):
    """It is about a result of a range, which has the key `key`.

    The places are those of the range in its namespace, and of the result in the range.
    """

    start: bytes
    end: bytes
    key: bytes
    range_place: int
    result_place: int


@dataclass(frozen=True)
class NoFault(Reason):
    """The transaction is valid."""


@dataclass(frozen=True)
class NoTransaction(Reason):
    """Its bytes spell no transaction."""


@dataclass(frozen=True)
class BadSignature(Reason):
    """The creator's signature was refused."""

    creator: Identity


@dataclass(frozen=True)
class OtherChannel(Named):
    """It is for the channel `name`."""


@dataclass(frozen=True)
class OtherId(Reason):
    """Its nonce and creator give the id `id`."""

    id: bytes


@dataclass(frozen=True)
class UsedId(Reason):
    """Another transaction used its id before: in this block, or in an earlier one."""

    used: Version
    used_flag: Flag


@dataclass(frozen=True)
class NotAlone(Reason):
    """An update isn't alone in its block."""


@dataclass(frozen=True)
class NoAdminPolicy(Reason):
    """The channel has no policy for updates."""


@dataclass(frozen=True)
class UpdateUndefined(Named):
    """An update is of a chaincode that isn't defined."""


@dataclass(frozen=True)
class UpdateUnreadable(Reason):
    """The policy of an update can't be read."""

    text_fault: TextFault


@dataclass(frozen=True)
class AdminUnsatisfied(Reason):
    """The channel's policy for updates isn't satisfied."""

    lack: Lack


@dataclass(frozen=True)
class Undefined(Named):
    """A chaincode isn't defined."""


@dataclass(frozen=True)
class NamespaceRepeats(Named):
    """A namespace comes twice."""


@dataclass(frozen=True)
class ReadRepeats(Keyed):
    """A key is read twice."""


@dataclass(frozen=True)
class WriteRepeats(Keyed):
    """A key is written twice."""


@dataclass(frozen=True)
class PolicyWriteRepeats(Keyed):
    """The policy of a key is written twice."""


@dataclass(frozen=True)
class ResultFalls(FaultyResult):
    """A result of a range isn't above the one before."""


@dataclass(frozen=True)
class ResultLeaves(FaultyResult):
    """A result of a range is outside of its bounds."""


@dataclass(frozen=True)
class PolicyUnreadable(Keyed):
    """The policy that is written for a key can't be read."""

    text_fault: TextFault


@dataclass(frozen=True)
class Touched(Keyed):
    """The transaction `tx` of this block wrote the key's policy first."""

    tx: int


@dataclass(frozen=True)
class KeyUnsatisfied(Unsatisfied):
    """The policy of a key isn't satisfied."""


@dataclass(frozen=True)
class ChaincodeUnsatisfied(Unsatisfied):
    """The policy of the chaincode isn't satisfied, which goes for this key."""


@dataclass(frozen=True)
class NamedUnsatisfied(Named):
    """The policy of the chaincode that is named isn't satisfied."""

    lack: Lack


@dataclass(frozen=True)
class ReadConflict(Keyed):
    """A key has another version than was read, or none. `by` wrote or deleted it last, if a transaction of this block did."""

    read: Version | None
    there: Version | None
    by: int | None


@dataclass(frozen=True)
class PhantomConflict(ReadConflict):
    """The same of a key in a range, which was read to its end if it is exhausted."""

    start: bytes
    end: bytes
    exhausted: bool


# by their numbers
KINDS: tuple[type[Reason], ...] = (
    NoFault, NoTransaction, BadSignature, OtherChannel, OtherId, UsedId, NotAlone, NoAdminPolicy, UpdateUndefined, UpdateUnreadable,
    AdminUnsatisfied, Undefined, NamespaceRepeats, ReadRepeats, WriteRepeats, PolicyWriteRepeats, ResultFalls, ResultLeaves,
    PolicyUnreadable, Touched, KeyUnsatisfied, ChaincodeUnsatisfied, NamedUnsatisfied, ReadConflict, PhantomConflict,
)
for number, each in enumerate(KINDS):
    each.kind = number
