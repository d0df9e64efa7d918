"""What the calls tell, as values."""
from collections.abc import Callable
from dataclasses import dataclass
from enum import IntEnum


class Role(IntEnum):
    """An identity's role in its organization."""

    ADMIN = 0
    CLIENT = 1
    PEER = 2
    ORDERER = 3


class Flag(IntEnum):
    """A transaction's flag, as in Fabric's TxValidationCode."""

    VALID = 0
    BAD_PAYLOAD = 2
    BAD_CREATOR_SIGNATURE = 4
    INVALID_CONFIG_TRANSACTION = 6
    BAD_PROPOSAL_TXID = 8
    DUPLICATE_TXID = 9
    ENDORSEMENT_POLICY_FAILURE = 10
    MVCC_READ_CONFLICT = 11
    PHANTOM_READ_CONFLICT = 12
    TARGET_CHAIN_NOT_FOUND = 14
    BAD_RWSET = 22
    INVALID_CHAINCODE = 25


@dataclass(frozen=True, slots=True)
class Versions:
    """The version of the library's interface, and the first and last version of the blocks that it reads."""

    interface: int
    first_block: int
    last_block: int


@dataclass(frozen=True, slots=True)
class Identity:
    """A label and a role in an organization."""

    org: bytes
    role: Role
    label: bytes


@dataclass(frozen=True, slots=True)
class Request:
    """A signature, and who is said to have signed what."""

    identity: Identity
    message: bytes
    signature: bytes


# Whether a signature is good. It may be asked by several threads at once.
Verify = Callable[[Request], bool]


@dataclass(frozen=True, slots=True)
class Receipt:
    """An accepted block, and how many transactions it has."""

    number: int
    transactions: int
    header_hash: bytes
    commit_hash: bytes


@dataclass(frozen=True, slots=True)
class Version:
    """The transaction that wrote a key, by its block and its place in it."""

    block: int
    tx: int


@dataclass(frozen=True, slots=True)
class Row:
    """A key's value, and where it was written last."""

    key: bytes
    value: bytes
    version: Version


@dataclass(frozen=True, slots=True)
class Write:
    """A past write of a key by the transaction `id`. A delete has no value."""

    id: bytes
    value: bytes | None
    version: Version


@dataclass(frozen=True, slots=True)
class Use:
    """An id's first use, and that transaction's flag."""

    version: Version
    flag: Flag
