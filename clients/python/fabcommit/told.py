"""Reasons from the records that the library writes."""
from collections.abc import Sequence
from dataclasses import fields
from typing import Any

from .buffers import part
from .reasons import KINDS, Lack, Principal, Reason, TextFault
from .records import Flag, Identity, Role, Version

PIECES = ("name", "key", "start", "end", "id")
ANY_MEMBER = 4


def version(seen: Any) -> Version | None:
    return Version(seen.block, seen.tx) if seen.is_there else None


class Record:
    """One reason. Each field of a class of reasons is got by its name."""

    def __init__(self, record: Any, identities: Sequence[Any], pool: bytes) -> None:
        self.record, self.pool = record, pool
        self.identities = identities[record.first_identity :]

    def named(self, first: int, count: int) -> tuple[Identity, ...]:
        some = self.identities[first : first + count]
        return tuple(Identity(part(self.pool, i.org), Role(i.role), part(self.pool, i.label)) for i in some)

    def flag(self) -> Flag:
        return Flag(self.record.flag)

    def creator(self) -> Identity:
        return self.named(0, 1)[0]

    def used(self) -> Version:
        return Version(self.record.block, self.record.tx)

    def used_flag(self) -> Flag:
        return Flag(self.record.used_flag)

    def text_fault(self) -> TextFault:
        return TextFault(self.record.text_fault)

    def missing(self) -> Principal | None:
        if not self.record.has_missing:
            return None
        role = self.record.missing_role
        return Principal(part(self.pool, self.record.missing_org), None if role == ANY_MEMBER else Role(role))

    def lack(self) -> Lack:
        record, policy = self.record, part(self.pool, self.record.policy).decode()
        signers, refused = self.named(0, record.signers), self.named(record.signers, record.refused)
        return Lack(policy, signers, refused, self.missing(), record.another_order)

    def read(self) -> Version | None:
        return version(self.record.read)

    def there(self) -> Version | None:
        return version(self.record.there)

    def by(self) -> int | None:
        return self.record.tx if self.record.has_tx else None

    def field(self, name: str) -> Any:
        """What has no method stands in the record as it is."""
        if name in PIECES:
            return part(self.pool, getattr(self.record, name))
        return getattr(self, name)() if hasattr(self, name) else getattr(self.record, name)

    def reason(self) -> Reason:
        kind = KINDS[self.record.kind]
        return kind(*(self.field(field.name) for field in fields(kind)))
