#!/usr/bin/env python3
"""explain.py [--verify] CHANNEL KEYS BLOCK..: prints the lines of `fabcommit explain`.

With --verify the signatures are checked here, as run.py does.
"""
import sys

from fabcommit.reasons import (
    AdminUnsatisfied, BadSignature, ChaincodeUnsatisfied, KeyUnsatisfied, NamedUnsatisfied, NamespaceRepeats, NoAdminPolicy, NoFault,
    NotAlone, NoTransaction, OtherChannel, OtherId, PhantomConflict, PolicyUnreadable, PolicyWriteRepeats, ReadConflict, ReadRepeats,
    ResultFalls, ResultLeaves, Touched, Undefined, UpdateUndefined, UpdateUnreadable, UsedId, WriteRepeats,
)
from run import opened

# of each kind of reason its first word, and what follows: parts of the reason, or words as they are
WORDS = {
    NoFault: "", NoTransaction: "", BadSignature: "creator creator", OtherChannel: "channel name", OtherId: "wanted id",
    UsedId: "used used used_flag", NotAlone: "not-alone", NoAdminPolicy: "no-admin-policy", UpdateUndefined: "undefined name",
    UpdateUnreadable: "policy text_fault", AdminUnsatisfied: "admin lack", Undefined: "undefined name", NamespaceRepeats: "repeated name",
    ReadRepeats: "repeated name reads key", WriteRepeats: "repeated name writes key", PolicyWriteRepeats: "repeated name policies key",
    ResultFalls: "fallen range places", ResultLeaves: "outside range places", PolicyUnreadable: "policy name key text_fault",
    Touched: "touched name key tx", KeyUnsatisfied: "key name key lack", ChaincodeUnsatisfied: "chaincode name key lack",
    NamedUnsatisfied: "named name lack", ReadConflict: "read name key versions by", PhantomConflict: "range range versions exhausted by",
}


def word(octets):
    spelled = (chr(octet) if 33 <= octet <= 126 and octet != ord("%") else f"%{octet:02X}" for octet in octets)
    return "".join(spelled) or "%"


def who(identity):
    return f"{word(identity.org)}:{identity.role.name.lower()}:{word(identity.label)}"


def flag(number):
    return [int(number), number.name]


def version(seen):
    return ["absent"] if seen is None else [seen.block, seen.tx]


class Parts:
    """The words of the parts of a reason, each by its name."""

    def __init__(self, reason):
        self.reason = reason

    def creator(self):
        return [who(self.reason.creator)]

    def used(self):
        return version(self.reason.used)

    def used_flag(self):
        return flag(self.reason.used_flag)

    def text_fault(self):
        return [self.reason.text_fault.name.lower().replace("_", "-")]

    def lack(self):
        lack = self.reason.lack
        words = [lack.policy, *map(who, lack.signers), *["refused"] * bool(lack.refused), *map(who, lack.refused)]
        if lack.missing:
            role = "member" if lack.missing.role is None else lack.missing.role.name.lower()
            words += ["missing", f"{word(lack.missing.org)}.{role}"]
        return words + ["order"] * lack.another_order

    def range(self):
        reason = self.reason
        return [word(reason.name), word(reason.start), word(reason.end), "key", word(reason.key)]

    def places(self):
        return ["range", self.reason.range_place, "result", self.reason.result_place]

    def versions(self):
        return ["was", *version(self.reason.read), "is", *version(self.reason.there)]

    def exhausted(self):
        return ["all" if self.reason.exhausted else "part"]

    def by(self):
        return [] if self.reason.by is None else ["by", self.reason.by]

    def named(self, name):
        if hasattr(self, name):
            return getattr(self, name)()
        plain = getattr(self.reason, name, name)
        return [word(plain) if isinstance(plain, bytes) else plain]


def words_of(reason):
    """Those after the flag."""
    first, _, rest = WORDS[type(reason)].partition(" ")
    parts = Parts(reason)
    return [first] * bool(first) + [said for name in rest.split() for said in parts.named(name)]


def lines(reasons):
    for place, reason in enumerate(reasons):
        yield " ".join(map(str, [place, *flag(reason.flag), *words_of(reason)]))


def main(words):
    ledger, verify, (*before, last) = opened(words)
    with ledger:
        for block in before:
            ledger.submit(block, verify)
        reasons = ledger.explain(last, verify)
        # which tells the block's header hash
        receipt = ledger.submit(last, verify)
    print("block", receipt.number, receipt.header_hash.hex())
    for line in lines(reasons):
        print(line)


if __name__ == "__main__":
    sys.exit(main(sys.argv[1:]))
