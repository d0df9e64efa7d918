"""A serial committer: one transaction or update after the other, over whole maps. It says why each has its flag."""

from collections.abc import Callable
from dataclasses import dataclass, field

from commit_hashes import commit_hash
from encoding import (
    NoSpelling,
    Refused,
    Update,
    data_hash,
    header_hash,
    read_block,
    read_item,
    spelled_body,
    spelled_signed,
    tx_id,
    version_of_block,
)
from policies import canonical, is_policy, policy_fault, read_policy, satisfied
from words import at, bounds, known_as, named, word


def is_ok(identity, message, signature):
    """The verifier of the tests."""
    return signature == b"ok"


@dataclass
class World:
    channel: bytes
    definitions: dict  # chaincode to policy, after the blocks so far
    accepts: Callable = is_ok  # of a spelled identity, a message and a signature
    admin: tuple | None = None  # the policy of those who may update definitions
    state: dict = field(default_factory=dict)  # (namespace, key) to (value, version, policy or None)
    history: dict = field(default_factory=dict)  # (namespace, key) to [(version, id, value or None)], oldest first
    first_uses: dict = field(default_factory=dict)  # id to (block, place, flag)
    blocks: list = field(default_factory=list)  # (bytes, header hash, flags)
    reasons: list = field(default_factory=list)  # for each block one for each transaction
    commit_hashes: list = field(default_factory=list)  # one for each block

    def version(self):
        """That of the last block, and 1 where there is none."""
        return version_of_block(self.blocks[-1][0]) if self.blocks else 1

    def submit(self, octets):
        number, previous, hash_of_data, txs = read_block(octets)
        if number != len(self.blocks):
            raise Refused(f"WrongNumber want {len(self.blocks)} got {number}")
        if previous != (self.blocks[-1][1] if self.blocks else b""):
            raise Refused("WrongPrevious")
        if hash_of_data != data_hash(txs):
            raise Refused("WrongDataHash")
        if version_of_block(octets) < self.version():
            raise Refused("OldVersion")
        block = BlockRun(self, octets)
        verdicts = [block.take(place, tx) for place, tx in enumerate(txs)]
        self.definitions, flags = block.definitions, [flag for flag, _ in verdicts]
        last = self.commit_hashes[-1] if self.commit_hashes else None
        self.commit_hashes.append(commit_hash(last, version_of_block(octets), number, flags, block.before, self.state, block.definition))
        self.blocks.append((octets, header_hash(number, previous, hash_of_data), flags))
        self.reasons.append([reason for _, reason in verdicts])


def repeated(items):
    """The first item that stands a second time."""
    return next((item for place, item in enumerate(items) if item in items[:place]), None)


def is_inside(key, start, end):
    return start <= key and (end == b"" or key < end)


def fault_of_range(name, asked):
    start, end, _, results = asked
    keys = [key for key, _ in results]
    if repeated(keys) is not None or keys != sorted(keys):
        return f"results of {bounds(start, end)} that don't rise"
    outside = [key for key in keys if not is_inside(key, start, end)]
    return f"{named(name, outside[0])} isn't in {bounds(start, end)}" if outside else None


def fault_of_form(tx):
    """What is wrong with the read and write sets, whatever the state."""
    name = repeated([ns.name for ns in tx.namespaces])
    if name is not None:
        return f"namespace {word(name)} repeats"
    for ns in tx.namespaces:
        for what, entries in (("read", ns.reads), ("write", ns.writes), ("policy", ns.policies)):
            key = repeated([entry[0] for entry in entries])
            if key is not None:
                return f"a second {what} of {named(ns.name, key)}"
        for asked in ns.ranges:
            fault = fault_of_range(ns.name, asked)
            if fault:
                return fault
        for _, text in ns.policies:
            if text is not None and not is_policy(text):
                return f"{word(text)} is no policy"
    return None


def has_writes(ns):
    return bool(ns.writes or ns.policies)


def undefined(tx, definitions):
    """The first chaincode that is named or written and has no definition."""
    written = [ns.name for ns in tx.namespaces if has_writes(ns)]
    return next((name for name in [tx.chaincode] + written if name not in definitions), None)


def signers_of(tx, accepts):
    signers = []
    for endorser, signature in tx.endorsements:
        if accepts(endorser, spelled_body(tx) + endorser, signature) and endorser not in signers:
            signers.append(endorser)
    return signers


def fault_of_update(update, is_alone, world):
    """The first of what keeps an update with an id of its own from being valid, by kind and with what belongs to it."""
    if not is_alone:
        return ("not-alone",)
    if world.admin is None:
        return ("no-admin-policy",)
    if update.namespace not in world.definitions:
        return "undefined", word(update.namespace)
    if not is_policy(update.policy):
        return "policy", policy_fault(update.policy)
    return None if satisfied(world.admin, signers_of(update, world.accepts)) else ("admin",)


class BlockRun:
    """One block: the state before it, the keys whose policy was written by what passed endorsement, with its place, and the
    definitions that hold from the next block on."""

    def __init__(self, world, octets):
        self.world, self.version_of_block = world, version_of_block(octets)
        self.number, _, _, txs = read_block(octets)
        self.is_alone = len(txs) == 1
        self.before, self.touched, self.definitions = dict(world.state), {}, world.definitions
        self.definition = None  # the one that it replaces

    def take(self, place, octets):
        """The flag, and why."""
        try:
            tx = read_item(self.version_of_block, octets)
        except NoSpelling:
            return 2, "the bytes spell no transaction"
        if tx.channel != self.world.channel:
            return 14, f"channel {word(tx.channel)}"
        if not self.world.accepts(tx.creator, spelled_signed(tx), tx.signature):
            return 4, "the creator's signature is bad"
        if tx.id != tx_id(tx.nonce, tx.creator):
            return 8, "the id isn't that of nonce and creator"
        if tx.id in self.world.first_uses:
            block, first, flag = self.world.first_uses[tx.id]
            return 9, f"the id of ({block},{first}), which has flag {flag}"
        is_update = isinstance(tx, Update)
        flag, reason = self.checked_update(tx) if is_update else self.checked(place, tx)
        self.world.first_uses[tx.id] = (self.number, place, flag)
        if flag == 0 and is_update:
            self.definition = tx.namespace, read_policy(tx.policy)
            self.definitions = self.world.definitions | dict([self.definition])
        elif flag == 0:
            self.apply(place, tx)
        return flag, reason

    def checked_update(self, update):
        fault = fault_of_update(update, self.is_alone, self.world)
        return (6, " ".join(fault)) if fault else (0, "all holds")

    def checked(self, place, tx):
        fault = fault_of_form(tx)
        if fault:
            return 22, fault
        chaincode = undefined(tx, self.world.definitions)
        if chaincode is not None:
            return 25, f"{word(chaincode)} has no definition"
        lacking = self.lacking_endorsement(tx)
        if lacking:
            return 10, lacking
        for ns in tx.namespaces:
            for key, _ in ns.policies:
                self.touched.setdefault((ns.name, key), place)
        return self.read_flag(tx)

    def lacking_endorsement(self, tx):
        """What the signers don't satisfy, or the key whose policy was written earlier in the block."""
        signers = signers_of(tx, self.world.accepts)
        who = " and ".join(known_as(signer) for signer in signers)
        said = f"isn't satisfied by {who}" if who else "has no signer"
        for ns in tx.namespaces:
            for key in dict.fromkeys(key for key, _ in ns.writes + ns.policies):
                row = self.before.get((ns.name, key))
                own = row[2] if row else None
                if (ns.name, key) in self.touched:
                    return f"{self.touched[ns.name, key]} wrote the policy of {named(ns.name, key)}"
                if not satisfied(own or self.world.definitions[ns.name], signers):
                    policy, whose = (own, named(ns.name, key)) if own else (self.world.definitions[ns.name], word(ns.name))
                    return f"{canonical(policy)} of {whose} {said}"
        if any(ns.name == tx.chaincode and has_writes(ns) for ns in tx.namespaces):
            return None
        policy = self.world.definitions[tx.chaincode]
        if not satisfied(policy, signers):
            return f"{canonical(policy)} of {word(tx.chaincode)}, which is named, {said}"
        return None

    def version(self, name, key):
        row = self.world.state.get((name, key))
        return row[1] if row else None

    def compared_rows(self, name, asked):
        """The rows that the results of a range are compared with."""
        start, end, exhausted, results = asked
        rows = [(key, self.version(name, key)) for space, key in sorted(self.world.state) if space == name]
        rows = [row for row in rows if is_inside(row[0], start, end)]
        if not exhausted:
            rows = [row for row in rows if results and row[0] <= results[-1][0]]
        return rows

    def read_flag(self, tx):
        for ns in tx.namespaces:
            for key, version in ns.reads:
                now = self.version(ns.name, key)
                if now != version:
                    return 11, f"{named(ns.name, key)} is {at(now)}"
            for asked in ns.ranges:
                rows = self.compared_rows(ns.name, asked)
                if rows != asked[3]:
                    found = ", ".join(f"{word(key)} {at(version)}" for key, version in rows) or "nothing"
                    return 12, f"{bounds(*asked[:2])} has {found}"
        return 0, "all holds"

    def apply(self, place, tx):
        version, state = (self.number, place), self.world.state
        for ns in tx.namespaces:
            written, policies = dict(ns.writes), dict(ns.policies)
            for key, value in ns.writes:
                self.world.history.setdefault((ns.name, key), []).append((version, tx.id, value))
            for key in set(written) | set(policies):
                row = state.get((ns.name, key))
                policy = row[2] if row else None
                if key in policies:
                    policy = policies[key] and read_policy(policies[key])
                if key in written and written[key] is None:
                    state.pop((ns.name, key), None)
                elif key in written:
                    state[ns.name, key] = (written[key], version, policy)
                elif row:
                    state[ns.name, key] = (row[0], version, policy)


def text_of(row):
    return canonical(row[2]) if row[2] else None
