"""Why each transaction of a block has its flag, in the lines of `fabcommit explain`: written from docs/cli.md and
docs/behaviour.md, and not from the crates.
"""

from copy import deepcopy

from committer import BlockRun, fault_of_update, is_inside, signers_of, undefined
from encoding import NoSpelling, header_hash, read_block, read_item, tx_id
from policies import any_role_last, canonical, missing, policy_fault, satisfied
from words import known_as, word

NAMES = {
    0: "VALID",
    2: "BAD_PAYLOAD",
    4: "BAD_CREATOR_SIGNATURE",
    6: "INVALID_CONFIG_TRANSACTION",
    8: "BAD_PROPOSAL_TXID",
    9: "DUPLICATE_TXID",
    10: "ENDORSEMENT_POLICY_FAILURE",
    11: "MVCC_READ_CONFLICT",
    12: "PHANTOM_READ_CONFLICT",
    14: "TARGET_CHAIN_NOT_FOUND",
    22: "BAD_RWSET",
    25: "INVALID_CHAINCODE",
}


def version_words(version):
    return ["absent"] if version is None else [str(number) for number in version]


def versions(read, there):
    return ["was", *version_words(read), "is", *version_words(there)]


def range_words(name, asked, key):
    return [word(name), word(asked[0]), word(asked[1]), "key", word(key)]


def place_words(place, result):
    """Those of a range in its namespace, and of a result in the range."""
    return ["range", str(place), "result", str(result)]


def again(items):
    """The first item that stands again behind itself."""
    return next((item for place, item in enumerate(items) if item in items[place + 1 :]), None)


def form_words(tx):
    name = again([ns.name for ns in tx.namespaces])
    if name is not None:
        return ["repeated", word(name)]
    return next(filter(None, map(set_words, tx.namespaces)))


def set_words(ns):
    for what, entries in (("reads", ns.reads), ("writes", ns.writes), ("policies", ns.policies)):
        key = again([entry[0] for entry in entries])
        if key is not None:
            return ["repeated", word(ns.name), what, word(key)]
    for place, asked in enumerate(ns.ranges):
        keys = [key for key, _ in asked[3]]
        for result, key in enumerate(keys):
            if result > 0 and key <= keys[result - 1]:
                return ["fallen", *range_words(ns.name, asked, key), *place_words(place, result)]
        for result, key in enumerate(keys):
            if not is_inside(key, *asked[:2]):
                return ["outside", *range_words(ns.name, asked, key), *place_words(place, result)]
    for key, text in ns.policies:
        fault = text is not None and policy_fault(text)
        if fault:
            return ["policy", word(ns.name), word(key), fault]
    return None


def item_of(version, octets):
    """The transaction or update, if the bytes spell one."""
    try:
        return read_item(version, octets)
    except NoSpelling:
        return None


def flag_words(flag):
    return [str(flag), NAMES[flag]]


def first_use_words(use):
    """The block, the place, and which flag it had there."""
    *place, flag = use
    return [*version_words(place), *flag_words(flag)]


class Explaining(BlockRun):
    """A block, with the last valid transaction that wrote or deleted each key's row."""

    def __init__(self, world, octets):
        super().__init__(world, octets)
        self.writers = {}

    def apply(self, place, tx):
        rows = set(self.world.state)
        super().apply(place, tx)
        for ns in tx.namespaces:
            written = {key for key, _ in ns.writes}
            for key in written | {key for key, _ in ns.policies if (ns.name, key) in rows}:
                self.writers[ns.name, key] = place

    def words(self, place, octets):
        """The flag, its name and the reason's words. The transaction is taken."""
        flag, _ = self.take(place, octets)
        return [*flag_words(flag), *self.reason(flag, item_of(self.version_of_block, octets))]

    def reason(self, flag, tx):
        match flag:
            case 4:
                return ["creator", known_as(tx.creator)]
            case 6:
                return self.fault(tx)
            case 8:
                return ["wanted", tx_id(tx.nonce, tx.creator).decode()]
            case 9:
                return ["used", *first_use_words(self.world.first_uses[tx.id])]
            case 10:
                return self.lacking(tx)
            case 11:
                return self.stale(tx)
            case 12:
                return self.phantom(tx)
            case 14:
                return ["channel", word(tx.channel)]
            case 22:
                return form_words(tx)
            case 25:
                return ["undefined", word(undefined(tx, self.world.definitions))]
        return []

    def fault(self, update):
        fault = fault_of_update(update, self.is_alone, self.world)
        return [*fault, *self.lack(self.world.admin, update)] if fault == ("admin",) else [*fault]

    def lack(self, policy, item):
        """A policy that the signers of a transaction or update don't satisfy, they, and what keeps them from it."""
        signers = signers_of(item, self.world.accepts)
        refused = [*dict.fromkeys(endorser for endorser, _ in item.endorsements if endorser not in signers)]
        _, org, role = missing(policy, signers)
        return [
            canonical(policy),
            *map(known_as, signers),
            *["refused"] * bool(refused),
            *map(known_as, refused),
            *["missing", f"{word(org)}.{role}"],
            *["order"] * satisfied(any_role_last(policy), signers),
        ]

    def lacking(self, tx):
        definitions, signers = self.world.definitions, signers_of(tx, self.world.accepts)
        for ns in tx.namespaces:
            for key, _ in ns.writes + ns.policies:
                at = [word(ns.name), word(key)]
                if (ns.name, key) in self.touched:
                    return ["touched", *at, str(self.touched[ns.name, key])]
                row = self.before.get((ns.name, key))
                own = row[2] if row else None
                if not satisfied(own or definitions[ns.name], signers):
                    return ["key" if own else "chaincode", *at, *self.lack(own or definitions[ns.name], tx)]
        return ["named", word(tx.chaincode), *self.lack(definitions[tx.chaincode], tx)]

    def written_by(self, name, key):
        """Who wrote or deleted the row, where that was in this block."""
        writer = self.writers.get((name, key))
        return [] if writer is None else ["by", str(writer)]

    def stale(self, tx):
        for ns in tx.namespaces:
            for key, version in ns.reads:
                there = self.version(ns.name, key)
                if there != version:
                    return ["read", word(ns.name), word(key), *versions(version, there), *self.written_by(ns.name, key)]

    def phantom(self, tx):
        for ns in tx.namespaces:
            for asked in ns.ranges:
                found, there = dict(asked[3]), dict(self.compared_rows(ns.name, asked))
                differing = [key for key in found | there if found.get(key) != there.get(key)]
                if differing:
                    key = min(differing)
                    differs = [*range_words(ns.name, asked, key), *versions(found.get(key), there.get(key))]
                    return ["range", *differs, "all" if asked[2] else "part", *self.written_by(ns.name, key)]


def block_line(octets):
    number, previous, hash_of_data, _ = read_block(octets)
    return f"block {number} {header_hash(number, previous, hash_of_data).hex()}"


def lines_of(world, octets, ids):
    """For each transaction of the next block, which the world is not handed, its id, if it has one, and its line."""
    block = Explaining(deepcopy(world), octets)
    for place, tx in enumerate(read_block(octets)[3]):
        item = item_of(block.version_of_block, tx)
        behind = ["id", word(item.id)] if ids and item else []
        yield item and item.id, " ".join([str(place), *block.words(place, tx), *behind])


def explained(world, octets, ids=False):
    """The lines of the next block, with ids at their ends where these are asked for."""
    return [block_line(octets), *(line for _, line in lines_of(world, octets, ids))]


def explained_at(world, octets, place, ids=False):
    """That of the transaction at this place; none where there is none."""
    block, *lines = explained(world, octets, ids)
    return [block, lines[place]] if place < len(lines) else []


def explained_of(world, octets, id, ids=False):
    """Those of the transactions with this id, else of the id's first use before; none where there is neither."""
    lines = [line for own, line in lines_of(world, octets, ids) if own == id]
    if not lines and id in world.first_uses:
        lines = [" ".join(["earlier", *first_use_words(world.first_uses[id])])]
    return [block_line(octets), *lines] if lines else []
