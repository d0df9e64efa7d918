"""Short chains that each show one thing, with flags that were written down by hand, and the scripts that draft them."""

from drafts import ADMIN, P0, P1, Q0, Chain, absent, delete, nopolicy, part, policy, read, whole, within, write
from encoding import read_block, read_tx
from words import known_as, word


def after(*names):
    """A chain whose block 0 writes these keys, all in transaction 0."""
    c = Chain()
    return c.block([0], c.tx(*[write(name) for name in names])) if names else c.block([])


def reads():
    c = after("k1", "k2", "k3", "k4", "k5")
    yield "READS_OF_KEYS_WRITTEN_BEFORE", c.block(
        [0, 11, 0, 11, 0],
        c.tx(write("k1"), write("k2")),
        c.tx(read("k1", 0, 0), write("k3")),
        c.tx(write("k2")),
        c.tx(read("k2", 0, 0), write("k2")),
        c.tx(read("k5", 0, 0), write("k6")),
    )
    c = after("k")
    yield "ABSENT_AFTER_A_DELETE", c.block([0, 0], c.tx(delete("k")), c.tx(absent("k")))
    for name, flags, by in (
        ("READ_OF_A_WRITE_IN_THE_BLOCK", [0, 0], [P0]),
        ("READ_OF_AN_INVALID_WRITE", [10, 11], []),
    ):
        c = after()
        yield name, c.block(flags, c.tx(write("k"), by=by), c.tx(read("k", 1, 0)))


def key_policies():
    c = after("k", "x")
    yield "POLICY_WRITE_OF_A_STALE_READER", c.block(
        [11, 10],
        c.tx(policy("k"), absent("x")),
        c.tx(write("k")),
    )
    c = after("k")
    yield "POLICY_WRITE_OF_A_DELETED_KEY", c.block(
        [0, 0, 0],
        c.tx(delete("k")),
        c.tx(policy("k")),
        c.tx(absent("k")),
    )
    c = Chain()
    c.block([0], c.tx(write("k"), policy("k")))
    yield "KEY_WITH_A_POLICY_OF_ITS_OWN", c.block(
        [10, 0],
        c.tx(write("k")),
        c.tx(write("k"), by=[P0, Q0]),
    )
    c = Chain()
    c.block([0], c.tx(write("k", "v1"))).block([0], c.tx(delete("k")))
    yield "POLICY_WRITE_IN_A_LATER_BLOCK", c.block([0], c.tx(policy("k")))


def policy_writes():
    """A policy write alone is a write in its namespace."""
    c = Chain()
    c.block([0], c.wide(within("both", write("j"), write("k"), policy("k", "'Org1.peer'")), named="both", by=[P0, Q0]))
    yield "POLICY_OF_THE_KEY_FOR_THAT_OF_THE_NAMED_CHAINCODE", c.block(
        [0, 10, 10, 10],
        c.wide(within("both", nopolicy("k")), named="both"),
        c.wide(within("both", nopolicy("j")), named="both"),
        c.wide(within("cc", nopolicy("k")), named="both"),
        c.wide(named="both"),
    )
    c = after()
    yield "POLICY_WRITE_WITHOUT_DEFINITION", c.block(
        [25, 0],
        c.wide(within("zz", nopolicy("k"))),
        c.wide(within("cc", nopolicy("k"))),
    )


def endorsers():
    for name, chaincode, flags, first, second in (
        ("ONE_PEER_TWICE", "pair", [10, 0], [P0, P0], [P0, P1]),
        ("ADMIN_BEFORE_PEER", "chief", [10, 0], [ADMIN, P0], [P0, ADMIN]),
    ):
        c = after()
        yield name, c.block(
            flags,
            *[c.wide(within(chaincode, write("k")), named=chaincode, by=by) for by in (first, second)],
        )
    c = after()
    yield "INNER_GATES", c.block(
        [0, 10],
        c.wide(within("either", write("k")), named="either", by=[P0]),
        c.wide(within("greedy", write("k")), named="greedy", by=[P0, P1]),
    )


def ranges():
    both = [("a", 0, 0), ("c", 0, 0)]
    for name, flags, key, by, asked in (
        ("INSERT_INTO_A_RANGE", [0, 12], "b", [P0], whole("a", "d", *both)),
        ("INVALID_INSERT_INTO_A_RANGE", [10, 0], "b", [], whole("a", "d", *both)),
        ("INSERT_BEHIND_THE_LAST_RESULT", [0, 0], "cc", [P0], part("a", "d", *both)),
        ("INSERT_AND_NO_RESULT", [0, 0], "b", [P0], part("a", "d")),
        ("LATER_INSERT_AND_NO_RESULT", [0, 0], "cc", [P0], part("a", "d")),
    ):
        c = after("a", "c")
        yield name, c.block(flags, c.tx(write(key), by=by), c.tx(asked))


def faults():
    c = after("a")
    phantom, stale = whole("a", "d"), absent("a")
    yield "PHANTOM_BEFORE_STALE", c.block([12], c.wide(within("cc", phantom), within("dd", read("a", 0, 0))))
    c = after("a")
    yield "PHANTOM_AND_STALE", c.block([11], c.tx(phantom, stale))


def ids():
    c = after()
    c.block([10, 9], c.tx(write("k"), nonce="n", by=()), c.tx(write("k"), nonce="n"))
    yield "ID_OF_AN_INVALID_TRANSACTION", c.block([9], c.tx(write("k"), nonce="n"))


def version_words(version):
    return "absent" if version is None else f"{version[0]} {version[1]}"


def namespace_lines(ns):
    yield f"ns {ns.name.decode()}"
    for key, version in ns.reads:
        yield f"read {word(key)} {version_words(version)}"
    for start, end, exhausted, results in ns.ranges:
        yield f"range {word(start)} {word(end)} {'all' if exhausted else 'part'}"
        for key, version in results:
            yield f"result {word(key)} {version_words(version)}"
    for key, value in ns.writes:
        yield f"delete {word(key)}" if value is None else f"write {word(key)} {word(value)}"
    for key, text in ns.policies:
        yield f"nopolicy {word(key)}" if text is None else f"policy {word(key)} {text.decode()}"


def script_lines(octets):
    """The lines of a script that say what a transaction says, its signatures aside."""
    tx = read_tx(octets)
    yield f"tx {known_as(tx.creator)} {word(tx.nonce)} {tx.chaincode.decode()}"
    for ns in tx.namespaces:
        yield from namespace_lines(ns)
    for who, _ in tx.endorsements:
        yield f"endorse {known_as(who)}"


def script_of(block):
    return "".join(line + "\n" for tx in read_block(block)[3] for line in script_lines(tx))


READS = (reads, key_policies)
ENDORSERS = (policy_writes, endorsers, faults, ids)
RANGES = (ranges,)
ALL = (reads, key_policies, policy_writes, endorsers, ranges, faults, ids)


def worked(groups):
    """Names, and the worlds behind their chains."""
    for rows in groups:
        for name, chain in rows():
            yield name, chain.world
