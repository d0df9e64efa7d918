"""The long chain: every flag but 6, most of them in several ways. The flags were written down by hand."""

from drafts import ADMIN, CLIENT, P0, P1, P2, Q0, Chain, absent, delete, nopolicy, part, policy, read, whole, within, write
from encoding import spelled_tx, tx_id, u8


def begin(c):
    c.block([0, 0], c.tx(*[write(f"k{n}", f"v{n}") for n in range(1, 6)]), c.tx(write("a"), write("c")))
    c.block(
        [0, 11, 0, 11, 0],
        c.tx(write("k1", "w1"), write("k2", "w2")),
        c.tx(read("k1", 0, 0), write("k3", "w3"), nonce="stale"),
        c.tx(write("k2", "x2")),
        c.tx(read("k2", 0, 0), write("k2", "y2")),
        c.tx(read("k5", 0, 0), write("k6", "w6")),
    )


def origins(c):
    """Bytes, channel, signature and id."""
    late = c.tx(write("late"), nonce="late")
    stolen = c.draft(within("cc", write("u2")), nonce="thief")
    stolen.id = tx_id(b"owner", stolen.creator)
    c.block(
        [2, 2, 2, 14, 4, 8],
        b"",
        late + b"\0",
        c.tx(write("u0")).replace(b"\x04Org1\x02", b"\x04Org1\x04"),
        c.tx(write("u3"), nonce="elsewhere", channel="other"),
        c.tx(write("u1"), nonce="unsigned", signature=b"no"),
        spelled_tx(stolen),
    )
    c.block(
        [10, 9, 0, 0, 0, 0],
        c.tx(write("u0"), nonce="twice", by=()),
        c.tx(write("u0"), nonce="twice"),
        c.tx(write("u1"), nonce="unsigned"),
        c.tx(write("u2"), nonce="owner"),
        c.tx(write("u3"), nonce="elsewhere"),
        late,
    )
    c.block(
        [9, 9, 0, 4, 9],
        c.tx(write("u0"), nonce="twice"),
        c.tx(write("u1", "again"), nonce="unsigned"),
        c.tx(write("u4"), nonce="twice", creator="Org1:client:c1"),
        c.tx(write("u2", "again"), nonce="owner", signature=b"okay"),
        c.wide(within("cc"), within("cc"), nonce="twice"),
    )


def forms(c):
    """Repeats, results of ranges, and policy texts."""
    c.block(
        [22] * 6,
        c.wide(within("cc", write("x")), within("cc"), nonce="form"),
        c.tx(absent("x"), absent("x")),
        c.tx(write("x"), delete("x")),
        c.tx(policy("x"), nopolicy("x")),
        c.tx(whole("a", "d", ("c", 0, 1), ("a", 0, 1))),
        c.tx(part("a", "d", ("a", 0, 1), ("a", 0, 1))),
    )
    c.block(
        [22] * 6,
        c.tx(whole("b", "d", ("a", 0, 1), ("c", 0, 1))),
        c.tx(whole("a", "c", ("a", 0, 1), ("c", 0, 1))),
        c.tx(whole("d", "a", ("c", 0, 1))),
        c.tx(policy("k1", "AND(")),
        c.tx(policy("k1", b"\xff")),
        c.tx(policy("k1", "")),
    )
    c.block(
        [9, 0, 0, 0, 0, 0],
        c.tx(write("x"), nonce="form"),
        c.tx(whole("d", "a")),
        c.tx(absent("once"), write("once"), policy("once", "'Org2.member'")),
        c.wide(within("cc", write("same")), within("dd", write("same"))),
        c.tx(whole("u", "", ("u1", 3, 2), ("u2", 3, 3), ("u3", 3, 4), ("u4", 4, 2))),
        c.tx(write("spaced"), policy("spaced", "and( \"Org1.peer\" , OutOf(1,'Org2.admin') )")),
    )


def chaincodes(c):
    """`zz` has no definition."""
    c.block(
        [25, 25, 25, 0, 22, 25],
        c.wide(named="zz", nonce="nowhere"),
        c.wide(within("cc", write("x")), within("zz", write("x"))),
        c.wide(within("zz", policy("x"))),
        c.wide(within("zz", absent("x"), whole("", ""))),
        c.wide(within("zz", write("x"), write("x"))),
        c.wide(within("zz", delete("x"))),
    )


def endorsers(c):
    c.block(
        [9, 10, 10, 10, 0, 10],
        c.tx(write("x"), nonce="nowhere"),
        c.tx(write("v1"), by=()),
        c.tx(write("v1"), by=[P0 + "!"]),
        c.tx(write("v1"), by=["Org1:client:p0"]),
        c.tx(write("v1"), by=[Q0]),
        c.tx(write("v1"), by=["Org3:peer:p0"]),
    )
    pair, chief = within("pair", write("x")), within("chief", write("x"))
    c.block(
        [10, 0, 0, 10, 10, 0],
        c.wide(pair, named="pair", by=[P0, P0]),
        c.wide(pair, named="pair", by=[P0, P1]),
        c.wide(pair, named="pair", by=[P0 + "!", P0, P1]),
        c.wide(pair, named="pair", by=[P0, ADMIN]),
        c.wide(chief, named="chief", by=[ADMIN, P0]),
        c.wide(chief, named="chief", by=[P0, ADMIN]),
    )
    greedy, nested = within("greedy", write("x")), within("nested", write("x"))
    c.block(
        [0, 10, 0, 0, 10, 10],
        c.wide(within("either", write("x")), named="either"),
        c.wide(greedy, named="greedy", by=[P0, P1]),
        c.wide(greedy, named="greedy", by=[P0, P1, P2]),
        c.wide(nested, named="nested", by=[P0, P1]),
        c.wide(nested, named="nested", by=[P0]),
        c.wide(nested, named="nested", by=[P0, Q0]),
    )


def named_chaincode(c):
    c.block(
        [10, 0, 10, 10, 0, 0],
        c.tx(write("w1"), named="both"),
        c.tx(write("w1"), named="both", by=[P0, Q0]),
        c.wide(within("both", absent("x")), within("cc", write("w1")), named="both"),
        c.wide(by=()),
        c.wide(),
        c.wide(within("cc", write("w2")), within("both", absent("x"))),
    )
    two = [within("cc", write("t")), within("both", write("t"))]
    c.block(
        [10, 0, 0, 10],
        c.wide(*two),
        c.wide(*two, by=[P0, Q0]),
        c.wide(within("dd", write("t")), within("cc", read("t", 13, 1)), named="dd", by=[CLIENT]),
        c.wide(within("dd", write("t")), within("cc", write("t")), named="dd", by=[CLIENT]),
    )


def key_policies(c):
    c.block(
        [0, 10, 0, 10, 0, 10],
        c.tx(policy("k1")),
        c.tx(write("k1"), by=[P0, Q0]),
        c.tx(nopolicy("k2")),
        c.tx(write("k2")),
        c.tx(policy("j")),
        c.tx(write("j")),
    )
    c.block(
        [0, 11, 10, 0, 11, 0],
        c.tx(read("k1", 14, 0), absent("j")),
        c.tx(read("k1", 1, 0)),
        c.tx(write("k1")),
        c.tx(write("k1", "both"), by=[Q0, P0]),
        c.tx(read("k1", 14, 0)),
        c.tx(read("k1", 15, 3)),
    )
    c.block(
        [11, 10, 22, 0, 10, 0],
        c.tx(policy("k3"), read("k1", 0, 0)),
        c.tx(write("k3")),
        c.wide(within("cc", policy("k4")), within("cc")),
        c.tx(write("k4", "untouched")),
        c.tx(policy("k5"), by=()),
        c.tx(write("k5", "untouched")),
    )
    c.block(
        [10, 0, 10, 0, 12, 10],
        c.tx(nopolicy("k1")),
        c.tx(nopolicy("k1"), by=[P0, Q0]),
        c.tx(write("k1"), by=[P0, Q0]),
        c.tx(write("k2", "guarded"), policy("k2", "'Org1.admin'")),
        c.tx(policy("k6"), whole("a", "b")),
        c.tx(policy("k6")),
    )
    c.block(
        [0, 10, 10, 0, 10, 10],
        c.tx(write("k1", "free")),
        c.tx(write("k2")),
        c.tx(delete("k2")),
        c.tx(write("k2", "by admin"), by=[ADMIN]),
        c.tx(nopolicy("k2")),
        c.tx(write("k2"), write("k5"), by=[ADMIN]),
    )


def deletes(c):
    c.block(
        [0, 0, 0, 0, 10, 11],
        c.tx(delete("k3")),
        c.tx(absent("k3")),
        c.tx(policy("k3")),
        c.tx(absent("k3")),
        c.tx(write("k3")),
        c.tx(read("k3", 0, 0)),
    )
    c.block(
        [0, 10, 0, 0, 0, 11],
        c.tx(delete("k4"), policy("k4")),
        c.tx(write("k4")),
        c.tx(delete("k5")),
        c.tx(write("k5", "back")),
        c.tx(read("k5", 20, 3)),
        c.tx(absent("k5")),
    )
    c.block(
        [0, 0, 10, 0, 10, 0],
        c.tx(write("k4", "back")),
        c.tx(delete("k2"), by=[ADMIN]),
        c.tx(write("k2")),
        c.tx(write("k2", "back"), by=[ADMIN]),
        c.tx(write("k2")),
        c.tx(delete("never")),
    )


def reads(c):
    c.block(
        [0, 0, 0, 10, 11, 11],
        c.tx(write("k2", "free")),
        c.tx(write("n1")),
        c.tx(read("n1", 22, 1)),
        c.tx(write("n2"), by=()),
        c.tx(read("n2", 22, 3)),
        c.tx(absent("n1")),
    )
    c.block(
        [11, 11, 0, 11, 11, 0],
        c.tx(absent("k1")),
        c.tx(read("j", 0, 0)),
        c.tx(read("k1", 18, 0), write("k1", "read and written")),
        c.tx(read("k1", 18, 0)),
        c.tx(read("k1", 23, 2), read("k2", 21, 3)),
        c.wide(within("dd", absent("k1"))),
    )


def ranges(c):
    """`a` and `c` are at (0, 1)."""
    c.block(
        [0, 12, 0, 0, 0, 12],
        c.tx(write("b")),
        c.tx(whole("a", "d", ("a", 0, 1), ("c", 0, 1)), nonce="phantom"),
        c.tx(part("a", "d", ("a", 0, 1))),
        c.tx(whole("a", "d", ("a", 0, 1), ("b", 24, 0), ("c", 0, 1))),
        c.tx(delete("c")),
        c.tx(whole("a", "d", ("a", 0, 1), ("b", 24, 0), ("c", 0, 1))),
    )
    c.block(
        [0, 12, 0, 0, 10, 0],
        c.tx(write("a", "again")),
        c.tx(whole("a", "d", ("a", 0, 1), ("b", 24, 0))),
        c.tx(part("a", "d")),
        c.tx(part("a", "d", ("a", 25, 0), ("b", 24, 0))),
        c.tx(write("cc"), by=()),
        c.tx(whole("a", "d", ("a", 25, 0), ("b", 24, 0))),
    )
    c.block(
        [0, 0, 12, 0, 12, 0],
        c.tx(write("cc")),
        c.tx(part("a", "d", ("a", 25, 0), ("b", 24, 0))),
        c.tx(part("a", "d", ("a", 25, 0), ("cc", 26, 0))),
        c.tx(delete("b")),
        c.tx(part("a", "d", ("a", 25, 0), ("b", 24, 0))),
        c.tx(policy("a", "OutOf(02,'Org1.peer','Org2.peer','Org3.peer')")),
    )
    good = whole("a", "d", ("a", 26, 5), ("cc", 26, 0))
    phantom, stale = whole("a", "d", ("a", 26, 5)), absent("k1")
    c.block(
        [12, 0, 12, 11, 11, 12],
        c.tx(whole("a", "d", ("a", 25, 0), ("cc", 26, 0))),
        c.tx(good),
        c.wide(within("cc", phantom), within("dd", absent("same"))),
        c.tx(phantom, stale),
        c.wide(within("dd", absent("same")), within("cc", phantom)),
        c.tx(good, phantom),
    )


def ends(c):
    """No transactions; used ids; the most endorsements; keys that begin alike; policies kept and removed."""
    c.block([])
    many = c.draft(by=[f"Org3:peer:{n}!" for n in range(63)] + [P0])
    none = c.wide(by=())
    one = b"\x04Org1\x02\x02p0\0\2ok"
    c.block(
        [9, 9, 0, 2],
        c.tx(write("x"), nonce="stale"),
        c.tx(write("x"), nonce="phantom"),
        spelled_tx(many),
        none[:-5] + u8(65) + one * 65 + b"\0\2ok",
    )
    c.block(
        [0, 0, 0, 22, 0],
        c.tx(write("p", ""), write("pa", b"\0\xff"), write(b"p\0", "'\"\\")),
        c.tx(whole("p", "pb", ("p", 30, 0), (b"p\0", 30, 0), ("pa", 30, 0))),
        c.tx(whole(b"p\0", "pa", (b"p\0", 30, 0))),
        c.tx(whole("p", "pb", ("p", 30, 0), ("pa", 30, 0), (b"p\0", 30, 0))),
        c.wide(within("dd", whole("", "", ("same", 7, 3), ("t", 13, 2)))),
    )
    c.block(
        [0, 0, 10],
        c.tx(write("spaced", "plain"), nopolicy("spaced"), by=[P0, "Org2:admin:z"]),
        c.tx(write("once", "more"), by=["Org2:orderer:o"]),
        c.tx(write("once")),
    )


def story():
    c = Chain()
    for chapter in (
        begin,
        origins,
        forms,
        chaincodes,
        endorsers,
        named_chaincode,
        key_policies,
        deletes,
        reads,
        ranges,
        ends,
    ):
        chapter(c)
    return c.world
