"""The plain line that a JSON object of `fabcommit --json` stands for, read as `docs/format.md` says."""

import json

from words import word


def once(pairs):
    """An object whose names differ, and in which `kind` stands first, unless it stands inside another."""
    members = dict(pairs)
    assert len(members) == len(pairs), pairs
    assert "kind" not in members or pairs[0][0] == "kind", pairs
    return members


def octets_of(value):
    """A string's bytes are UTF-8, and the digits' aren't."""
    if isinstance(value, str):
        return value.encode()
    octets = bytes.fromhex(value["hex"])
    assert list(value) == ["hex"] and octets.hex() == value["hex"], value
    try:
        octets.decode()
    except UnicodeDecodeError:
        return octets
    raise AssertionError(value)


def spelled(value):
    return word(octets_of(value))


def written(value):
    octets = value if value is None else octets_of(value)
    return "deleted" if octets is None else "%64eleted" if octets == b"deleted" else word(octets)


def version(value):
    return "absent" if value is None else f"{value.pop('block')} {value.pop('tx')}{''.join(value)}"


def identity(value):
    org, role, label = value.pop("org"), value.pop("role"), value.pop("label")
    assert not value
    return f"{spelled(org)}:{role}:{spelled(label)}"


def flagged(members):
    return f"{members.pop('flag')} {members.pop('name')}"


def placed(members):
    return f"{members.pop('block')} {members.pop('tx')}"


def key(members):
    return f"{spelled(members.pop('namespace'))} {spelled(members.pop('key'))}"


def bounds(members):
    start, end = members.pop("start"), members.pop("end")
    return f"{spelled(members.pop('namespace'))} {spelled(start)} {spelled(end)} key {spelled(members.pop('key'))}"


def conflict(members):
    return f"was {version(members.pop('was'))} is {version(members.pop('is'))}"


def by(members):
    return [f"by {members.pop('by')}"] if "by" in members else []


def lack(members):
    yield members.pop("policy")
    yield from map(identity, members.pop("signers"))
    if "refused" in members:
        yield from ("refused", *map(identity, members.pop("refused")))
    if "missing" in members:
        yield f"missing {members.pop('missing')}"
    if "order" in members:
        assert members.pop("order") is True
        yield "order"


def repeated(members):
    if "list" not in members:
        return [spelled(members.pop("namespace"))]
    return [spelled(members.pop("namespace")), members.pop("list"), spelled(members.pop("key"))]


def used(members):
    first = members.pop("used")
    told = f"{placed(first)} {flagged(first)}"
    assert not first
    return [told]


def touched(members):
    return [key(members), str(members.pop("by"))]


def found(members):
    return [bounds(members), f"range {members.pop('range')} result {members.pop('result')}"]


def policy(members):
    """Of an update, or of a key."""
    return ([key(members)] if "key" in members else []) + [members.pop("fault")]


REASONS = {
    "creator": lambda members: [identity(members.pop("creator"))],
    "not-alone": lambda members: [],
    "no-admin-policy": lambda members: [],
    "undefined": lambda members: [spelled(members.pop("chaincode"))],
    "policy": policy,
    "admin": lack,
    "wanted": lambda members: [spelled(members.pop("wanted"))],
    "used": used,
    "touched": touched,
    "key": lambda members: [key(members), *lack(members)],
    "chaincode": lambda members: [key(members), *lack(members)],
    "named": lambda members: [spelled(members.pop("chaincode")), *lack(members)],
    "read": lambda members: [key(members), conflict(members), *by(members)],
    "range": lambda members: [bounds(members), conflict(members), members.pop("extent"), *by(members)],
    "channel": lambda members: [spelled(members.pop("channel"))],
    "repeated": repeated,
    "fallen": found,
    "outside": found,
}


def reason(members):
    yield f"{members.pop('tx')} {flagged(members)}"
    if "reason" in members:
        said = members.pop("reason")
        yield from (said, *REASONS[said](members))
    if "id" in members:
        yield f"id {spelled(members.pop('id'))}"


def refused(members):
    yield f"refused {members.pop('place')} {members.pop('fault')}"
    if "want" in members:
        yield f"want {members.pop('want')} got {members.pop('got')}"


def accepted(members):
    return ["accepted", numbered(members), *map(str, members.pop("flags"))]


def numbered(members):
    return f"{members.pop('number')} {members.pop('hash')}"


def known(members):
    return ["known", str(members.pop("number")), members.pop("as"), members.pop("accepted"), "is", members.pop("own")]


def row(members):
    told = members.pop("policy")
    return ["row", spelled(members.pop("key")), placed(members), spelled(members.pop("value")), "-" if told is None else told]


def counts(members):
    ways = [(name, members.pop(name.replace("-", "_"))) for name in ("stale", "phantom", "policy", "touched", "in-block")]
    return ["key", key(members), str(members.pop("count")), *(f"{name} {count}" for name, count in ways)]


def chaincode(members):
    name, count = spelled(members.pop("chaincode")), members.pop("count")
    return [f"chaincode {name} {count} missing {spelled(members.pop('missing'))} {members.pop('times')}"]


KINDS = {
    "accepted": accepted,
    "commit": lambda members: ["commit", numbered(members)],
    "block": lambda members: ["block", numbered(members)],
    "refused": refused,
    "known": known,
    "reader": lambda members: [f"reader {members.pop('reader')} height {members.pop('height')}"],
    "height": lambda members: [f"height {members.pop('height')}"],
    "row": row,
    "absent": lambda members: ["absent"],
    "more": lambda members: ["more"],
    "entry": lambda members: ["entry", placed(members), spelled(members.pop("id")), written(members.pop("value"))],
    "definition": lambda members: ["definition", members.pop("policy")],
    "reason": reason,
    "earlier": lambda members: ["earlier", placed(members), flagged(members)],
    "flag": lambda members: ["flag", flagged(members), str(members.pop("count"))],
    "key": counts,
    "chaincode": chaincode,
}


def line_of(text):
    """Each member has to be told."""
    members = json.loads(text, object_pairs_hook=once)
    parts = list(KINDS[members.pop("kind")](members))
    assert not members, text
    return " ".join(parts)
