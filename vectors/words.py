"""How transactions are told to a reader: keys and values as words, in which `%` and two digits stand for a byte."""

from encoding import NoSpelling, ROLES, read_tx


def word(octets):
    """Printable bytes for themselves."""
    chars = (chr(octet) if 33 <= octet <= 126 and octet != ord("%") else f"%{octet:02X}" for octet in octets)
    return "".join(chars) or "%"


def named(namespace, key):
    return f"{word(namespace)}/{word(key)}"


def at(version):
    return "absent" if version is None else f"at ({version[0]},{version[1]})"


def bounds(start, end):
    return f"{word(start)} to {word(end) if end else 'the end'}"


def known_as(spelled):
    """`ORG:ROLE:LABEL` of an identity's bytes."""
    length = spelled[0]
    org, role, label = spelled[1 : 1 + length], spelled[1 + length], spelled[3 + length :]
    return f"{word(org)}:{ROLES[role]}:{word(label)}"


def entries_of(ns):
    for key, version in ns.reads:
        yield f"reads {named(ns.name, key)} {at(version)}"
    for start, end, exhausted, results in ns.ranges:
        found = ", ".join(f"{word(key)} {at(version)}" for key, version in results) or "nothing"
        yield f"reads {word(ns.name)} {bounds(start, end)}{'' if exhausted else ' in part'}: {found}"
    for key, value in ns.writes:
        yield f"deletes {named(ns.name, key)}" if value is None else f"writes {named(ns.name, key)} = {word(value)}"
    for key, text in ns.policies:
        if text is None:
            yield f"removes the policy of {named(ns.name, key)}"
        else:
            yield f"writes the policy {word(text)} of {named(ns.name, key)}"


def told(octets):
    """What a transaction reads and writes, and who endorsed it with a good signature (`!` behind the name: a bad one)."""
    try:
        tx = read_tx(octets)
    except NoSpelling:
        return f"{len(octets)} bytes"
    entries = [entry for ns in tx.namespaces for entry in entries_of(ns)] or ["reads and writes nothing"]
    if tx.chaincode not in [ns.name for ns in tx.namespaces]:
        entries.append(f"names {word(tx.chaincode)}")
    endorsers = [known_as(who) + ("" if signature == b"ok" else "!") for who, signature in tx.endorsements]
    if len(endorsers) > 4:
        endorsers[1:-1] = [f"{len(endorsers) - 2} more"]
    return f"{'; '.join(entries)}; endorsed by {', '.join(endorsers) or 'nobody'}"
