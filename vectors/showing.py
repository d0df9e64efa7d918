"""What `show` prints of a block: written from docs/cli.md, and not from the crates."""

from answers import FAULTS
from encoding import (
    NoSpelling,
    Refused,
    Update,
    data_hash,
    header_hash,
    read_block,
    read_item,
    spelled_body,
    spelled_signed,
    tx_id,
    version_of_block,
)
from scripts import Faulty, accepts, txs_of
from words import known_as, word


def text_or_word(text):
    """A policy's text as it is, where a line can end with it and all of it is printable ASCII."""
    if text and text.strip(b" ") == text and all(32 <= octet <= 126 for octet in text):
        return text.decode()
    return word(text)


def found(version):
    return f"{version[0]} {version[1]}"


def namespace_lines(ns):
    yield f"ns {word(ns.name)}"
    for key, version in ns.reads:
        yield f"read {word(key)} {'absent' if version is None else found(version)}"
    for start, end, exhausted, results in ns.ranges:
        yield f"range {word(start)} {word(end)} {'all' if exhausted else 'part'}"
        for key, version in results:
            yield f"result {word(key)} {found(version)}"
    for key, value in ns.writes:
        yield f"delete {word(key)}" if value is None else f"write {word(key)} {word(value)}"
    for key, text in ns.policies:
        yield f"nopolicy {word(key)}" if text is None else f"policy {word(key)} {text_or_word(text)}"


def item_lines(item):
    begins = f"{known_as(item.creator)} {word(item.nonce)}"
    if isinstance(item, Update):
        yield f"update {begins} {word(item.namespace)} {text_or_word(item.policy)}"
    else:
        yield f"tx {begins} {word(item.chaincode)}"
        for ns in item.namespaces:
            yield from namespace_lines(ns)
    for endorser, _ in item.endorsements:
        yield f"endorse {known_as(endorser)}"


def texts_of(item):
    if isinstance(item, Update):
        return [item.policy]
    return [text for ns in item.namespaces for _, text in ns.policies if text is not None]


def unsigned(keys, who, identity, message, signature):
    if not accepts(keys, identity, message, signature):
        why = "has another signature than by the key book" if identity in keys else "isn't in the key book"
        yield f"# raw, for the {who} {known_as(identity)} {why}"


def raw_reasons(channel, keys, item):
    if item.channel != channel:
        yield f"# raw, for it is of channel {word(item.channel)}"
    own = tx_id(item.nonce, item.creator)
    if item.id != own:
        yield f"# raw, for its nonce and creator give the id {own.decode()}"
    for text in texts_of(item):
        if text_or_word(text) != text.decode("latin-1"):
            yield f"# raw, for no line ends with the policy's text {word(text)}"
    for endorser, signature in item.endorsements:
        yield from unsigned(keys, "endorser", endorser, spelled_body(item) + endorser, signature)
    yield from unsigned(keys, "creator", item.creator, spelled_signed(item), item.signature)


def are_said(channel, keys, lines, version, octets):
    try:
        return txs_of(channel, keys, "\n".join(lines).encode(), version) == [octets]
    except Faulty:
        return False


def place_lines(signing, place, version, octets):
    raw = f"raw {octets.hex()}".rstrip()
    yield ""
    try:
        item = read_item(version, octets)
    except NoSpelling:
        yield f"# {place} no transaction"
        yield raw
        return
    lines = list(item_lines(item))
    yield f"# {place} {'update' if isinstance(item, Update) else 'transaction'}, id {word(item.id)}"
    if signing and are_said(*signing, lines, version, octets):
        yield from lines
        return
    yield from (f"#   {line}" for line in lines)
    if signing:
        yield from raw_reasons(*signing, item)
    yield raw


def block_lines(signing, before, octets):
    """The lines of a block, where `signing` has the channel's name and the keys, or is none, and `before` what the block before it
    has, if that is known."""
    number, previous, hash_of_data, txs = read_block(octets)
    version = version_of_block(octets)
    yield f"# block {number} of version {version}, transactions: {len(txs)}"
    yield f"# header hash {header_hash(number, previous, hash_of_data).hex()}"
    there = header_hash(*before[:3]) if before else previous
    known = ", that of the block before" if there == previous else f", but the block before has {there.hex()}"
    yield f"# previous hash {previous.hex()}{known if before else ''}" if previous else "# previous hash none"
    own = data_hash(txs)
    known = ", that of its transactions" if own == hash_of_data else f", but its transactions have {own.hex()}"
    yield f"# data hash {hash_of_data.hex()}{known}"
    for place, tx in enumerate(txs):
        yield from place_lines(signing, place, version, tx)


def fault_place(octets):
    """The first byte of what can't be read of bytes that are no block."""
    if octets[:4] not in (b"FBK1", b"FBK2"):
        return 0
    place = 4
    if len(octets) < 12:
        return place
    place = 12
    if octets[12:13] not in (b"\0", b"\x20"):
        return place
    place = 13
    for length in [32] * (octets[12] // 32) + [32]:
        if len(octets) < place + length:
            return place
        place += length
    if len(octets) < place + 4 or int.from_bytes(octets[place : place + 4], "big") > 4096:
        return place
    count, place = int.from_bytes(octets[place : place + 4], "big"), place + 4
    for _ in range(count):
        length = int.from_bytes(octets[place : place + 4], "big")
        if len(octets) < place + 4 or length > 1048576:
            return place
        if len(octets) < place + 4 + length:
            return place + 4
        place += 4 + length
    return place


def shown(signing, blocks):
    """What `show` prints of these files, and its status."""
    parts, before, status = [], None, 0
    for place, octets in enumerate(blocks, 1):
        try:
            block = read_block(octets)
        except Refused as fault:
            lines, block, status = [f"# refused {place} {FAULTS[str(fault)]} at byte {fault_place(octets)}"], None, 1
        else:
            lines = block_lines(signing, before, octets)
        parts.append("".join(f"{line}\n" for line in lines))
        before = block
    return "\n".join(parts), status
