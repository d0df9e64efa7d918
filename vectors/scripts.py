"""Draft scripts, read line by line, and the block that one drafts: written from docs/format.md, and not from the crates."""

import hmac
import re
from hashlib import sha256

from encoding import (
    LONGEST,
    NAME_BYTES,
    ROLES,
    Namespace,
    Tx,
    Update,
    data_hash,
    header_hash,
    read_block,
    short,
    spelled_block,
    spelled_body,
    spelled_signed,
    spelled_tx,
    tx_id,
    u8,
)

MOST_LISTED, MOST_TXS, MOST_ENDORSERS = 65535, 4096, 64


class Faulty(Exception):
    """The number of the first faulty line."""


def lines_of(octets):
    """Numbers and trimmed texts of the lines that say something."""
    try:
        text = octets.decode()
    except UnicodeDecodeError as fault:
        raise Faulty(octets[: fault.start].count(b"\n") + 1)
    ended = re.sub("\r\n", "\n", text).split("\n")
    for number, line in enumerate(ended, 1):
        line = line.strip(" ")
        if line and not line.startswith("#"):
            yield number, line


def test(holds):
    if not holds:
        raise ValueError


def apart(line):
    """The first part, and what follows the spaces behind it."""
    first, _, rest = line.partition(" ")
    return first, rest.lstrip(" ")


def word_bytes(word):
    if word == "%":
        return b""
    test(re.fullmatch(r"(?:[!-$&-~]|%[0-9A-Fa-f]{2})+", word))
    return re.sub(rb"%(..)", lambda found: bytes.fromhex(found[1].decode()), word.encode())


def name_bytes(text):
    name = text.encode()
    test(1 <= len(name) <= 64 and set(name) <= NAME_BYTES)
    return name


def bound_bytes(word):
    bound = word_bytes(word)
    test(len(bound) <= 1024)
    return bound


def key_bytes(word):
    test(word != "%")
    return bound_bytes(word)


def text_bytes(text):
    """A policy's text."""
    octets = text.encode()
    test(1 <= len(octets) <= MOST_LISTED)
    return octets


def identity_bytes(text):
    parts = text.split(":", 2)
    test(len(parts) == 3 and parts[1] in ROLES)
    label = word_bytes(parts[2])
    test(len(label) <= 255)
    return short(name_bytes(parts[0])) + u8(ROLES.index(parts[1])) + short(label)


def version_of(text):
    numbers = [apart(text)[0], apart(text)[1]]
    test(all(re.fullmatch("[0-9]{1,20}", number) for number in numbers))
    block, tx = (int(number) for number in numbers)
    test(block < 1 << 64 and tx < 1 << 32)
    return block, tx


def keys_of(book):
    """The keys of a key book's text, by the identity's bytes."""
    parts = (apart(line) for _, line in lines_of(book))
    return {identity_bytes(who): bytes.fromhex(key) for who, key in parts}


def accepts(keys, identity, message, signature):
    """The verifier over these keys."""
    return identity in keys and signature == hmac.digest(keys[identity], message, sha256)


class Drafting:
    """The transactions and updates so far, and the one that is open with the line where it began."""

    def __init__(self, channel, keys, version):
        self.channel, self.keys, self.txs, self.open = channel, keys, [], None
        self.openings = ("tx", "raw", "update") if version == 2 else ("tx", "raw")

    def end(self):
        if self.open:
            line, tx, endorsers = self.open
            spelled = self.signed(tx, endorsers)
            if spelled is None:
                raise Faulty(line)
            self.txs.append(spelled)
            self.open = None

    def sign(self, who, message):
        return hmac.digest(self.keys[who], message, sha256)

    def signed(self, tx, endorsers):
        """The whole transaction or update, unless it or a part of it is too long."""
        body = spelled_body(tx)
        tx.endorsements = [(who, self.sign(who, body + who)) for who in endorsers]
        signed = spelled_signed(tx)
        tx.signature = self.sign(tx.creator, signed)
        return spelled_tx(tx) if len(spelled_tx(tx)) <= LONGEST else None

    def listed(self, entries, entry):
        test(len(entries) < MOST_LISTED)
        entries.append(entry)

    def add(self, kind, entry):
        self.listed(getattr(self.open[1].namespaces[-1], kind), entry)

    def say(self, number, line):
        first, rest = apart(line)
        if first in self.openings:
            self.end()
        test(hasattr(self, "say_" + first) and (first != "update" or first in self.openings))
        try:
            getattr(self, "say_" + first)(number, rest)
        except (AttributeError, TypeError, IndexError):
            raise ValueError("nothing is open for it")

    def begin(self, number, who, nonce, name, make):
        """A transaction or an update, which is made of what both begin with and the chaincode's name."""
        creator, nonce = identity_bytes(who), word_bytes(nonce)
        test(creator in self.keys and len(nonce) <= 255 and len(self.txs) < MOST_TXS)
        self.open = number, make(self.channel, tx_id(nonce, creator), creator, nonce, name_bytes(name)), []

    def say_tx(self, number, rest):
        who, rest = apart(rest)
        nonce, name = apart(rest)
        self.begin(number, who, nonce, name, lambda *opening: Tx(*opening, [], []))

    def say_update(self, number, rest):
        who, rest = apart(rest)
        nonce, rest = apart(rest)
        name, text = apart(rest)
        policy = text_bytes(text)
        self.begin(number, who, nonce, name, lambda *opening: Update(*opening, policy, []))

    def say_raw(self, _, rest):
        test(re.fullmatch("(?:[0-9A-Fa-f]{2})*", rest) and len(rest) <= 2 * LONGEST and len(self.txs) < MOST_TXS)
        self.txs.append(bytes.fromhex(rest))

    def say_ns(self, _, rest):
        self.listed(self.open[1].namespaces, Namespace(name_bytes(rest)))

    def say_endorse(self, _, rest):
        who = identity_bytes(rest)
        test(who in self.keys and len(self.open[2]) < MOST_ENDORSERS)
        self.open[2].append(who)

    def say_read(self, _, rest):
        key, rest = apart(rest)
        self.add("reads", (key_bytes(key), None if rest == "absent" else version_of(rest)))

    def say_range(self, _, rest):
        start, rest = apart(rest)
        end, rest = apart(rest)
        test(rest in ("all", "part"))
        self.add("ranges", (bound_bytes(start), bound_bytes(end), rest == "all", []))

    def say_result(self, _, rest):
        key, rest = apart(rest)
        self.listed(self.open[1].namespaces[-1].ranges[-1][3], (key_bytes(key), version_of(rest)))

    def say_write(self, _, rest):
        key, value = apart(rest)
        self.add("writes", (key_bytes(key), word_bytes(value)))

    def say_delete(self, _, rest):
        self.add("writes", (key_bytes(rest), None))

    def say_policy(self, _, rest):
        key, text = apart(rest)
        self.add("policies", (key_bytes(key), text_bytes(text)))

    def say_nopolicy(self, _, rest):
        self.add("policies", (key_bytes(rest), None))


def txs_of(channel, keys, script, version=1):
    drafting = Drafting(channel, keys, version)
    for number, line in lines_of(script):
        try:
            drafting.say(number, line)
        except ValueError:
            raise Faulty(number)
    drafting.end()
    return drafting.txs


def drafted(channel, keys, before, script, version=1):
    """The bytes of the block of this version behind the one with the bytes `before`, or of block 0 where that is `None`."""
    number, previous = 0, b""
    if before is not None:
        number_before, *hashes, _ = read_block(before)
        number, previous = number_before + 1, header_hash(number_before, *hashes)
    txs = txs_of(channel, keys, script, version)
    return spelled_block(number, previous, data_hash(txs), txs, version)
