"""The stand-in keys of a key book, for callers that check signatures as the library does: by HMAC-SHA-256."""
import hashlib
import hmac
import re

from fabcommit import Identity, Role


def word_bytes(word):
    """What a word spells: %XX is a byte, % alone no bytes."""
    return b"" if word == b"%" else re.sub(rb"%([0-9A-Fa-f]{2})", lambda found: bytes.fromhex(found[1].decode()), word)


def keys_in(text):
    """The keys of a text by their identities."""
    keys = {}
    for line in text.split(b"\n"):
        words = line.split()
        if words and not words[0].startswith(b"#"):
            org, role, label = words[0].split(b":", 2)
            keys[Identity(org, Role[role.decode().upper()], word_bytes(label))] = bytes.fromhex(words[1].decode())
    return keys


def verifier(keys):
    def verify(request):
        key = keys.get(request.identity)
        return key is not None and hmac.compare_digest(hmac.digest(key, request.message, hashlib.sha256), request.signature)

    return verify
