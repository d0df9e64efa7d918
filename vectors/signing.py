"""Signatures of the stand-in verifier: HMAC-SHA-256 under an identity's key."""

import hmac
from hashlib import sha256

from encoding import identity, spelled_body, spelled_signed


class Keys:
    """The keys of a key book's text, by `ORG:ROLE:LABEL`."""

    def __init__(self, text):
        lines = [line.split() for line in text.splitlines() if line and not line.startswith("#")]
        self.keys = {who: bytes.fromhex(key) for who, key in lines}

    def sign(self, who, message):
        return hmac.digest(self.keys[who], message, sha256)

    def endorse(self, tx, endorsers):
        """Each endorser signs the body and its identity's bytes."""
        body = spelled_body(tx)
        tx.endorsements = [(identity(who), self.sign(who, body + identity(who))) for who in endorsers]

    def sign_whole(self, tx, signer):
        """The creator signs the body and the endorsements."""
        tx.signature = self.sign(signer, spelled_signed(tx))
