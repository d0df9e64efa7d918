#!/usr/bin/env python3
"""ecdsa.py [COUNT]: a block whose signatures are ECDSA's, by the certificates of three organizations, and its flags.

Each organization has a root certificate, a client and a peer. COUNT transactions (8) write a key each, endorsed by two peers. The
peers' signatures of the last but one are spoiled, and the creator's of the last. The signatures are checked on several threads.
"""
import datetime
import itertools
import sys
from concurrent.futures import ThreadPoolExecutor
from pathlib import Path

CLIENTS = Path(__file__).resolve().parent.parent
sys.path += [str(CLIENTS), str(CLIENTS.parent.parent / "vectors")]

try:
    from cryptography import x509
    from cryptography.exceptions import InvalidSignature
    from cryptography.hazmat.primitives import hashes
    from cryptography.hazmat.primitives.asymmetric import ec
    from cryptography.x509.oid import NameOID
except ImportError:
    print("ecdsa.py: the package `cryptography` isn't installed")
    sys.exit(0)

import encoding
from fabcommit import Identity, Ledger, Listing, Role

ORGANIZATIONS = ("Org0", "Org1", "Org2")
CHANNEL = "channel made\nchaincode cc OutOf(2,'Org0.peer','Org1.peer','Org2.peer')\n"
ECDSA = ec.ECDSA(hashes.SHA256())
SERIALS = itertools.count(1)


def certify(name, root=None):
    """A certificate and its key; without a root's it signs itself."""
    key, now = ec.generate_private_key(ec.SECP256R1()), datetime.datetime.now(datetime.timezone.utc)
    subject = x509.Name([x509.NameAttribute(NameOID.COMMON_NAME, name)])
    issuer, issuer_key = (root[0].subject, root[1]) if root else (subject, key)
    made = x509.CertificateBuilder().subject_name(subject).issuer_name(issuer).public_key(key.public_key()).serial_number(next(SERIALS))
    made = made.not_valid_before(now - datetime.timedelta(hours=1)).not_valid_after(now + datetime.timedelta(hours=1))
    made = made.add_extension(x509.BasicConstraints(ca=root is None, path_length=None), critical=True)
    return made.sign(issuer_key, hashes.SHA256()), key


def check_issued(certificate, root):
    """Raises InvalidSignature unless the root signed it."""
    root.public_key().verify(certificate.signature, certificate.tbs_certificate_bytes, ECDSA)


class Network:
    """The members' certificates and keys, by their identities. A member counts if its organization's root signed for it."""

    def __init__(self):
        self.certificates, self.keys = {}, {}
        for org in ORGANIZATIONS:
            root = certify(org)
            for role in (Role.CLIENT, Role.PEER):
                identity = Identity(org.encode(), role, b"0")
                certificate, key = certify(f"{org} {role.name.lower()}", root)
                check_issued(certificate, root[0])
                self.certificates[identity], self.keys[self.spelled(identity)] = certificate, key

    @staticmethod
    def spelled(identity):
        return encoding.short(identity.org) + encoding.u8(identity.role) + encoding.short(identity.label)

    def sign(self, spelled, message):
        return self.keys[spelled].sign(message, ECDSA)

    def verify(self, request):
        certificate = self.certificates.get(request.identity)
        try:
            if certificate:
                certificate.public_key().verify(request.signature, request.message, ECDSA)
            return certificate is not None
        except InvalidSignature:
            return False

    def transaction(self, place, spoiled=None):
        """One that writes a key."""
        org = lambda at: ORGANIZATIONS[at % len(ORGANIZATIONS)].encode()
        creator, nonce = self.spelled(Identity(org(place), Role.CLIENT, b"0")), f"nonce{place}".encode()
        written = encoding.Namespace(b"cc", writes=[(f"key{place}".encode(), b"value")])
        tx = encoding.Tx(b"made", encoding.tx_id(nonce, creator), creator, nonce, b"cc", [written], [])
        peers = [self.spelled(Identity(org(place + other), Role.PEER, b"0")) for other in range(2)]
        body = encoding.spelled_body(tx) + (b"!" if spoiled == Role.PEER else b"")
        tx.endorsements = [(peer, self.sign(peer, body + peer)) for peer in peers]
        tx.signature = self.sign(creator, encoding.spelled_signed(tx) + (b"!" if spoiled == Role.CLIENT else b""))
        return encoding.spelled_tx(tx)

    def block(self, count):
        txs = [self.transaction(place, {count - 2: Role.PEER, count - 1: Role.CLIENT}.get(place)) for place in range(count)]
        return encoding.spelled_block(0, b"", encoding.data_hash(txs), txs)


def main(count=8):
    network = Network()
    listing = Listing(network.block(int(count)))
    with ThreadPoolExecutor() as threads, Ledger(CHANNEL) as ledger:
        receipt = ledger.submit_by(listing.answer(threads.map(network.verify, listing.requests)))
        print("block", receipt.number, *map(int, ledger.flags(receipt.number)))


if __name__ == "__main__":
    main(*sys.argv[1:])
