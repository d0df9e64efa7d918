"""A block 0 whose transactions are signed over this and that, with the line that the program is to print.

The keys are those of the sample's key book.
"""

from encoding import (
    Namespace,
    Tx,
    data_hash,
    header_hash,
    identity,
    spelled_block,
    spelled_body,
    spelled_signed,
    spelled_tx,
    tx_id,
)
from rust import rust_file, rust_string
from signing import Keys

CLIENT, PEER, OTHER = "Org1:client:c0", "Org1:peer:p0", "Org2:peer:p0"


def unsigned(nonce):
    creator = identity(CLIENT)
    return Tx(b"ch", tx_id(nonce, creator), creator, nonce, b"cc", [Namespace(b"cc", writes=[(nonce, b"v")])], [])


def creator_signs(keys, nonce, message_of):
    tx = unsigned(nonce)
    keys.endorse(tx, [PEER])
    tx.signature = keys.sign(CLIENT, message_of(tx))
    return spelled_tx(tx)


def peer_signs(keys, nonce, message_of):
    tx = unsigned(nonce)
    tx.endorsements = [(identity(PEER), keys.sign(PEER, message_of(tx)))]
    keys.sign_whole(tx, CLIENT)
    return spelled_tx(tx)


def rows(keys):
    """Transactions with their flags."""
    # body and endorsements, as it has to be
    yield creator_signs(keys, b"whole", spelled_signed), 0
    yield creator_signs(keys, b"body", spelled_body), 4
    # with the signature's length behind it
    yield creator_signs(keys, b"length", lambda tx: spelled_signed(tx) + b"\0\x20"), 4
    # as an endorser signs
    yield creator_signs(keys, b"endorsing", lambda tx: spelled_body(tx) + identity(CLIENT)), 4
    yield creator_signs(keys, b"nothing", lambda _: b""), 4
    # body and identity, as it has to be
    yield peer_signs(keys, b"by itself", lambda tx: spelled_body(tx) + identity(PEER)), 0
    yield peer_signs(keys, b"no identity", spelled_body), 10
    yield peer_signs(keys, b"another", lambda tx: spelled_body(tx) + identity(OTHER)), 10


def rust_bytes(name, octets):
    """Bytes behind a function: a proof that calls it doesn't read them."""
    yield f"pub(crate) fn {name}() -> &'static [u8] {{\n    {name.upper()}\n}}\n"
    yield f"static {name.upper()}: &[u8] =\n    {rust_string(octets)};\n"


def rust_signatures(keys_text):
    txs, flags = zip(*rows(Keys(keys_text)))
    hash_of_data = data_hash(txs)
    line = " ".join(["accepted 0", header_hash(0, b"", hash_of_data).hex(), *map(str, flags)])
    yield "//! A block whose transactions are signed over this and that, made by vectors/signatures.py.\n"
    yield from rust_bytes("keys", keys_text.encode())
    yield from rust_bytes("block", spelled_block(0, b"", hash_of_data, txs))
    yield "/// What is printed of it."
    yield f'pub(crate) const LINE: &str =\n    "{line}\\n";'


def files(keys_text):
    yield "vectors.rt", rust_file(rust_signatures(keys_text))
