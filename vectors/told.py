"""A draft script with its block and that block's header hash, which a handle is told of."""

from encoding import header_hash, read_block
from rust import rust_file, rust_string, rust_text
from scripts import drafted, keys_of

KEYS = b"Org1:client:c0 11\nOrg1:peer:p0 22\n"
SCRIPT = "tx Org1:client:c0 n cc\nns cc\nwrite k v\nendorse Org1:peer:p0\n"


def rust_told():
    block = drafted(b"ch", keys_of(KEYS), None, SCRIPT.encode())
    number, previous, data_hash, _ = read_block(block)
    yield "//! A script, its block 0 and that block's header hash, made by vectors/told.py.\n"
    yield f"pub const SCRIPT: &str = {rust_text(SCRIPT)};\n"
    yield "pub fn block() -> &'static [u8] {\n    BLOCK\n}\n"
    yield f"static BLOCK: &[u8] =\n    {rust_string(block)};\n"
    yield "pub fn header_hash() -> &'static [u8; 32] {\n    HEADER_HASH\n}\n"
    yield f"static HEADER_HASH: &[u8; 32] =\n    {rust_string(header_hash(number, previous, data_hash))};"


def files():
    yield "vectors.rt", rust_file(rust_told())
