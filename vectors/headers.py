"""Headers with their DER bytes and hashes, by pyasn1's DER encoder and hashlib."""

from hashlib import sha256

from pyasn1.codec.der.encoder import encode
from pyasn1.type.univ import Integer, OctetString, Sequence

from rust import rust_file, rust_octets

NUMBERS = [0, 0, 127, 128, 255, 256, 32767, 32768, 2**31, 2**63, 2**64 - 1]


def octets_of_seed(seed):
    """32 octets that tell one row from the next."""
    return sha256(seed.encode()).digest()


def der(number, previous, data_hash):
    header = Sequence()
    for place, element in enumerate((Integer(number), OctetString(previous), OctetString(data_hash))):
        header.setComponentByPosition(place, element)
    return encode(header)


def rows():
    """The empty block 0, its number with a previous hash, and the other numbers."""
    yield 0, b"", sha256(b"").digest()
    for number in NUMBERS[1:]:
        yield number, octets_of_seed(f"previous {number}"), octets_of_seed(f"data {number}")
    yield 2**64 - 1, b"", octets_of_seed("data at the end")


HEAD = """\
//! Headers with their DER bytes and header hashes, made by vectors/make.py.

/// The previous hash is empty or has 32 bytes.
pub struct Row {
    pub number: u64,
    pub previous: &'static [u8],
    pub data_hash: &'static [u8; 32],
    pub der: &'static [u8],
    pub hash: &'static [u8; 32],
}

pub fn rows() -> &'static [Row] {
    &ROWS
}
"""


def rust_rows():
    all_rows = list(rows())
    yield HEAD
    yield f"static ROWS: [Row; {len(all_rows)}] = ["
    for number, previous, data_hash in all_rows:
        octets = der(number, previous, data_hash)
        yield "    Row {"
        yield f"        number: {number},"
        yield f"        previous: {rust_octets(previous)},"
        yield f"        data_hash: {rust_octets(data_hash)},"
        yield f"        der: {rust_octets(octets)},"
        yield f"        hash: {rust_octets(sha256(octets).digest())},"
        yield "    },"
    yield "];"


def files():
    yield "vectors.rt", rust_file(rust_rows())
