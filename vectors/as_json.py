"""Two blocks with keys, values and a label of odd bytes, and what is told of them with `--json`, written down by hand but for hashes and ids."""

from functools import partial

from committer import World
from drafted import CHANNEL
from encoding import read_block
from explaining import item_of
from rust import rust_file, rust_string, rust_text, rust_tuples
from sample import channel_of
from scripts import accepts, drafted, keys_of

BOOK = b"Org1:peer:p0 0b0b0b0b0b0b0b0b\nOrg1:client:%22%0A 00\nOrg2:client:%FF%5C 01\n"
SCRIPTS = [
    b"""\
tx Org1:client:%22%0A n0 cc
ns cc
write %22a%5C b%0A%00
write %C3%A9 %FF
write deleted deleted
write %7F %
policy %7F 'Org1.peer'
endorse Org1:peer:p0
""",
    b"""\
tx Org1:client:%22%0A n1 cc
ns cc
delete deleted
endorse Org1:peer:p0
tx Org1:client:%22%0A n2 cc
ns cc
read %22a%5C 9 1
endorse Org1:peer:p0
tx Org1:client:%22%0A n3 cc
ns cc
write %7F%00 v
endorse Org2:client:%FF%5C
""",
]


def objects(*lines):
    return "".join(line + "\n" for line in lines)


def hashed(kind, number, octets, more=""):
    return f'{{"kind":"{kind}","number":{number},"hash":"{octets.hex()}"{more}}}'


def rows(world, blocks):
    """Words behind those of the channel and the keys, the status, and what goes to standard output and standard error."""
    headers, commits = [block[1] for block in world.blocks], world.commit_hashes
    ids = [[item_of(1, tx).id.decode() for tx in read_block(octets)[3]] for octets in blocks]
    first, second = hashed("accepted", 0, headers[0], ',"flags":[0]'), hashed("accepted", 1, headers[1], ',"flags":[0,11,10]')
    again = '{"kind":"refused","place":2,"fault":"C2","want":1,"got":0}'
    readers = '{"kind":"reader","reader":1,"height":2}', '{"kind":"reader","reader":2,"height":2}'
    two = '{"kind":"height","height":2}'
    yield "run --json b0 b0 b1", 1, objects(first, again, second), ""
    hashes = first, hashed("commit", 0, commits[0]), second, hashed("commit", 1, commits[1])
    yield "run --workers 2 --readers 2 --hashes b0 b1 --json", 0, objects(*hashes, *readers), ""
    yield "run --json k", 1, objects('{"kind":"refused","place":1,"fault":"C1 B1"}'), ""
    quote = r'{"kind":"row","key":"\"a\\","block":0,"tx":0,"value":"b\u000a\u0000","policy":null}'
    delete = '{"kind":"row","key":"\x7f","block":0,"tx":0,"value":"","policy":"\'Org1.peer\'"}'
    letter = '{"kind":"row","key":"é","block":0,"tx":0,"value":{"hex":"ff"},"policy":null}'
    yield "get --json --ns cc --key %22a%5C b0 b1", 0, objects(two, quote), ""
    yield "get --json --ns cc --key deleted b0 b1", 0, objects(two, '{"kind":"absent"}'), ""
    yield "get --json --ns cc --key % b0", 2, "", "bad word\n"
    yield "get --json --ns cc --key a no", 3, "", "cannot read no\n"
    yield "scan --json --ns cc --limit 2 b0 b1", 0, objects(two, quote, delete, '{"kind":"more"}'), ""
    yield "scan --json --ns cc --start %7F%00 b0 b1", 0, objects(two, letter), ""
    gone = f'{{"kind":"entry","block":1,"tx":0,"id":"{ids[1][0]}","value":null}}'
    held = f'{{"kind":"entry","block":0,"tx":0,"id":"{ids[0][0]}","value":"deleted"}}'
    yield "history --json --ns cc --key deleted b0 b1", 0, objects(two, gone, held), ""
    none = '{"kind":"height","height":0}'
    policy = """{"kind":"definition","policy":"OR('Org1.peer','Org2.peer')"}"""
    yield "definition --json --ns cc", 0, objects(none, policy), ""
    yield "definition --json --ns dd k", 1, objects(none, '{"kind":"absent"}'), ""
    valid = '{"kind":"reason","tx":0,"flag":0,"name":"VALID"}'
    read = (
        r'{"kind":"reason","tx":1,"flag":11,"name":"MVCC_READ_CONFLICT","reason":"read","namespace":"cc","key":"\"a\\","was":'
        '{"block":9,"tx":1},"is":{"block":0,"tx":0}}'
    )
    lacking = (
        '{"kind":"reason","tx":2,"flag":10,"name":"ENDORSEMENT_POLICY_FAILURE","reason":"chaincode","namespace":"cc","key":"\x7f\\u0000",'
        """"policy":"OR('Org1.peer','Org2.peer')","signers":[{"org":"Org2","role":"client","label":{"hex":"ff5c"}}],"missing":"Org1.peer\"}"""
    )
    block = hashed("block", 1, headers[1])
    yield "explain --json b0 b1", 0, objects(block, valid, read, lacking), ""
    yield "explain --json --ids --tx 0 b0 b1", 0, objects(block, f'{valid[:-1]},"id":"{ids[1][0]}"}}'), ""
    earlier = '{"kind":"earlier","block":0,"tx":0,"flag":0,"name":"VALID"}'
    yield f"explain --json --id {ids[0][0]} b0 b1", 0, objects(block, earlier), ""
    known = f'{{"kind":"known","number":0,"as":"same","accepted":"{headers[0].hex()}","own":"{headers[0].hex()}"}}'
    yield "explain --json b0 b0", 1, objects(again, known), ""
    counts = (
        '{"kind":"flag","flag":0,"name":"VALID","count":1}',
        '{"kind":"flag","flag":10,"name":"ENDORSEMENT_POLICY_FAILURE","count":1}',
        '{"kind":"flag","flag":11,"name":"MVCC_READ_CONFLICT","count":1}',
        r'{"kind":"key","namespace":"cc","key":"\"a\\","count":1,"stale":1,"phantom":0,"policy":0,"touched":0,"in_block":0}',
        '{"kind":"chaincode","chaincode":"cc","count":1,"missing":"Org1.peer","times":1}',
    )
    yield "conflicts --json --from 1 b0 b1", 0, objects(*counts), ""


def files():
    keys = keys_of(BOOK)
    name, definitions, admin = channel_of(CHANNEL)
    world, blocks = World(name, definitions, partial(accepts, keys), admin), []
    for script in SCRIPTS:
        blocks.append(drafted(name, keys, blocks[-1] if blocks else None, script, 1))
        world.submit(blocks[-1])
    table = list(rows(world, blocks))
    lines = ["//! Blocks of odd bytes, and what is told of them in JSON, made by vectors/as_json.py.\n", "use crate::fixture::Row;\n"]
    lines += ["pub(crate) fn keys() -> &'static [u8] {\n    KEYS\n}\n", f"static KEYS: &[u8] =\n    {rust_string(BOOK)};\n"]
    for place, octets in zip(("first", "second"), blocks):
        lines.append(f"pub(crate) fn {place}_block() -> &'static [u8] {{\n    {place.upper()}_BLOCK\n}}\n")
        lines.append(f"static {place.upper()}_BLOCK: &[u8] =\n    {rust_string(octets)};\n")
    lines.append("/// Words behind those of the channel and the keys.")
    lines.append("pub(crate) fn answers() -> &'static [Row<'static>] {\n    &ANSWERS\n}\n")
    lines.append(f"static ANSWERS: [Row<'static>; {len(table)}] = [")
    lines += rust_tuples([rust_text(words), str(status), rust_text(out), rust_text(err)] for words, status, out, err in table)
    lines.append("];")
    yield "vectors.rt", rust_file(lines)
