#!/usr/bin/env python3
"""run.py [--verify] CHANNEL KEYS BLOCK..: prints the lines of `fabcommit run`.

With --verify the signatures are checked here, by HMAC as the key book does, and the library is given no keys.
"""
import sys
from pathlib import Path

from fabcommit import Ledger, Malformed, OldVersion, OutOfMemory, Refused, WrongNumber
from keybook import keys_in, verifier


def opened(words):
    """A ledger of what the command line names, what it checks signatures by if the library doesn't, and the blocks."""
    verified = words[:1] == ["--verify"]
    channel, keys, *blocks = (Path(word).read_bytes() for word in words[verified:])
    return Ledger(channel, b"" if verified else keys), verifier(keys_in(keys)) if verified else None, blocks


def refusal(place, refused):
    # the command line has one more code before that of an old version
    line = f"refused {place} C{8 if isinstance(refused, OldVersion) else refused.code}"
    if isinstance(refused, Malformed):
        line += f" B{refused.fault}"
    if isinstance(refused, WrongNumber):
        line += f" want {refused.wanted} got {refused.got}"
    return line


def main(words):
    ledger, verify, blocks = opened(words)
    status = 0
    with ledger:
        for place, block in enumerate(blocks, 1):
            try:
                receipt = ledger.submit(block, verify)
                print("accepted", receipt.number, receipt.header_hash.hex(), *map(int, ledger.flags(receipt.number)))
            except OutOfMemory:
                return 4
            except Refused as refused:
                print(refusal(place, refused))
                status = 1
    return status


if __name__ == "__main__":
    sys.exit(main(sys.argv[1:]))
