#!/usr/bin/env python3
"""threads.py CHANNEL KEYS BLOCK..: checks the signatures of all blocks on several threads, and hands the blocks in one after the other.

The signatures are checked by HMAC, as the key book does; a network of your own has its own check in that place.
"""
import sys
from collections import deque
from concurrent.futures import ThreadPoolExecutor
from itertools import islice
from pathlib import Path

sys.path.append(str(Path(__file__).resolve().parent.parent))

from fabcommit import Ledger, Listing
from keybook import keys_in, verifier

# blocks that are checked before their turn
AHEAD = 8


def main(channel, keys, *paths):
    verify = verifier(keys_in(Path(keys).read_bytes()))
    check = lambda path: Listing(Path(path).read_bytes()).check(verify)
    with ThreadPoolExecutor() as threads, Ledger(Path(channel).read_bytes()) as ledger:
        waiting, checked = iter(paths), deque()
        checked.extend(threads.submit(check, path) for path in islice(waiting, AHEAD))
        while checked:
            receipt = ledger.submit_by(checked.popleft().result())
            checked.extend(threads.submit(check, path) for path in islice(waiting, 1))
            print("accepted", receipt.number, receipt.header_hash.hex(), *map(int, ledger.flags(receipt.number)))


if __name__ == "__main__":
    main(*sys.argv[1:])
