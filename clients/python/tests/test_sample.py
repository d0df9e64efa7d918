"""Each call of the package over the sample's blocks."""
import pickle
import threading
import unittest
from pathlib import Path

from fabcommit import (
    Closed, Flag, Ledger, Listing, Malformed, NoBlock, NoChannel, NoKeys, NoName, NoText, Refused, Shared, Use, Version,
    WrongNumber, reasons, versions,
)
from fabcommit.ledger import least_above

SAMPLE = Path(__file__).resolve().parent.parent.parent.parent / "sample"
CHANNEL, KEYS = ((SAMPLE / name).read_bytes() for name in ("channel.txt", "keys.txt"))
BLOCKS = [(SAMPLE / f"block{number}.blk").read_bytes() for number in range(6)]
EVERY_FLAG = (SAMPLE / "every_flag.blk").read_bytes()


class Sample(unittest.TestCase):
    def setUp(self):
        self.ledger = Ledger(CHANNEL, KEYS)
        self.receipts = [self.ledger.submit(block) for block in BLOCKS]
        self.addCleanup(self.ledger.close)

    def test_versions(self):
        self.assertEqual(versions().interface, 3)

    def test_blocks_are_told_again(self):
        self.assertEqual(self.ledger.height(), 6)
        for number, receipt in enumerate(self.receipts):
            self.assertEqual(self.ledger.block(number), receipt)
            self.assertEqual(len(self.ledger.flags(number)), receipt.transactions)
        self.assertEqual(self.ledger.flags(1)[:2], [Flag.VALID, Flag.MVCC_READ_CONFLICT])

    def test_refusals_change_nothing(self):
        for kind, call in (
            (Malformed, lambda: self.ledger.submit(b"x")),
            (Malformed, lambda: self.ledger.submit(b"x", lambda request: True)),
            (Malformed, lambda: self.ledger.explain(b"x")),
            (Malformed, lambda: Listing(b"x")),
            (WrongNumber, lambda: self.ledger.submit(BLOCKS[1])),
            (WrongNumber, lambda: self.ledger.explain(BLOCKS[1])),
            (NoBlock, lambda: self.ledger.block(6)),
            (NoBlock, lambda: self.ledger.flags(6)),
            (NoName, lambda: self.ledger.get("no name", "k")),
            (NoName, lambda: list(self.ledger.scan("no name"))),
            (NoName, lambda: self.ledger.first_use("short")),
            (NoChannel, lambda: Ledger("none")),
            (NoText, lambda: Ledger(b"\xff")),
            (NoKeys, lambda: Ledger(CHANNEL, "none")),
        ):
            with self.assertRaises(kind) as raised:
                call()
            self.assertIsInstance(raised.exception, Refused)
            self.assertEqual(str(pickle.loads(pickle.dumps(raised.exception))), str(raised.exception))
        self.assertEqual(self.ledger.height(), 6)

    def test_refusals_tell_numbers(self):
        with self.assertRaises(WrongNumber) as raised:
            self.ledger.submit(BLOCKS[1])
        self.assertEqual((raised.exception.wanted, raised.exception.got), (6, 1))
        with self.assertRaises(Malformed) as raised:
            self.ledger.submit(b"x")
        self.assertEqual(raised.exception.fault, 1)

    def test_rows_and_histories_fit(self):
        rows = list(self.ledger.scan("cc"))
        self.assertEqual([row.key for row in rows], [b"car2", b"car3", b"car4"])
        self.assertEqual(list(self.ledger.scan("cc", "car3", "car4")), rows[1:2])
        for at_once in range(1, 4):
            self.assertEqual(list(self.ledger.scan("cc", at_once=at_once)), rows)
        for row in rows:
            newest = next(self.ledger.history("cc", row.key))
            self.assertEqual(self.ledger.get("cc", row.key), row)
            self.assertEqual((newest.value, newest.version), (row.value, row.version))
            self.assertEqual(self.ledger.first_use(newest.id), Use(row.version, Flag.VALID))
        self.assertEqual([write.value is None for write in self.ledger.history("cc", "car1")], [True, False, False, False])
        self.assertIsNone(self.ledger.get("cc", "car1"))
        self.assertIsNone(self.ledger.first_use("0" * 64))

    def test_policies(self):
        self.assertEqual(self.ledger.definition("cc"), "OR('Org1.peer','Org2.peer','Org1.admin')")
        self.assertEqual(self.ledger.key_policy("cc", "car2"), "AND('Org1.peer','Org2.peer')")
        self.assertIsNone(self.ledger.definition("none"))
        self.assertIsNone(self.ledger.key_policy("cc", "car3"))

    def test_reasons(self):
        told = self.ledger.explain(EVERY_FLAG)
        self.assertEqual(told[5], reasons.UsedId(Flag.DUPLICATE_TXID, Version(0, 0), Flag.VALID))
        self.assertEqual(told[7], reasons.ReadConflict(Flag.MVCC_READ_CONFLICT, b"cc", b"car5", None, Version(6, 0), 0))
        listing = Listing(EVERY_FLAG)
        none = [type(reason) for reason in self.ledger.explain_by(listing)]
        self.assertNotIn(reasons.NoFault, none)
        self.assertEqual(self.ledger.explain_by(listing.check(lambda request: True))[0], told[0])
        self.assertRaises(ValueError, listing.answer, [True])

    def test_a_closed_ledger_says_so(self):
        with Ledger(CHANNEL) as ledger:
            pass
        self.assertRaises(Closed, ledger.height)
        ledger.close()

    def test_bounds_above_keys(self):
        self.assertEqual(least_above(b"car1"), b"car1\0")
        self.assertEqual(least_above(b"k" * 1023 + b"a"), b"k" * 1023 + b"b")
        self.assertEqual(least_above(b"k" * 1022 + b"a\xff"), b"k" * 1022 + b"b")
        self.assertEqual(least_above(b"\xff" * 1024), b"\xff" * 1024)

    def test_shares_are_queried_at_the_same_time(self):
        rows, found = list(self.ledger.scan("cc")), []

        def ask():
            with self.ledger.share() as share:
                shared.wait()
                found.extend([list(share.scan("cc")) for _ in range(100)])

        # all threads have their share before the first goes on
        shared = threading.Barrier(5)
        threads = [threading.Thread(target=ask) for _ in range(4)]
        for thread in threads:
            thread.start()
        shared.wait()
        self.ledger.scan("cc")
        for thread in threads:
            thread.join()
        self.assertEqual(found, [rows] * 400)

    def test_a_shared_ledger_takes_no_block(self):
        with self.ledger.share() as share:
            for ledger in (self.ledger, share):
                with self.assertRaises(Shared):
                    ledger.submit(EVERY_FLAG)
                self.assertEqual(ledger.height(), 6)
        self.ledger.submit(EVERY_FLAG)
        self.assertRaises(Closed, share.height)
        # a share outlives the ledger that it is of, and takes blocks when it is the last
        share = self.ledger.share()
        self.assertEqual(share.height(), 7)
        self.ledger.close()
        self.assertRaises(WrongNumber, share.submit, EVERY_FLAG)
        self.assertRaises(Closed, self.ledger.share)
        share.close()

    def test_threads_may_share_it(self):
        rows, found = list(self.ledger.scan("cc")), []
        ask = lambda: found.extend([list(self.ledger.scan("cc")) for _ in range(100)])
        threads = [threading.Thread(target=ask) for _ in range(4)]
        for thread in threads:
            thread.start()
        for thread in threads:
            thread.join()
        self.assertEqual(found, [rows] * 400)


if __name__ == "__main__":
    unittest.main()
