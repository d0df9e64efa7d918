"""The package's names and numbers are those of the header."""
import re
import unittest
from pathlib import Path

from fabcommit import Code, binding, library, reasons

HEADER = (Path(__file__).resolve().parent.parent.parent.parent / "include" / "fabcommit.h").read_text()


class Header(unittest.TestCase):
    def test_interface(self):
        self.assertIn(f"#define FABCOMMIT_INTERFACE {library.INTERFACE}u", HEADER)

    def test_codes(self):
        numbered = re.findall(r"FABCOMMIT_(?!REASON)(\w+) = (\d+)", HEADER)
        self.assertEqual({code.name: code.value for code in Code}, {name: int(number) for name, number in numbered})

    def test_kinds_of_reasons(self):
        numbered = re.findall(r"FABCOMMIT_REASON_(\w+) = (\d+)", HEADER)
        names = {int(number): name.title().replace("_", "") for name, number in numbered}
        self.assertEqual({kind.kind: kind.__name__ for kind in reasons.KINDS}, names)

    def test_calls(self):
        declared = re.findall(r"^(?:uint32_t|void) fabcommit_(\w+)\(", HEADER, re.M)
        self.assertEqual(sorted(name for name, *_ in binding.CALLS), sorted(declared))


if __name__ == "__main__":
    unittest.main()
