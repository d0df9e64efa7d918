#!/usr/bin/env python3
"""Reads what `fabcommit --json` prints of chains made at random, and compares it with the plain lines.

`python3 vectors/fuzz/json_at_random.py [PROGRAM [COUNT [SEED]]]` makes COUNT chains (1000) from SEED (1), as `scripts_at_random.py` does, with
keys, values and labels that have quotation marks, backslashes, controls and bytes that are no text. Of each call of `run`, `explain`,
`conflicts`, `get`, `history`, `scan` and `definition` that is made there the lines with `--json` are read by Python's `json`, and what
`json_lines.py` makes of them has to be the plain lines; the status and standard error have to be the same. `jq -c .` has to give every object
back. It ends with figures: how many objects of each kind and reasons of each word there were, and how many bytes came as digits. It
goes on until each kind and word came, and fails where anything differs.
"""

import json
import pathlib
import random
import subprocess
import sys
import tempfile
from collections import Counter

sys.dont_write_bytecode = True
sys.path[:0] = [str(pathlib.Path(__file__).resolve().parent), str(pathlib.Path(__file__).resolve().parent.parent)]

import scripts_at_random as plain
from json_lines import KINDS, REASONS, line_of

ODD = ["%22", "a%22%5Cb", "%0A", "a%1F%7F", "%E2%80%A8", "%C3", "{%22hex%22:%2200%22}"]
# few, so that transactions meet at them
plain.KEYS[:] = ["a", "%61", "b%22", "a%22%5Cb", "%00%0A%7F", "%22%FF", "deleted", "%E2%80%A8"]
plain.VALUES += ODD
plain.SIGNERS[plain.SIGNERS.index("Org1:peer:p%251")] = "Org1:peer:%22%5C%0A"
plain.SIGNERS[plain.SIGNERS.index("Org2:client:c")] = "Org2:client:%FF%22"


class JsonTrial(plain.Trial):
    def __init__(self, *arguments):
        self.kinds, self.reasons, self.digits, self.objects = Counter(), Counter(), 0, []
        super().__init__(*arguments)

    def want(self, status, out, err, *words):
        if words[0] == "draft" or "--dot" in words:
            return super().want(status, out, err, *words)
        got = self.call(*(words[0], "--json", *words[1:]) if self.pick.random() < 0.5 else (*words, "--json"))
        read = [line_of(line) for line in got[1].split("\n")[:-1]]
        said = self.call(*words)
        assert (got[0], plain.text_of(read), got[2]) == said, (words, got, said)
        self.objects += got[1].split("\n")[:-1]

    def chain(self):
        super().chain()
        octets = "".join(line + "\n" for line in self.objects).encode()
        back = subprocess.run(["jq", "-c", "."], input=octets, capture_output=True, check=True).stdout.decode().split("\n")[:-1]
        assert [json.loads(line) for line in back] == [json.loads(line) for line in self.objects]
        for line in self.objects:
            members = json.loads(line)
            self.kinds[members["kind"]] += 1
            self.reasons[members.get("reason")] += 1
            self.digits += line.count('{"hex":')
        self.objects = []

    def lacks_objects(self):
        """Readers are asked for nowhere."""
        return {*KINDS} - {"reader", *self.kinds} or {*REASONS} - {*self.reasons}


def main():
    words = sys.argv[1:] + ["./fabcommit", "1000", "1"][len(sys.argv) - 1 :]
    program, count, seed = str(pathlib.Path(words[0]).resolve()), int(words[1]), int(words[2])
    with tempfile.TemporaryDirectory() as folder:
        trial = JsonTrial(program, pathlib.Path(folder), random.Random(seed))
        chains = 0
        while chains < count or trial.lacks_objects():
            trial.chain()
            chains += 1
    print(f"{chains} chains, {trial.calls} calls, {trial.kinds.total()} objects, {trial.digits} times digits")
    print("kinds:", ", ".join(f"{name} {times}" for name, times in sorted(trial.kinds.items())))
    print("reasons:", ", ".join(f"{name} {times}" for name, times in sorted((name, times) for name, times in trial.reasons.items() if name)))


if __name__ == "__main__":
    main()
