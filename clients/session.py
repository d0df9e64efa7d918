#!/usr/bin/env python3
"""Drives `fabcommit session` through a pipe.

    from session import Session, word

    with Session("./fabcommit", "channel.txt", "keys.txt", "block0.blk") as session:
        status, lines = session.ask("run", word("block 1.blk"))
        status, lines = session.ask("get", "--ns", "cc", "--key", word("car1"))

Run as `clients/session.py PROGRAM CHANNEL KEYS [BLOCK ..]` it answers the lines of standard input, and prints each
answer's status in front of its lines.
"""

import subprocess
import sys


def word(text):
    """The word that spells a text or bytes, in printable ASCII without spaces: for keys, bounds, ids and paths."""
    octets = text.encode() if isinstance(text, str) else text
    return "".join(chr(o) if 0x20 < o < 0x7F and o != 0x25 else f"%{o:02X}" for o in octets) or "%"


class Session:
    """A session, which commits the blocks of these paths first: `status` and `lines` are what came of that."""

    def __init__(self, program, channel, keys, *paths, workers=1):
        words = [program, "session", "--channel", channel, "--keys", keys, "--workers", str(workers), *paths]
        self.process = subprocess.Popen(words, stdin=subprocess.PIPE, stdout=subprocess.PIPE, text=True)
        self.status, self.lines = self.answer()

    def ask(self, *words):
        """The answer to a line of these words: its status, and its lines."""
        self.process.stdin.write(" ".join(words) + "\n")
        self.process.stdin.flush()
        return self.answer()

    def answer(self):
        lines = []
        for line in self.process.stdout:
            if line.startswith("end "):
                return int(line[4:]), lines
            lines.append(line.rstrip("\n"))
        raise EOFError(f"the session ended with {self.process.wait()}")

    def __enter__(self):
        return self

    def __exit__(self, *_):
        self.process.stdin.close()
        self.process.wait()
        self.process.stdout.close()


if __name__ == "__main__":
    with Session(*sys.argv[1:]) as session:
        print(session.status, *session.lines, sep="\n")
        for words in map(str.split, sys.stdin):
            if words and not words[0].startswith("#"):
                status, lines = session.ask(*words)
                print(status, *lines, sep="\n")
