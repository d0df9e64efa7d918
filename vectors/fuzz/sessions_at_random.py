#!/usr/bin/env python3
"""Sessions at random, whose answers have to be what the second implementation here says of the blocks so far.

`python3 vectors/fuzz/sessions_at_random.py [PROGRAM [COUNT [SEED]]]` makes COUNT chains (1000) from SEED (1), as
`scripts_at_random.py` does, and plays the calls that it makes of them as lines of sessions of PROGRAM (`./fabcommit`):
the blocks that a call lacks are committed by `run`, one or more to a line, and then the call is made without its
blocks. Old, cut and otherwise spoiled blocks stand between others. Each session has 1, 2 or 5 workers, and half of them
print objects, which are read back. Comments, empty lines and faulty ones stand between the lines. Some sessions are
held once more by `clients/session.py`, which sends a line when the one before was answered. It ends with figures: how
many sessions, answers of each command, refused blocks and faults there were, and fails where anything differs.
"""

import json
import os
import pathlib
import random
import re
import subprocess
import sys
import tempfile
from collections import Counter

sys.dont_write_bytecode = True
HERE = pathlib.Path(__file__).resolve().parent
sys.path[:0] = [str(HERE), str(HERE.parent), str(HERE.parent.parent / "clients")]

import scripts_at_random as plain
from json_lines import line_of
from session import Session

FAULTY = [
    ("get --ns cc", "the following required arguments were not provided: --key <WORD>", 2),
    ("get --ns c/c --key k", "bad word", 2),
    ("scan --ns cc --start %4", "bad word", 2),
    ("walk on", "unrecognized subcommand 'walk'", 2),
    ("explain no%20thing", "cannot read no%20thing", 3),
    ("run block0 nothing", "cannot read nothing", 3),
]
DOT = "--dot goes with --all, and with none of --tx, --id, --ids and --json"


def is_file(text):
    return re.fullmatch(r"(block|mixed|known)\d+", text) is not None


def plain_line(line):
    """The plain line of an object."""
    members = json.loads(line)
    if members["kind"] == "end":
        return f"end {members['status']}"
    return f"fault {members['text']}" if members["kind"] == "fault" else line_of(line)


class Play:
    """A session's lines, and the answers that they have to have."""

    def __init__(self, trial):
        self.trial, self.pick = trial, trial.pick
        self.json = self.pick.random() < 0.5
        self.taken, self.lines, self.wanted = [], [], []

    def answer(self, line, said, status):
        self.lines.append(line)
        self.wanted.append((said, status))
        self.trial.commands[line.split()[0]] += 1
        if self.pick.random() < 0.1:
            self.lines.append(self.pick.choice(["", "   ", "# a comment", "  #get"]))
        if self.pick.random() < 0.05:
            faulty, text, status = self.pick.choice(FAULTY)
            self.lines.append(faulty)
            self.wanted.append((f"fault {text}\n", status))
            self.trial.faults_told += 1

    def run(self, files, told, hashes):
        """Commits these files, of which each is told so, by one line or more."""
        files = [*files]
        while files:
            count = self.pick.randrange(1, len(files) + 1)
            group, files = files[:count], files[count:]
            said, status = "", 0
            for place, name in enumerate(group, 1):
                lines = told[name] if hashes else told[name][:1]
                said += "".join(re.sub(r"^refused \d+ ", f"refused {place} ", line) + "\n" for line in lines)
                status = max(status, int(lines[0].startswith("refused")))
                self.trial.refused += lines[0].startswith("refused")
            self.answer(" ".join(["run", *["--hashes"] * hashes, *group]), said, status)
            self.taken += group

    def by_client(self, workers):
        """The same lines, each sent when the one before was answered."""
        with Session(self.trial.program, "channel", "keys", workers=workers) as session:
            assert (session.status, session.lines) == (0, [])
            for line, (said, status) in zip(self.saying(), self.wanted):
                assert session.ask(line) == (status, said.splitlines()), line
        self.trial.clients += 1

    def saying(self):
        """The lines that have answers."""
        return [line for line in self.lines if line.strip() and not line.strip().startswith("#")]

    def play(self):
        workers = str(self.pick.choice([1, 2, 5]))
        if not self.json and self.pick.random() < 0.2:
            self.by_client(workers)
        command = [self.trial.program, "session", "--channel", "channel", "--keys", "keys", "--workers", workers, *["--json"] * self.json]
        ending = self.pick.choice(["\n", "\r\n"])
        text = ending.join(self.lines) + self.pick.choice(["", ending, ending + "quit" + ending])
        ended = subprocess.run(command, cwd=self.trial.folder, input=text.encode(), capture_output=True)
        lines = ended.stdout.decode().split("\n")[:-1]
        if self.json:
            lines = [plain_line(line) for line in lines]
        got, own = [], []
        for line in lines:
            if line.startswith("end "):
                got.append(("".join(line + "\n" for line in own), int(line[4:])))
                own = []
            else:
                own.append(line)
        wanted = [("", 0), *self.wanted, *[("", 0)] * ("quit" in text)]
        assert (ended.returncode, ended.stderr, own) == (0, b"", []), (text, ended)
        for line, answer, want in zip(["", *self.saying(), ""], got, wanted):
            assert answer == want, (self.trial.folder, command, line, answer, want)
        assert len(got) == len(wanted), (text, got, wanted)
        self.trial.sessions += 1
        self.trial.answers += len(got)


class SessionTrial(plain.Trial):
    def __init__(self, *arguments):
        self.sessions, self.clients, self.answers, self.faults_told, self.refused = 0, 0, 0, 0, 0
        self.commands, self.made = Counter(), []
        super().__init__(*arguments)

    def want(self, status, out, err, *words):
        if words[0] == "draft":
            super().want(status, out, err, *words)
        else:
            self.made.append((out, err, [*words]))

    def told(self):
        """Of each list of files the lines that `run --hashes` has for each of them."""
        for out, _, words in self.made:
            if words[0] == "run" and "--hashes" in words:
                lines = []
                for line in out.splitlines():
                    if line.startswith("commit"):
                        lines[-1].append(line)
                    else:
                        lines.append([line])
                yield dict(zip(filter(is_file, words), lines))

    def chain(self):
        super().chain()
        told = {name: lines for each in self.told() for name, lines in each.items()}
        play = Play(self)
        for out, err, words in self.made:
            files, options = [*filter(is_file, words)], [word for word in words[1:] if not is_file(word)]
            before = files[:-1] if words[0] == "explain" else files
            if before[: len(play.taken)] != play.taken or words[0] == "run":
                play.play()
                play = Play(self)
            hashes = "--hashes" in words or (words[0] != "run" and self.pick.random() < 0.5)
            play.run(before[len(play.taken) :], told, hashes)
            if words[0] == "run":
                continue
            line = " ".join([words[0], *options, *files[len(before) :]])
            if "--dot" in words and play.json:
                play.answer(line, f"fault {DOT}\n", 2)
            elif err:
                play.answer(line, f"fault {err}", 2)
            else:
                # a place counts in the line
                play.answer(line, re.sub(r"^refused \d+ ", "refused 1 ", out), int(out.startswith("refused")))
        play.play()
        self.made = []


def main():
    words = sys.argv[1:] + ["./fabcommit", "1000", "1"][len(sys.argv) - 1 :]
    program, count, seed = str(pathlib.Path(words[0]).resolve()), int(words[1]), int(words[2])
    with tempfile.TemporaryDirectory() as folder:
        os.chdir(folder)
        trial = SessionTrial(program, pathlib.Path(folder), random.Random(seed))
        for _ in range(count):
            trial.chain()
    print(f"{count} chains, {trial.sessions} sessions, {trial.clients} more by the client, {trial.answers} answers")
    print(f"{trial.refused} refused blocks, {trial.faults_told} faults")
    print("lines:", ", ".join(f"{name} {times} times" for name, times in sorted(trial.commands.items())))
    if count >= 1000:
        assert min(trial.commands.values()) >= 500 and trial.refused >= 500 and trial.faults_told >= 500


if __name__ == "__main__":
    main()
