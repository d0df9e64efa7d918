#!/usr/bin/env python3
"""Draws blocks whose keys are made at random of what may leave a string of DOT, and reads the pictures.

`python3 vectors/fuzz/graphs_at_random.py [PROGRAM [COUNT [SEED]]]` makes COUNT keys (1000) from SEED (1), in blocks of 100. Each
transaction reads one of them as it isn't, so that `explain --dot` has an edge about it. Graphviz (`dot`, Debian's graphviz) has to
draw the graph with these edges alone, and a label that shows the key's word.
"""

import pathlib
import random
import subprocess
import sys
import tempfile
from xml.etree import ElementTree

sys.dont_write_bytecode = True
sys.path.append(str(pathlib.Path(__file__).resolve().parent.parent))

from words import word

TOP = pathlib.Path(__file__).resolve().parent.parent.parent
SAMPLE = ["--channel", str(TOP / "sample/channel.txt"), "--keys", str(TOP / "sample/keys.txt")]
PARTS = [b'"', b"\\", b"\\\\", b'\\"', b"&", b"&amp;", b"&quot;", b"&#34;", b"\\n", b"\\N", b"\\E", b"\\l", b"<b>", b"</svg>", b"]", b"];",
         b"{", b"}", b"|", b"->", b"--", b"/*", b"*/", b"//", b"#", b"\n", b"\0", b" ", b"%", b"\xff", b"\xc3\xa9", b"a", b"t0", b"<!--", b"]]>"]
SVG = "{http://www.w3.org/2000/svg}"
SIZE = 100


def key_of(pick):
    return b"".join(pick.choices(PARTS, k=pick.randrange(1, 9)))


def called(*words, **options):
    return subprocess.run(words, check=True, capture_output=True, **options).stdout


def drafted(program, folder, number, txs):
    lines = "".join(f"tx Org1:client:c0 g{number}-{place} cc\nns cc\n{tx}endorse Org1:peer:p0\n" for place, tx in enumerate(txs))
    (folder / "script").write_text(lines)
    before = [f"--after=block{number - 1}"] if number else []
    called(program, "draft", *SAMPLE, *before, "script", f"block{number}", cwd=folder)


def drawn(program, folder):
    graph = called(program, "explain", "--quiet", "--dot", *SAMPLE, "block0", "block1", cwd=folder)
    picture = ElementTree.fromstring(called("dot", "-Tsvg", input=graph))
    groups = [group for group in picture.iter(SVG + "g") if group.get("class") in ("node", "edge")]
    for group in groups:
        yield group.get("class"), group.find(SVG + "title").text, [text.text for text in group.findall(SVG + "text")]


def trial(program, folder, pick):
    keys = sorted({key_of(pick) for _ in range(SIZE)})
    drafted(program, folder, 0, ["".join(f"write {word(key)} v\n" for key in keys)])
    drafted(program, folder, 1, [f"read {word(key)} absent\n" for key in keys])
    groups = [*drawn(program, folder)]
    edges = {title: texts for kind, title, texts in groups if kind == "edge"}
    assert len(groups) == 2 * len(keys) + 1, len(groups)
    for place, key in enumerate(keys):
        told = [text.replace("\xa0", " ") for text in edges[f"t{place}->b0_0"]]
        assert told == [f"cc {word(key)}"], (told, key)
    return len(keys)


def main():
    words = sys.argv[1:] + ["./fabcommit", "1000", "1"][len(sys.argv) - 1 :]
    program, count, pick, keys = str(pathlib.Path(words[0]).resolve()), int(words[1]), random.Random(int(words[2])), 0
    while keys < count:
        with tempfile.TemporaryDirectory() as folder:
            keys += trial(program, pathlib.Path(folder), pick)
    print(f"{keys} keys")


if __name__ == "__main__":
    main()
