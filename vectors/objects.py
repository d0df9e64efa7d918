"""The JSON object of `fabcommit explain --json` for a plain line of `explain`, made as `docs/format.md` says."""

from scripts import word_bytes

HEADS = {"block": ("number", "hash"), "earlier": ("block", "tx", "flag", "name")}
# What stands behind the word that tells reasons apart: names of members, or groups of them.
PARTS = {
    "creator": ["creator:signer"],
    "not-alone": [],
    "no-admin-policy": [],
    "undefined": ["chaincode:bytes"],
    "admin": ["lack"],
    "wanted": ["wanted:bytes"],
    "used": ["used:use"],
    "touched": ["namespace:bytes", "key:bytes", "by:number"],
    "key": ["namespace:bytes", "key:bytes", "lack"],
    "chaincode": ["namespace:bytes", "key:bytes", "lack"],
    "named": ["chaincode:bytes", "lack"],
    "read": ["namespace:bytes", "key:bytes", "versions", "by"],
    "range": ["range", "versions", "extent:text", "by"],
    "channel": ["channel:bytes"],
    "fallen": ["range", "places"],
    "outside": ["range", "places"],
}


def string(text):
    escapes = {'"': '\\"', "\\": "\\\\"}
    return '"' + "".join(escapes.get(char) or (f"\\u{ord(char):04x}" if char < " " else char) for char in text) + '"'


def json_text(value):
    match value:
        case None:
            return "null"
        case True:
            return "true"
        case int():
            return str(value)
        case str():
            return string(value)
        case list():
            return "[" + ",".join(map(json_text, value)) + "]"
        case dict():
            return "{" + ",".join(f"{string(name)}:{json_text(part)}" for name, part in value.items()) + "}"


def from_octets(octets):
    try:
        return octets.decode()
    except UnicodeDecodeError:
        return {"hex": octets.hex()}


class Line:
    """The words of a line, from the front."""

    def __init__(self, line):
        self.words = line.split(" ")

    def text(self):
        return self.words.pop(0)

    def number(self):
        return int(self.text())

    def bytes(self):
        return from_octets(word_bytes(self.text()))

    def skip(self, *words):
        for word in words:
            assert self.text() == word

    def skipped(self, word):
        """Whether this word stood there."""
        return self.words[:1] == [word] and bool(self.text())

    def version(self):
        return None if self.skipped("absent") else {"block": self.number(), "tx": self.number()}

    def signer(self):
        org, role, label = self.text().split(":", 2)
        return {"org": from_octets(word_bytes(org)), "role": role, "label": from_octets(word_bytes(label))}

    def signers(self):
        found = []
        while self.words and ":" in self.words[0]:
            found.append(self.signer())
        return found

    def use(self):
        return {"block": self.number(), "tx": self.number(), "flag": self.number(), "name": self.text()}

    def lack(self, members):
        members |= {"policy": self.text(), "signers": self.signers()}
        if self.skipped("refused"):
            members["refused"] = self.signers()
        self.skip("missing")
        members["missing"] = self.text()
        if self.skipped("order"):
            members["order"] = True

    def versions(self, members):
        for label in ("was", "is"):
            self.skip(label)
            members[label] = self.version()

    def by(self, members):
        if self.skipped("by"):
            members["by"] = self.number()

    def range(self, members):
        members |= {name: self.bytes() for name in ("namespace", "start", "end")}
        self.skip("key")
        members["key"] = self.bytes()

    def places(self, members):
        for name in ("range", "result"):
            self.skip(name)
            members[name] = self.number()

    def part(self, members, part):
        name, _, kind = part.partition(":")
        if kind:
            members[name] = getattr(self, kind)()
        else:
            getattr(self, name)(members)


def parts_of(word, left):
    """Two words stand before as many things as one can tell by what is left of the line."""
    if word == "repeated":
        return ["namespace:bytes", "list:text", "key:bytes"] if len(left) > 1 else ["namespace:bytes"]
    if word == "policy":
        return ["namespace:bytes", "key:bytes", "fault:text"] if len(left) > 1 else ["fault:text"]
    return PARTS[word]


def object_of(line):
    """Of a line of `explain`."""
    words = line.split(" ")
    left = Line(line)
    if words[0] in HEADS:
        members = {"kind": left.text()}
        members |= {name: left.text() if name in ("hash", "name") else left.number() for name in HEADS[words[0]]}
    else:
        id = left.words.pop() if words[-2] == "id" and left.words.pop(-2) else None
        members = {"kind": "reason", "tx": left.number(), "flag": left.number(), "name": left.text()}
        if left.words:
            members["reason"] = left.text()
            for part in parts_of(members["reason"], left.words):
                left.part(members, part)
        if id is not None:
            members["id"] = from_octets(word_bytes(id))
    assert not left.words, line
    return json_text(members)


def objects_of(lines):
    return "".join(object_of(line) + "\n" for line in lines.splitlines())
