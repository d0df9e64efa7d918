"""What the sources define: the definitions of `crates/*/specs`, the types of `crates/*/src` as contracts see them, what each uses, and
the clauses of laws.

It relies on the layout of `rt fmt`: definitions begin in the first column, and an empty line is between them.
"""

import dataclasses
import functools
import itertools
import pathlib
import re
import textwrap

TOP = pathlib.Path(__file__).resolve().parent.parent.parent
CRATES = TOP / "crates"
COLUMNS = 118

# A name, with what is selected of it, as `item.Tx`; not a field, which comes after a dot, before `=` or before its type.
NAME = re.compile(r"(?<![\w'.])[A-Za-z_][\w']*(?:\.[A-Za-z_][\w']*)*(?! = )(?! =$)(?! :)", re.M)
# How the line of a name's type begins.
HEAD = re.compile(r" *(?!let |\s)(?:abbrev |unfoldable )?(?:pub )?(?:data |record )?([^\s:({]+)")
# Rust's own types. An array has no name.
PLAIN = {"bool": "Bool", "Option": "Option", "Vec": "List", "": "List", **dict.fromkeys(("u8", "u16", "u32", "u64", "usize"), "ℕ")}


@dataclasses.dataclass(eq=False)
class Definition:
    """What a file defines at one place: its names, comment and lines of code, the part of the file, and what it uses."""

    file: object
    names: list
    comment: list
    code: list
    part: str = ""
    uses: list = None
    cut: object = None

    def used(self):
        if self.uses is None:
            self.uses = [*self.file.used_in("\n".join(re.sub(r"--.*", "", line) for line in self.code))]
        return self.uses

    def cut_short(self, cut):
        """Leaves its type only."""
        name = re.escape(self.names[0])
        self.cut, self.uses, self.code = cut, None, [next(line.strip() for line in self.code if re.match(rf".*(?:^|\s){name} [:(]", line))]


class Source:
    """A file, by the names that it imports and defines."""

    def __init__(self, path):
        self.path, self.crate = path, path.relative_to(CRATES).parts[0]
        self.imports, self.aliases, self.by_name = {}, {}, {}

    def take_import(self, line):
        found = re.fullmatch(r"(?:unfoldable )?(?:pub )?use ([\w.]+?)(?:\.\{(.*)\})?(?: as (\w+))?", line)
        if not found:
            return
        path, names, alias = found.groups()
        path = path if path.startswith(("Rattle.", "base.")) else f"Rattle.{self.crate}.specs.{path}"
        if names is None:
            self.aliases[alias or path.split(".")[-1]] = path
        for name in (names or "").split(", "):
            name, _, alias = name.partition(" as ")
            self.imports[alias or name] = (path, name)

    def used_in(self, code):
        """What lines of code use: definitions, and names of the kit as pairs of a module and a name."""
        for name in dict.fromkeys(NAME.findall(code)):
            head, _, rest = name.partition(".")
            if head in self.by_name:
                yield self.by_name[head]
            elif head in self.imports:
                yield meant(*self.imports[head])
            elif head in self.aliases and rest:
                yield meant(self.aliases[head], rest.split(".")[0])
        signs = set(re.findall(r"\bif\b|\[\]|[^\s\w(){}\[\].,;]+", code))
        for name in [*self.imports, *self.by_name]:
            if ("◌" in name or name == "[]") and name.strip("◌").split("◌")[0] in signs:
                yield self.by_name[name] if name in self.by_name else meant(*self.imports[name])


class Specs(Source):
    """A file of definitions."""

    def __init__(self, path):
        super().__init__(path)
        lines = path.read_text().splitlines()
        intro = next((i for i, line in enumerate(lines) if not line.startswith("--")), len(lines))
        self.intro, self.definitions, part = [line[3:] for line in lines[:intro]], [], ""
        for line in lines[intro:]:
            self.take_import(line)
        for chunk in chunks(line for line in lines[intro:] if not re.match(r"(unfoldable )?(pub )?(use|mod) ", line)):
            if chunk[0].startswith("-- ----"):
                part, chunk = chunk[0].removeprefix("-- ----").strip(), chunk[1:]
            code = next((i for i, line in enumerate(chunk) if not line.startswith("--")), len(chunk))
            if chunk[code:]:
                self.definitions.append(Definition(self, names_of(chunk[code:]), chunk[:code], chunk[code:], part))
        self.by_name = {name: it for it in self.definitions for name in it.names}


class Types(Source):
    """The types of a file of Rust, as contracts see them."""

    def __init__(self, path):
        super().__init__(path)
        self.text = path.read_text()
        for line in re.findall(r"ghost (use [^;]+);", self.text):
            self.take_import(line)

    def declared(self, name):
        """The definition of a type: its fields or variants."""
        if name not in self.by_name:
            head = rf"((?:^///[^\n]*\n|^#\[[^\n]*\n)*)^pub(?:\(crate\))? (struct|enum) {name}\b[^{{;]*(?:\{{\n(.*?)^\}}|;)"
            comment, kind, body = re.search(head, self.text, re.M | re.S).groups()
            comment = re.match(r".*?\.(?= [A-Z]|$)", " ".join(re.findall(r"^/// (.*)", comment, re.M)))[0]
            comment = textwrap.wrap(f"-- {comment}", COLUMNS, subsequent_indent="-- ")
            it = self.by_name[name] = Definition(self, [name], comment, [], uses=[])
            body = re.sub(r"^ *(///|#\[).*\n", "", body or "", flags=re.M)
            body = re.sub(r",?\n    \}", " }", re.sub(r"\n {8}", " ", body))
            parts = [self.part(line, it.uses) for line in re.findall(r"^    (?:pub )?(\w.*?),?$", body, re.M)]
            # no line ends within a field or a variant
            parts = [part.replace(" ", "\xa0") for part in parts]
            inside = " | ".join(parts) if kind == "enum" else f"{{\xa0{'; '.join(parts)}\xa0}}"
            it.code += [line.replace("\xa0", " ") for line in textwrap.wrap(f"{name} = {inside}", COLUMNS, subsequent_indent="    ")]
        return self.by_name[name]

    def part(self, line, uses):
        """A field, or a variant."""
        name, places, fields, kind = re.fullmatch(r"(\w+)(?:\((.*)\)| \{ (.*) \}|: (.*))?", line).groups()
        if kind:
            return f"{name} : {self.seen(kind, uses)}"
        if fields:
            return f"{name} {{ {'; '.join(self.part(it, uses) for it in split(fields))} }}"
        return " ".join([name, *(in_brackets(self.seen(it, uses)) for it in split(places or ""))])

    def seen(self, rust, uses):
        """A type, as contracts see its values: what is shared or borrowed as itself, one with a model as that."""
        name, inside = re.fullmatch(r"(?:&(?:'\w+ )?)?(\w*)[<\[]?(.*?)[>\]]?", rust).groups()
        given = [self.seen(it, uses) for it in split(inside.split(";")[0]) if not it.startswith("'")]
        if name in PLAIN:
            return " ".join([PLAIN[name], *map(in_brackets, given)])
        home = home_of(self, name)
        alias = re.search(rf"^pub type {name} = (.*?);", home.text, re.M)
        if alias:
            return home.seen(alias[1], uses)
        model = re.search(rf"^impl\b.*\bModel for {name}\b.*?ghost Value = \{{ (.*?) \}};", home.text, re.M | re.S)
        if not model:
            uses.append(home.declared(name))
            return name
        uses += home.used_in(model[1])
        value = re.sub(r"\b[a-z_]+\.", "", model[1])
        return value if not given else given[0] if value == "T" else re.sub(r"\bT\b", lambda _: in_brackets(given[0]), value)


def chunks(lines):
    """Lines between empty lines; an indented line belongs to the chunk before."""
    found, is_new = [], True
    for line in lines:
        if line and is_new and not line.startswith(" "):
            found.append([line])
        elif line:
            found[-1] += [""] * is_new + [line]
        is_new = not line
    return found


def names_of(code):
    """The names of a definition: of a record its own, of data its constructors too, of several at once each."""
    heads = [HEAD.match(line) for line in code if line.endswith("where") or re.match(r"(?:(?! = ).)* : ", line)]
    names = [head[1] for head in heads if head]
    return names[:1] if re.match(r"(pub )?record ", code[0]) else names


@functools.cache
def file_at(path):
    return (Specs if path.suffix == ".antt" else Types)(path)


def meant(module, name):
    """What a name of a module stands for: a definition, or if it is the kit's the pair of both."""
    top, crate, *parts = module.split(".")
    if top != "Rattle" or not (CRATES / crate).is_dir():
        return module, name
    if parts[1:2] == ["declared"]:
        *parts, kind = [part for part in parts[2:] if part != "TheVariants"]
        return file_at(CRATES.joinpath(crate, "src", *parts).with_suffix(".rt")).declared(kind)
    file = file_at(CRATES.joinpath(crate, "specs", *(parts[1:] or ["Lib"])).with_suffix(".antt"))
    return file.by_name[name] if name in file.by_name else meant(*file.imports[name])


def home_of(file, name):
    """The file that declares a type which a file names."""
    imported = re.search(rf"^use (\w+)::[^;]*\b{name}\b", file.text, re.M)
    crate = file.crate if not imported or imported[1] == "crate" else imported[1]
    paths = sorted((CRATES / crate / "src").rglob("*.rt"))
    declaration = re.compile(rf"^pub(?:\(crate\))? (?:struct|enum|type) {name}\b", re.M)
    return next(file_at(path) for path in paths if declaration.search(path.read_text()))


def split(text):
    """The parts between commas that are in no brackets."""
    return [part.strip() for part in re.findall(r"(?:[^,<>\[\](]|<[^>]*>+|\[[^\]]*\]|\([^)]*\))+", text)]


def in_brackets(text):
    return f"({text})" if " " in text else text


def walk(roots):
    """All that definitions use, down to the kit: definitions in the order in which they are met, and names of the kit."""
    found, names = dict.fromkeys(roots), {}
    for it in (todo := [*roots]):
        for used in it.used():
            if isinstance(used, tuple):
                names[used] = None
            elif used not in found:
                found[used] = None
                todo.append(used)
    return [*found], [*names]


def clauses(law):
    """The lines of a law's clauses: of a file, a function, and the names of the clauses, or all of them."""
    path, function, *names = law.split()
    lines = (CRATES / path).read_text().splitlines()
    start = next(i for i, line in enumerate(lines) if re.match(rf" *pub fn {function}\b", line))
    margin, shown = len(lines[start]) - len(lines[start].lstrip()) + 4, False
    yield f"-- {path}: {function}"
    for line in itertools.takewhile(lambda line: line.strip() not in ("{", "{}"), lines[start + 1 :]):
        if found := re.match(r" *ensures (\w*)", line):
            shown = not names or found[1] in names
        if shown and line and not line.lstrip().startswith("//"):
            yield line[margin:]
