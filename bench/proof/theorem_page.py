#!/usr/bin/env python3
"""The statement of the theorem on one page, `docs/theorem.md`: what a reader has to believe, in reading order.

theorem_page.py: writes the page. It begins with the definitions of `crates/theorem/specs`, but for those that only laws need, and with
what queries may ask (QUESTIONS). It adds what these use, of other crates too, down to the kit's libraries. Where laws or tests say
enough of a definition, the page has them instead (CUTS).

theorem_page.py --check: whether the page is what the sources give, and has at most MOST_LINES lines of code.

theorem_page.py --sizes: prints the lines of code and of comment of each section, the largest first.
"""

import argparse
import collections
import itertools
import pathlib
import re
import sys
import textwrap
import typing

sys.dont_write_bytecode = True
sys.path.append(str(pathlib.Path(__file__).resolve().parent))

from definitions import COLUMNS, CRATES, TOP, Definition, Specs, clauses, file_at, walk

PAGE, MOST_LINES = TOP / "docs" / "theorem.md", 600
# The file of what queries may ask: the laws of `theorem` name it, its own definitions take any question.
QUESTIONS = "rules/specs/Answers.antt"
# What only the laws need.
FOR_LAWS = "ShownBy"
# The files of the laws by which the code keeps the statement, with the premises of these contracts. The laws of other files follow
# from the statement alone.
TIES = {"serial": "V", "committing": "V, M, R", "handles": "H", "answers": "H, and what 9 says of handles"}


class Cut(typing.NamedTuple):
    """Why definitions needn't be read: clauses of laws, what they say, and which tests hold what they leave open."""

    laws: list
    says: str
    leaves: str


# By file and names. A law is a file, a function, and the names of its clauses, or all. Tests have the names that `./test` takes.
CUTS = {
    "policy/specs/Meaning.antt policy_of": Cut(
        ["policy/src/laws.rt policy_reading policy", "policy/src/laws.rt one_reading one_tree"],
        "`IsPolicy text t` is the grammar: the text is one of this policy. No text is one of two.",
        "Which text is one of which policy: [format](format.md#policy-language), and the tests "
        "`text_tests::parsing::texts::texts_and_canonical_texts` (34 texts, by hand) and "
        "`text_tests::parsing::faults::syntax_role_and_threshold` (texts of no policy).",
    ),
    "policy/specs/Text.antt text_of": Cut(
        ["policy/src/policy.rt text same shortest"],
        "`self.now` is any policy that has a text. Its canonical text is one of it, and none is shorter. So no two of these policies have "
        "the same canonical text.",
        "How it looks: the test `text_tests::parsing::texts::texts_and_canonical_texts`.",
    ),
    "block/specs/Grammar.antt Spells": Cut(
        ["block/src/laws.rt one_reading one_block one_spelling"],
        "`Spells bytes b` is the grammar: these bytes encode this block, and all fields are within their limits. Bytes encode one block at "
        "most, and a block has one encoding at most.",
        "Which bytes encode which block: [format](format.md#block), and the tests `bytes_tests::blocks::blocks_both_ways` and "
        "`bytes_tests::blocks::at_the_limits_and_one_past_them`.",
    ),
    "block/specs/Faults.antt HasFault": Cut(
        ["block/src/laws.rt one_reading one_fault block_or_fault some_reading", "theorem/src/consequences.rt faults_are_of_bytes"],
        "Bytes have a fault exactly if they encode no block, and then only one, which isn't `Memory`.",
        "Which one: [format](format.md#block), and the test `bytes_tests::blocks::the_first_fault`.",
    ),
    "transaction/specs/Items.antt item_of": Cut(
        ["transaction/src/laws.rt item_reading"],
        "`SpellsItem version bytes item` is the grammar: these bytes encode this item, and all fields are within their limits. So bytes "
        "encode one item at most.",
        "Which bytes encode which item: [format](format.md#transaction-and-identity), and the tests "
        "`bytes_tests::transactions::the_examples_both_ways`, `bytes_tests::transactions::what_the_examples_say`, "
        "`bytes_tests::updates::the_example_both_ways_and_what_it_says` and `bytes_tests::updates::versions::items_of_both_versions`.",
    ),
    "transaction/specs/Grammar.antt body_bytes signed_bytes": Cut(
        [],
        "The encoding of a transaction up to its endorsements, and up to its creator's signature. No law speaks of these beginnings. That "
        "they show all fields before their ends follows from [Items](#items): if those of two transactions were the same, the same rest "
        "after both would make one encoding of two.",
        "Which bytes these are: [format](format.md#transaction-and-identity), and the tests "
        "`bytes_tests::transactions::the_examples_both_ways`, `text_tests::evaluating::signing::who_signed` and "
        "`text_tests::evaluating::updates::a_creator_signs_all_before_its_signature`.",
    ),
    "transaction/specs/UpdateGrammar.antt update_body_bytes update_signed_bytes": Cut(
        [],
        "The same for an update.",
        "Which bytes these are: [format](format.md#updates), and the tests "
        "`text_tests::evaluating::updates::an_endorser_signs_the_body_and_its_own_bytes`, "
        "`text_tests::evaluating::updates::a_creator_signs_all_before_its_signature` and `ledger_tests::update_messages::what_is_signed`.",
    ),
    "rules/specs/CommitBytes.antt commit_bytes": Cut(
        ["rules/src/laws.rt commit_bytes_tell_the_block", "chain_laws/src/laws.rt accepted_blocks_have_room accepted"],
        "If two blocks have the same bytes here, they have the same version, number, flags, replaced policy, and `differing` rows: those "
        "that aren't the same before and after the block, each as it is after. A policy counts as its canonical text. `HasRoom` says that "
        "all lengths fit their fields; it holds of each accepted block.",
        "Which bytes these are: [format](format.md#hashes), and the test `ledger_tests::commit_hashes::what_is_hashed` (five chains, by "
        "hand).",
    ),
    "header_hash/specs/Der.antt der_of": Cut(
        ["header_hash/src/der.rt integers_are_minimal"],
        "A SEQUENCE of the number, as INTEGER, and of the previous hash and the data hash, each as OCTET STRING. `IntegersAreMinimal` says "
        "that the number is encoded as X.690 demands. No law speaks of the rest.",
        "Which bytes these are: [format](format.md#hashes), and the test `bytes_tests::header_hashes::headers` (12 headers, by pyasn1).",
    ),
}

# The kit's names that Rust doesn't have, with their arguments.
KIT_WORDS = {
    "FinMap cmp X": "a map to `X` whose keys are ordered by `cmp`; `entries` lists its pairs in that order",
    "FoldsTo step x ys z": "steps over the elements of `ys`, one after the other, lead from `x` to `z`",
    "MatchBool b P Q": "`P` if `b` is true, `Q` if it is false",
    "encode_lower bytes": "the bytes as hexadecimal text",
    "is_sorted cmp es": "each key of these pairs is less than all after it",
    "last_or o xs": "the last element, or `o` of an empty list",
    "pointwise same xs ys": "as many elements in both, and at each place the same",
    "then_cmp a b": "the order `a`, and of what is equal by it the order `b`; `on f a` orders by what `f` gives",
}

BEGINNING = """\
# The theorem

What a committer does, and what each word of that means. `bench/proof/theorem_page.py` writes this page from the
sources; `./test` fails if it isn't current.

## How to read it

- **To believe**: the definitions. No proof can show that what they say is what you want of a committer.
- **Proved, and only cited here**: that the code does it. The [proved statements](#proved-statements) tie this page to
  the contracts of [`Committer`](../crates/commit/src/committer.rt) and
  [`QueryHandle`](../crates/query/src/handle.rt), which the code keeps.
- **Order**: the theorem in words, its definitions, then the vocabulary, from the highest crate to the lowest. If you
  are in a hurry, read [Serial](#serial), [Step](#step) and [Promise](#promise). What queries ask is in
  [Answers](#answers).
{flags}
- **Words**: a `World` is a ledger, and its `definitions` are the policies of chaincodes. The *touched* keys of
  [Endorsement](#endorsement) are those of `policy_written`. *Ours* marks rules on which Fabric's documents are
  silent. If two sections define a name, each means its own; so do the contracts with `Step`, `Chain` and `Submits`.
{left_out}
- **Size**: {definitions} definitions in {files} files: {code} lines of code, {comment} of comment. What is left out has
  {more} lines of code.

| sign | meaning |
|---|---|
| `x ∷ xs`, `xs ++ ys`, `[]` | a list that begins with `x`; two lists, joined; the empty list |
| `A × B`, `(x : A) × B` | both; there is an `x`, and for it `B`. The parts of a pair `p` are `p.0` and `p.1` |
| `A ⊎ B`, `A ↔ B` | one of both; `A` exactly if `B` |
| `A → B`, `(x : A) → B` | a function, or: if `A` then `B`; for all `x` |
| `(i : ℕ) → slice_index bytes i < 256` | each element of `bytes` is a byte |
| `Type 0`, `Bool` | a statement, which holds or doesn't, or a type (`Type 1` of such); a truth value, which is computed |
| `x ≡ y`, `x ≢ y`, `⊥`, `Unit` | equal; different; what never holds; what always holds |
| `item.Tx`, `{{A : Type 0}}` | the variant `Tx`, after a short name of its type; an argument that is left out in calls |
| `abbrev`, `unfoldable`, `pub`, `mutual` | how proofs and other files may use a definition: it means the same without |
| `record A : Type 0 where`, `data A : Type 0 where` | a type, by its fields or its variants. If its fields aren't shown, it \
is one of those that are left out |
| `ensures x {{ .. }}`, `self.now`, `F.step` | a part of a contract, named `x`; a value at the end of a call; what a type \
parameter fixes |
| `record r {{ a = x }}`, `λ x. y` | `r` with another `a`; the function from `x` to `y` |
| `A = {{ a : ℕ }}`, `A = B \\| C ℕ` | a type of Rust, as contracts see it: with these fields; one of these variants. \
Numbers are `ℕ`, bytes are lists of `ℕ`, and what is shared or borrowed is as if it weren't |

## In words

{words}

## Proved statements

Functions of the crate `theorem` that do nothing at run time. What they ensure is proved, from the contracts of the code
or from this page alone: `rt ci theorem` checks it, and all crates below. [In full](#the-proved-statements-in-full).

| statement | from; premises | what it says |
|---|---|---|
{laws}

## What isn't here

- The contracts of the code, and [{for_laws}](../crates/theorem/specs/{for_laws}.antt), which says what a committer
  has shown by what it published. The statements from contracts rest on both.
- How channel texts and key books are read, what the program prints, explanations, conflicts, the library for C:
  [assurance](assurance.md).
- What is trusted, and what is open: [README](../README.md#what-isnt-proved). The names of the kit, listed
  [at the end](#names-of-the-kit), mean what its libraries say.

"""


def check_tests(text):
    """Ends with an error if a test that a text names isn't there."""
    for test in re.findall(r"`(\w+_tests::[\w:]+)`", text):
        crate, *modules, name = test.split("::")
        file = CRATES.joinpath(crate, "src", *modules).with_suffix(".rt")
        if not file.exists() or f"#[test]\nfn {name}(" not in file.read_text():
            sys.exit(f"{test}: there is no such test")


def linked(path):
    return f"[{path.relative_to(CRATES)}](../{path.relative_to(TOP)})"


def anchor_of(title):
    return re.sub(r"[^\w -]", "", title.lower()).replace(" ", "-")


def fenced(lines):
    return ["```text", *lines, "```", ""]


def wrapped(text):
    return [*textwrap.wrap(text, COLUMNS, break_long_words=False, break_on_hyphens=False), ""]


def counts(lines):
    """The lines of code and of comment in fences."""
    fences = "".join(re.findall(r"^```text\n(.*?)^```", "\n".join(lines), re.M | re.S)).splitlines()
    comments = sum(line.lstrip().startswith("--") for line in fences)
    return sum(bool(line) for line in fences) - comments, comments


def code_of(its):
    """Definitions, each with its comment, and before several of one part of their file what that says of the part."""
    lines = []
    for part, group in itertools.groupby(its, key=lambda it: it.part):
        group = [*group]
        lines += [f"-- ---- {part}", ""] if part and len(group) > 1 else []
        lines += [line for it in group for line in [*it.comment, *it.code, ""]]
    return fenced(lines[:-1])


def cut_of(its):
    """What the page has instead of definitions: their types, and laws."""
    cut = its[0].cut
    check_tests(cut.leaves)
    lines = [*code_of(its), *wrapped(f"**Not defined here.** {cut.says}")]
    if cut.laws:
        lines += fenced([line for law in cut.laws for line in clauses(law)])
    return lines + wrapped(cut.leaves)


class Page:
    """The sections of what was found: a file of definitions is one, and so are the types of a crate."""

    def __init__(self, found):
        self.sections = collections.defaultdict(list)
        for it in found:
            self.sections[self.place_of(it)].append(it)
        plain = {place: self.plain_title(place) for place in self.sections}
        often = [title for title, count in collections.Counter(plain.values()).items() if count > 1]
        self.titles = {place: f"{title} ({place[0]})" if title in often else title for place, title in plain.items()}

    @staticmethod
    def place_of(it):
        return it.file.crate, it.file if isinstance(it.file, Specs) else None

    @staticmethod
    def plain_title(place):
        return re.sub(r"(?<=[a-z])(?=[A-Z])", " ", place[1].path.stem).capitalize() if place[1] else "Types"

    def link(self, place):
        return f"[{self.titles[place]}](#{anchor_of(self.titles[place])})"

    def elsewhere(self, its):
        """Where the names are that definitions use of other sections."""
        names = collections.defaultdict(list)
        for used in dict.fromkeys(used for it in its for used in it.used() if isinstance(used, Definition)):
            names[self.place_of(used)].append(f"`{used.names[0]}`")
        names.pop(self.place_of(its[0]), None)
        return wrapped(f"Elsewhere: {'; '.join(f'{self.link(place)} {chr(32).join(names[place])}' for place in names)}.") if names else []

    def section(self, place):
        file, its = place[1], self.sections[place]
        lines = [f"### {self.titles[place]}", ""]
        if file:
            its.sort(key=file.definitions.index)
            lines += wrapped(f"{linked(file.path)}: {' '.join(file.intro)}")
        else:
            lines += wrapped(f"From {', '.join(dict.fromkeys(linked(it.file.path) for it in its))}.")
        shown, cut = [it for it in its if not it.cut], [it for it in its if it.cut]
        return lines + (code_of(shown) if shown else []) + (cut_of(cut) if cut else []) + self.elsewhere(its)

    def crate(self, crate):
        """The sections of a crate, its types first."""
        places = sorted((place for place in self.sections if place[0] == crate), key=lambda place: place[1] is not None)
        return [line for place in places for line in self.section(place)]

    def left_out(self):
        links = ((it.names[0], anchor_of(title)) for place, title in self.titles.items() for it in self.sections[place] if it.cut)
        listed = ", ".join(f"[`{name}`](#{anchor})" for name, anchor in links)
        said = f"- **Left out**: of {listed} the page has the type, laws and tests instead of the definition, and says what they leave open."
        return "\n".join(wrapped(said)[:-1]).replace("\n", "\n  ")


def found_from_the_statement():
    """The definitions of the page in the order in which they are met, and the names of the kit."""
    parts = re.findall(r"^pub mod (\w+)$", (CRATES / "theorem/specs/Lib.antt").read_text(), re.M)
    files = [file_at(CRATES / f"theorem/specs/{part}.antt") for part in parts if part != FOR_LAWS]
    found, _ = walk([it for file in files for it in file.definitions])
    return walk(found + file_at(CRATES / QUESTIONS).definitions)


def cut_short():
    """Leaves the types of what is cut, and returns how many lines of code that saves."""
    whole = counts(code_of(found_from_the_statement()[0]))[0]
    for key, cut in CUTS.items():
        path, *names = key.split()
        for name in names:
            file_at(CRATES / path).by_name[name].cut_short(cut)
    return whole - counts(code_of(found_from_the_statement()[0]))[0]


def all_laws():
    """The laws of `theorem`, those by which the code keeps the statement first: file, comment and name of each."""
    files = {path.stem: path for path in sorted((CRATES / "theorem/src").glob("*.rt")) if path.stem != "lib"}
    for name in [*TIES, *(name for name in files if name not in TIES)]:
        for comment, law in re.findall(r"((?:^/// .*\n)+)pub fn (\w+)", files[name].read_text(), re.M):
            yield files[name], comment.replace("/// ", "").replace("\n", " ").strip().removeprefix("Proved: "), law


def laws():
    """A row for each law."""
    for file, said, law in all_laws():
        source = f"contracts; {TIES[file.stem]}" if file.stem in TIES else "this page"
        yield f"| [`{law}`](../{file.relative_to(TOP)}) | {source} | {said[0].upper()}{said[1:]} |"


def in_full():
    """The clauses of all laws. They aren't counted: nobody has to believe what is proved."""
    said = ("What each proved statement ensures, with its conditions. Those from contracts name the contracts' own definitions, as "
            "`committing.Submits`, `Step`, `Chain`, `Watch`, `GoesOn`, `Learns` and `job_of`, and those of `ShownBy`, as `shown_by`, "
            "`known_by`, `watched_world`, `answered` and `IsHandleOf`. These aren't on this page: they are what the code keeps. "
            "`AllByRecursion P xs`: each element has `P`. `IsPrefix xs ys`: `ys` begins with `xs`.")
    lines = [line for file, _, law in all_laws() for line in clauses(f"{file.relative_to(CRATES)} {law}")]
    return ["## The proved statements in full", "", *wrapped(said), "```rust", *lines, "```", ""]


def names_of_kit(names):
    modules = collections.defaultdict(list)
    for module, name in names:
        modules[module].append("if then else" if name.startswith("if◌") else name.replace("◌", "").replace("|", "\\|"))
    rows = [f"| `{module}` | {' '.join(f'`{name}`' for name in sorted(modules[module]))} |" for module in sorted(modules)]
    said = "Here the page stops: the kit's libraries define these, and are trusted. Most are as in Rust. Subtraction stops at 0."
    words = [f"| `{name}` | {words} |" for name, words in KIT_WORDS.items() if name.split()[0] in sum(modules.values(), [])]
    return ["## Names of the kit", "", *wrapped(said), "| name | meaning |", "|---|---|", *words, "", "| module | names |", "|---|---|", *rows, ""]


def flags():
    """What the page says of flags, with their numbers."""
    numbers = re.findall(r"Flag::(\w+) => (\d+),", (CRATES / "rules/src/flag.rt").read_text())
    listed = ", ".join(f"{number} {name}" for name, number in numbers)
    said = f"- **Flags** have Fabric's names and numbers: {listed}. Examples: [behaviour](behaviour.md#flags). A receipt's height is its block's number plus one."
    return "\n  ".join(wrapped(said)[:-1])


def in_words():
    """What `theorem` says of itself: the theorem and its premises."""
    lines = [re.sub(r"^([A-Z]): ", r"- **\1**: ", line) for line in file_at(CRATES / "theorem/specs/Lib.antt").intro]
    return "\n".join("\n  ".join(textwrap.wrap(line, COLUMNS)) if line.startswith("- ") else line for line in lines)


def text_of_page():
    more = cut_short()
    found, names = found_from_the_statement()
    page = Page(found)
    order = re.findall(r"^(\w+).*:", (TOP / "crates.txt").read_text(), re.M)
    body = ["## The statement", "", *page.crate("theorem")]
    for crate in sorted({it.file.crate for it in found} - {"theorem"}, key=order.index, reverse=True):
        intro = re.match(r"((?://!.*\n)+)", (CRATES / crate / "src/lib.rt").read_text())[1].replace("\n", " ").replace("//! ", "")
        body += [f"## Vocabulary: {crate}", "", *wrapped(re.match(r".*?\.(?=\s)", intro)[0]), *page.crate(crate)]
    code, comment = counts(body)
    beginning = BEGINNING.format(
        left_out=page.left_out(), definitions=len(found), files=len({it.file for it in found}), code=code, comment=comment, more=more,
        flags=flags(), words=in_words(), laws="\n".join(laws()), for_laws=FOR_LAWS,
    )
    return beginning + "\n".join(body + in_full() + names_of_kit(names))


def check(text):
    code, is_current = counts(text.splitlines())[0], PAGE.exists() and PAGE.read_text() == text
    if not is_current:
        print(f"{PAGE.relative_to(TOP)} isn't what the sources give: run bench/proof/theorem_page.py")
    print(f"{code} lines of code in {PAGE.relative_to(TOP)}, of {MOST_LINES}")
    return 0 if is_current and code <= MOST_LINES else 1


def main():
    words = argparse.ArgumentParser(description=__doc__, formatter_class=argparse.RawDescriptionHelpFormatter)
    words.add_argument("--check", action="store_true")
    words.add_argument("--sizes", action="store_true")
    given, text = words.parse_args(), text_of_page()
    if given.check:
        return check(text)
    if given.sizes:
        parts = [(*counts([part]), part.splitlines()[0]) for part in re.split(r"^### ", text, flags=re.M)[1:]]
        print("\n".join(f"{code:5} {comment:4}  {title}" for code, comment, title in sorted(parts, reverse=True)))
    else:
        PAGE.write_text(text)
    return 0


if __name__ == "__main__":
    sys.exit(main())
