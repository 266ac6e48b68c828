"""docs/HEADLINE.md says what the sources say: its clauses word for word, its types, and its list of definitions, which
has each one that the clauses reach, and no other.

HEADLINE.md and PROMISES.md have the headline word for word, and README.md says each part of it in its own words.
"""
import re
from pathlib import Path
from typing import Dict, Iterable, Iterator, List, NamedTuple, Set, Tuple

import pytest

from dev.layout import TOP
from dev.rattle.items import Item, items_in, members_of
from dev.rattle.logic import WORD, Logic
from dev.rattle.paths import names_in
from dev.rattle.tokens import Source

# A module or a crate, and a name in it.
Name = Tuple[str, str]

PAGE = TOP / "docs" / "HEADLINE.md"
MAX_LINES = 150
# The headline, part by part; and how README.md says each part in its own words.
HEADLINE = (
    ("For streams that the reader accepts, canonical streams have equal bytes exactly if the display lists that the "
     "standard's rules give are equal;",
     "Two accepted pages have identical canonical streams if and only if they have identical lists."),
    ("a canonical stream uses no macro, no REL opcode and one operand size,",
     "it defines and calls no macro, moves by no relative opcode and has one length for the operands that it draws "
     "with."),
    ("is accepted with that same display list", "It is accepted too, with the same list;"),
    ("and is its own canonical stream;", "rewriting it gives its own bytes;"),
    ("and every answer, refusals with their places included, is independent of how the input was cut.",
     "The reader gives exactly that answer, refusals with their places too, in whatever pieces the bytes come."),
)
DECLARED = re.compile(r"(nap_\w+)\.specs\.declared\.(.+?)(?:\.TheVariants)?")
OF_SPECS = re.compile(r"Rattle\.(nap_\w+\.specs\.\w+)\.([^.]+)")


class Specs:
    """A file of definitions: what its names stand for."""

    def __init__(self, text: str) -> None:
        logic = Logic.of(text)
        self.texts = {name: definition.text for name, definition in logic.definitions.items()}
        self.owners = {inner: name for name, definition in logic.definitions.items()
                       for inner in definition.constructors}
        self.names: Dict[str, str] = {}
        self.aliases: Dict[str, str] = {}
        for imported in logic.imports:
            module = imported.module[len("Rattle."):] if imported.module.startswith("Rattle.") else imported.module
            if imported.names is None:
                self.aliases[imported.alias or module.rpartition(".")[2]] = module
            for path in imported.names or ():
                below, _, name = path.rpartition(".")
                self.names[name] = f"{module}.{below}" if below else module

    def cited(self, module: str, text: str) -> Iterator[Name]:
        """What a text of this file, which is that of a module, names."""
        for word in set(re.findall(rf"{WORD}(?:\.{WORD})?", text)):
            head, _, tail = word.partition(".")
            if tail and head in self.aliases:
                yield self.aliases[head], tail
            elif head in self.names:
                yield self.names[head], head
            elif head in self.texts or head in self.owners:
                yield module, head


def reached(files: Dict[str, Specs], roots: Iterable[Name]) -> Tuple[Set[Name], Set[Name]]:
    """What these unfold to: definitions by their modules; and types or constants by their crates."""
    todo = list(roots)
    definitions: Set[Name] = set()
    declared: Set[Name] = set()
    while todo:
        module, name = todo.pop()
        specs, found = files.get(module), DECLARED.fullmatch(module)
        if specs is None:
            declared |= {(found[1], found[2].split(".")[-1])} if found else set()
        elif name in specs.names and name not in specs.texts:
            todo.append((specs.names[name], name))
        else:
            owner = name if name in specs.texts else specs.owners.get(name)
            if owner is not None and (module, owner) not in definitions:
                definitions.add((module, owner))
                todo += specs.cited(module, specs.texts[owner])
    return definitions, declared


class Page:
    """The page: its lines, the clauses with the file that each is of, and the items of its lists."""

    def __init__(self, text: str) -> None:
        self.lines = text.rstrip("\n").split("\n")
        self.clauses: List[Tuple[str, List[str]]] = []
        for line in self.lines:
            named = re.findall(r"`(crates/[\w/.]+\.rt)`", line)
            if named:
                self.clauses.append((named[-1], []))
            elif line.startswith("    ") and self.clauses:
                self.clauses[-1][1].append(line[4:])

    def rows(self, suffix: str) -> Iterator[Tuple[List[str], List[str]]]:
        """The files and the names of each item of the list whose files end so."""
        for files, names in re.findall(rf"^- (nap_.*?{suffix}): (.*)$", "\n".join(self.lines), re.M):
            yield files.split(", "), names.strip().replace("\\*", "*").split(", ")


class Types(NamedTuple):
    """The types of a source, each with those that its members name; and those that have a view."""

    parts: Dict[str, Set[str]]
    shown: Set[str]

    @classmethod
    def of(cls, text: str) -> "Types":
        """The types of a source with this text."""
        source = Source.of(text)
        items = list(items_in(source))
        parts = {item.name: {word for member in members_of(source, item) for word in types_in(member)}
                 for item in items if item.kind in ("struct", "enum")}
        views = (re.match(r"impl(?:<.*?>)? Model for (\w+)", item.head) for item in items if item.kind == "impl")
        return cls(parts, {found[1] for found in views if found})


def types_in(member: Item) -> Set[str]:
    """The names of types in a member; a variant's own name is none."""
    return set(re.findall(r"\b[A-Z]\w*", re.sub(r"^\w+", "", member.head) if member.kind == "variant" else member.head))


def stands_in(block: List[str], source: str) -> bool:
    """Whether there are lines, and they stand in the source one after another, apart from how far they are indented."""
    expected, lines = ("".join(f"{line.strip()}\n" for line in text) for text in (block, source.split("\n")))
    return bool(block) and f"\n{expected}" in f"\n{lines}"


def roots_of(block: List[str], source: str) -> Iterator[Name]:
    """What the clauses name of the definitions, by the imports of their file."""
    words = set(re.findall(WORD, "\n".join(block)))
    for item in items_in(Source.of(source)):
        if item.kind == "use" and item.is_ghost:
            found = (OF_SPECS.fullmatch(name) for _, name in names_in(item.head))
            yield from ((name[1], name[2]) for name in found if name and name[2] in words)


def joined(names: Iterable[Name]) -> str:
    """Names with their modules or crates, one to a line."""
    return "\n".join(sorted(": ".join(name) for name in names))


def prose(path: Path) -> str:
    """The words of a document, with a space between any two."""
    return " ".join(re.sub(r"^> ?", "", path.read_text("utf-8"), flags=re.M).split())


@pytest.fixture(scope="module")
def page() -> Page:
    """The page."""
    return Page(PAGE.read_text("utf-8"))


@pytest.fixture(scope="module")
def specs() -> Dict[str, Specs]:
    """The files of definitions of all crates, by their modules."""
    return {f"{path.parts[-3]}.specs.{path.stem}": Specs(path.read_text("utf-8"))
            for path in TOP.glob("crates/*/specs/*.antt")}


@pytest.fixture(scope="module")
def unfolded(page: Page, specs: Dict[str, Specs]) -> Tuple[Set[Name], Set[Name]]:
    """What the clauses of the page unfold to: definitions, and types or constants."""
    return reached(specs, {root for file, block in page.clauses
                           for root in roots_of(block, (TOP / file).read_text("utf-8"))})


def test_page_is_short(page: Page) -> None:
    assert len(page.lines) <= MAX_LINES, f"{PAGE.name} has {len(page.lines)} lines"


@pytest.mark.parametrize("name", ["docs/HEADLINE.md", "docs/PROMISES.md"])
def test_headline_stands_word_for_word(name: str) -> None:
    assert " ".join(part for part, _ in HEADLINE) in prose(TOP / name), f"{name} hasn't got the headline"


@pytest.mark.parametrize("words", [own for _, own in HEADLINE])
def test_readme_says_each_part_in_its_own_words(words: str) -> None:
    assert words in prose(TOP / "README.md"), f"README.md doesn't say: {words}"


def test_clauses_stand_in_their_files(page: Page) -> None:
    assert page.clauses, f"{PAGE.name} has no clause"
    for file, block in page.clauses:
        assert stands_in(block, (TOP / file).read_text("utf-8")), f"{file} hasn't got these lines: {block}"


def test_definitions_are_those_that_clauses_reach(page: Page, specs: Dict[str, Specs],
                                                  unfolded: Tuple[Set[Name], Set[Name]]) -> None:
    listed = {(file[: -len(".antt")].replace("/", "."), name) for (file,), names in page.rows(".antt")
              for name in names}
    there = {(module, name) for module, file in specs.items() for name in file.texts}
    wrong = {"is listed, and isn't in its file": listed - there, "isn't listed": unfolded[0] - listed,
             "is listed, and no clause reaches it": listed - unfolded[0]}
    faults = [f"{module}: {name} {fault}" for fault, names in wrong.items() for module, name in sorted(names)]
    assert not faults, "\n".join(faults)


def test_types_are_those_that_definitions_name(page: Page, unfolded: Tuple[Set[Name], Set[Name]]) -> None:
    """The page lists each type that the definitions name or that another holds, in its file."""
    declared = {name for name in unfolded[1] if name[1] != "TheConstants"}
    listed: Set[Name] = set()
    parts: Set[str] = set()
    wrong: Set[str] = set()
    for files, names in page.rows(".rt"):
        types = [Types.of((TOP / "crates" / file).read_text("utf-8")) for file in files]
        for name in names:
            bare = name.rstrip("*")
            listed.add((files[0].split("/")[0], bare))
            if not any(bare in there.parts and (bare in there.shown) == name.endswith("*") for there in types):
                wrong.add(name)
            parts |= {part for there in types for part in there.parts.get(name, ())}
    unlisted = parts - {name for _, name in listed} - {"Option", "Vec"}
    assert not wrong, f"no file of their rows has these, with a star where they have a view: {sorted(wrong)}"
    assert not declared - listed, f"definitions name these, which aren't listed:\n{joined(declared - listed)}"
    assert not unlisted, f"listed types hold these, which aren't listed: {sorted(unlisted)}"


def test_definitions_take_no_number_from_the_code(unfolded: Tuple[Set[Name], Set[Name]]) -> None:
    assert not {crate for crate, name in unfolded[1] if name == "TheConstants"}


def test_words_stand_in_the_sources(page: Page) -> None:
    """Each other word in backticks is a name of the sources, a path, or printed by rt."""
    paths = [path for path in TOP.glob("crates/*/s*/**/*.*t") if "out" not in path.parts]
    known = set(re.findall(WORD, "\n".join(path.read_text("utf-8") for path in paths)))
    trusted = (TOP / "docs" / "TRUST.md").read_text("utf-8")
    for word in re.findall(r"`([^`]+)`", "\n".join(page.lines)):
        is_name, parts = re.fullmatch(rf"{WORD}(?:::{WORD})*", word), set(re.findall(WORD, word)) - {"rt"}
        is_known = (TOP / word).exists() if "/" in word else parts <= known or not is_name and f"`{word}`" in trusted
        assert is_known, f"{PAGE.name}: {word} stands nowhere in the sources"


def test_files_to_be_read_are_there(page: Page) -> None:
    headings = "\n".join(line for line in page.lines if re.match(r"\d+\. .*?\*\*", line))
    files = set(re.findall(r"\b\w+\.(?:antt|rt)\b", headings))
    assert not files - {path.name for path in TOP.glob("crates/*/s*/*")}
