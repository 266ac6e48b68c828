"""The functions, laws and clauses exist that docs/PROMISES.md names, and the names that README.md of a crate has.

Each *By* names functions of the crates in the heading of its chapter, and of those that it names itself: `name`, or
`Type::name` of what stands in an impl or a trait of that type. What follows a colon are names of clauses.
"""
import re
from pathlib import Path
from typing import Dict, Iterator, List, NamedTuple, Set, Tuple

import pytest

from dev.crates import sources_of
from dev.layout import TOP
from dev.rattle.items import items_in
from dev.rattle.tokens import Source

PAGES = sorted(TOP.glob("crates/*/README.md"))
CHAPTER = re.compile(r"^## (.+)$", re.MULTILINE)
BY = re.compile(r"\*By\*:(.*?)(?=\n\n|\Z)", re.DOTALL)
WORD = re.compile(r"[A-Za-z_]\w*")
NAME = re.compile(r"`(?:(\w+)::)?(\w+)`(?:: ((?:\w+(?:, )?)+))?")


class Crate(NamedTuple):
    """What the sources of a crate have: functions, each by its owner and its name; names of clauses, and types."""

    functions: Set[Tuple[str, str]]
    clauses: Set[str]
    types: Set[str]

    @classmethod
    def of(cls, folder: Path) -> "Crate":
        """What a crate has, but for its tests."""
        items = [item for path in sources_of(folder) for item in items_in(Source.of(path.read_text("utf-8")))]
        return cls({(item.owner, item.name) for item in items if item.kind == "fn"},
                   {clause.name for item in items for clause in item.clauses if clause.kind != "decreases"} - {""},
                   {item.name for item in items if item.kind in ("struct", "enum", "trait", "type")})


def rows(text: str, crates: Dict[str, Crate]) -> Iterator[Tuple[List[Crate], str]]:
    """The text of each *By*, and the crates whose functions it may name: all where its chapter names none."""
    _, *parts = CHAPTER.split(text)
    for title, body in zip(parts[::2], parts[1::2]):
        for found in BY.finditer(body):
            text_of_by = " ".join(found[1].split())
            named = [word for word in re.findall(r"\bnap\w*", title) if word in crates]
            having = {*named, *re.findall(r"\bnap\w*", text_of_by)} if named else {*crates}
            yield [crate for name, crate in crates.items() if name in having], text_of_by


def faults_of(crates: List[Crate], text: str) -> Iterator[str]:
    """What of the text of a *By* isn't there. A function that is named with an owner is in an impl or a trait of it."""
    for owner, name, clauses in NAME.findall(text):
        owned = re.compile(rf"\b{owner}\b")
        is_type = not owner and any(name in crate.types for crate in crates)
        is_function = any(name == function and (not owner or owned.search(head))
                          for crate in crates for head, function in crate.functions)
        if not is_type and not is_function:
            yield f"no function {owner}{'::' if owner else ''}{name}"
        yield from (f"no clause {clause} ({name})" for clause in clauses.split(", ")
                    if clause and not any(clause in crate.clauses for crate in crates))


def test_promises_name_what_is_there() -> None:
    crates = {path.parent.name: Crate.of(path.parent) for path in TOP.glob("crates/*/src")}
    texts = list(rows((TOP / "docs" / "PROMISES.md").read_text("utf-8"), crates))
    wrong = [f"docs/PROMISES.md: {fault}, in: {text[:100]}" for having, text in texts
             for fault in faults_of(having, text)]
    assert texts, "docs/PROMISES.md says of no promise by what it holds"
    assert not wrong, "\n".join(wrong)


@pytest.mark.parametrize("page", PAGES, ids=[page.parent.name for page in PAGES])
def test_pages_of_crates_name_what_is_there(page: Path) -> None:
    """Each name in backticks is a word of the crate's sources, or a path."""
    sources = [path for part in ("src", "specs") for path in (page.parent / part).rglob("*.*t")]
    words = set(WORD.findall("\n".join(path.read_text("utf-8") for path in sources)))
    names = re.findall(r"`([^`\n]+)`", page.read_text("utf-8"))
    wrong = [name for name in names if not any((folder / name).exists() for folder in (TOP, page.parent))
             and not set(WORD.findall(name)) <= words]
    assert not wrong, f"{page.relative_to(TOP)} names what isn't there: {wrong}"


def test_what_is_wrong() -> None:
    low = Crate({("impl<T> Half<T>", "of"), ("", "halve")}, {"exact"}, {"Half"})
    high = Crate({("pub trait Halves", "put")}, {"kept"}, set())
    text = ("## Low: nap_low\n\n*By*: `Half::of`: exact; `Half`,\n`halve`.\n\n"
            "*By*: `Halves::put`: kept, gone. (nap_high)\n\n## Others\n\n*By*: `put`; `Half::halve`; `none`.\n")
    assert [list(faults_of(having, by)) for having, by in rows(text, {"nap_low": low, "nap_high": high})] == [
        [], ["no clause gone (put)"], ["no function Half::halve", "no function none"]]
    assert list(faults_of([low], "`of`: exact, kept")) == ["no clause kept (of)"]
    assert list(faults_of([low], "`put`")) == ["no function put"]
