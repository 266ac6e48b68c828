"""The counts in documents, and the modules that python/README.md names, are those of the tree.

A count that a document states is in the table here, with what it counts; a number of crates, modules, functions or
vectors that isn't in the table fails.
"""
import re
from pathlib import Path
from typing import Callable, Dict, List, NamedTuple, Set

import pytest

from dev.layout import LIBRARY, TOP

WORDS = ("no one two three four five six seven eight nine ten eleven twelve thirteen fourteen fifteen sixteen "
         "seventeen eighteen nineteen twenty").split()
NUMBER = rf"({'|'.join(WORDS[1:])}|\d[\d,]*)"
# Crates that try or show the others.
OF_TESTS = {"nap_tests", "nap_rows", "naplps_examples"}
# What counts something else: a limit, the toolchain's functions, what was measured on a day.
OTHERS = ("two functions", "three functions", "three modules", "308 modules", "3,516 vectors", "3,759 vectors")
COUNTED = re.compile(rf"\b{NUMBER}\s+(crates|modules|functions|vectors)\b")


def crates() -> int:
    """How many crates the program and the library are."""
    return len({path.parent.name for path in TOP.glob("crates/*/src")} - OF_TESTS)


def calls() -> int:
    """How many calls the library has for C."""
    return len((LIBRARY / "naplps.symbols").read_text("ascii").split())


def kinds() -> int:
    """How many kinds of entry there are."""
    text = (TOP / "crates" / "nap_list" / "src" / "entry.rt").read_text("utf-8")
    body = text[text.index("pub enum Entry"):]
    return len(re.findall(r"^    [A-Z]\w*", body[:body.index("\n}\n")], re.MULTILINE))


def vectors() -> int:
    """How many streams the vectors have, in whole hundreds."""
    files = [path for path in TOP.glob("vectors/*.rows") if path.name != "lines.rows"]
    rows = [line for path in files for line in path.read_text("ascii").splitlines() if line and line[0] != "#"]
    return len(rows) // 100 * 100


def examples() -> int:
    """How many examples the crate of examples has."""
    return len({path.stem for path in TOP.glob("crates/naplps_examples/src/*.rt")} - {"lib", "tests"})


def commands() -> int:
    """How many commands the program has."""
    text = (TOP / "man" / "naplps.1").read_text("utf-8")
    synopsis = text[text.index(".Sh SYNOPSIS"):text.index(".Sh DESCRIPTION")]
    return len(set(re.findall(r"^\.Cm (\w+)$", synopsis, re.MULTILINE)) - {"help"})


def size_of_page() -> int:
    """How many kB the page for browsers has, to the nearest twenty."""
    return round((TOP / "dist" / "browser" / "naplps.html").stat().st_size / 20_000) * 20


class Count(NamedTuple):
    """A count that a document states: the words around the number, and the number by the tree."""

    document: str
    pattern: str
    number: Callable[[], int]


COUNTS = (
    Count("docs/ARCHITECTURE.md", f"naplps is {NUMBER} crates", crates),
    Count("docs/BROWSER.md", f"one file of some {NUMBER} kB", size_of_page),
    Count("docs/LIBRARY.md", f"{NUMBER} calls for C", calls),
    Count("docs/LIBRARY.md", f"has the {NUMBER} examples of this chapter", examples),
    Count("docs/MODEL.md", f"each of the {NUMBER} kinds of entry", kinds),
    Count("docs/PROMISES.md", f"all {NUMBER} kinds", kinds),
    Count("docs/PROMISES.md", f"all {NUMBER} commands", commands),
    Count("README.md", f"some {NUMBER} streams", vectors),
    Count("vectors/README.md", f"some {NUMBER} streams", vectors),
)
# The chapters of python/README.md that name modules of one folder, and other names that look so.
CHAPTERS = {
    "The module for Python": "naplps", "The tool": "naplps_pages", "Collections": "naplps_pages/collection",
    "Boxes": "naplps_pages/box", "Packs": "naplps_pages/packs", "Players": "naplps_pages/player",
    "Reports": "naplps_pages/report",
}
NO_MODULES = {"naplps", "naplps_pages", "zipfile", "tarfile"}


def words_of(document: str) -> str:
    """The text of a document in one line."""
    return " ".join((TOP / document).read_text("utf-8").split())


def value(text: str) -> int:
    """The value of a number as a document has it."""
    return WORDS.index(text) if text in WORDS else int(text.replace(",", ""))


def documents() -> List[str]:
    """The documents that state counts; those of measurements and of earlier versions state older ones."""
    patterns = ("*.md", "docs/*.md", "python/README.md", "vectors/README.md", "examples/**/README.md", "man/*.1")
    found = {str(path.relative_to(TOP)) for pattern in patterns for path in TOP.glob(pattern)}
    return sorted(found - {"CHANGELOG.md"})


@pytest.mark.parametrize("count", COUNTS, ids=lambda count: f"{count.document}-{count.number.__name__}")
def test_a_count_is_that_of_the_tree(count: Count) -> None:
    found = list(re.finditer(count.pattern, words_of(count.document)))
    assert found, f"{count.document} has no '{count.pattern}'"
    for match in found:
        assert value(match[1]) == count.number(), f"{count.document}: {match[0]}: by the tree {count.number()}"


@pytest.mark.parametrize("document", documents())
def test_a_number_of_crates_and_the_like_is_in_the_table(document: str) -> None:
    known = {match[0] for count in COUNTS for match in re.finditer(count.pattern, words_of(count.document))}
    unknown = [match[0] for match in COUNTED.finditer(words_of(document))
               if not any(match[0] in count for count in (*known, *OTHERS))]
    assert unknown == [], f"{document}: leave the number out, or add it to COUNTS in tests/sources/test_counts.py"


def chapters() -> Dict[str, str]:
    """The chapters of python/README.md."""
    parts = re.split(r"^#+ (.*)\n", (TOP / "python" / "README.md").read_text("utf-8"), flags=re.MULTILINE)
    return dict(zip(parts[1::2], parts[2::2]))


def modules(folder: Path) -> Set[str]:
    """The modules and scripts in a folder and below it, scripts with their ending."""
    return {path.stem if path.suffix == ".py" else path.name for path in folder.rglob("*.*")
            if path.suffix in (".py", ".js", ".css", ".html")}


@pytest.mark.parametrize("chapter", chapters())
def test_a_chapter_names_modules_that_are_there(chapter: str) -> None:
    names = {name for name in re.findall(r"`([a-z_]+(?:\.(?:js|css|html))?)`", chapters()[chapter])} - NO_MODULES
    missing = names - modules(TOP / "python" / CHAPTERS.get(chapter, ""))
    assert not missing, f"python/README.md, {chapter}: there is no {', '.join(sorted(missing))}"


def test_the_tables_have_each_package() -> None:
    rows = set(re.findall(r"^\| `(naplps[\w/]*)` \|", "".join(chapters().values()), re.MULTILINE))
    packages = {str(path.parent.relative_to(TOP / "python")) for path in TOP.glob("python/naplps*/**/__init__.py")}
    assert rows == packages, f"python/README.md: packages {', '.join(sorted(rows ^ packages))}"
    assert set(CHAPTERS) <= set(chapters()), "python/README.md has other chapters"
