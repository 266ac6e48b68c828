"""Numbers that may only fall: names that say no thing, in a hundred, and lines of code.

Whoever makes one fall writes the lower number into the tables below.
"""
import ast
import math
from collections import Counter
from pathlib import Path
from typing import Iterator, List, Sequence

import pytest

from command import TOP

# Of a hundred parameters, variables, fields and functions of a tree, so many may have an empty name.
SHARES = {"python/naplps": 10.0, "python/naplps_pages": 14.8, "tests": 15.9, "dev": 10.5}
# Lines of the files of code in these trees.
LINES = {"python/naplps python/naplps_pages": 29041, "tests dev scripts": 44763}
CODE = ("", ".c", ".h", ".mjs", ".py", ".rs")
# Pronouns, participles, particles and adjectives, but those that all programs have, such as `read` and `left`.
EMPTY = frozenset("""
    it its this that these those one ones each every some any all both others other another none same whole which what
    who why how when where rest more most least few many several

    said told asked given made kept held begun began ended taken took seen wanted needed known written drawn shown sent
    heard waited tried treated cured named meant owed spent got went came come ran done gone lost won felt thought
    brought counted measured looked judged joined folded listed opened closed marked missing wanting waiting asking
    saying telling making taking finding holding beginning ending going coming talking

    at by in over under behind before after again anew apart ahead aside so then now here there own alike alone once
    still yet too beside between within without

    sick early late short long big small bad good wrong true fresh
""".split())


def files_in(trees: str) -> Iterator[Path]:
    """The files of code in trees."""
    for tree in trees.split():
        for path in sorted(Path(TOP, tree).rglob("*")):
            if path.suffix in CODE and path.is_file() and "__pycache__" not in path.parts:
                yield path


def is_python(path: Path) -> bool:
    """Whether a file is one of Python, by its ending or its first line."""
    with path.open("rb") as file:
        return path.suffix == ".py" or b"python3" in file.readline(80)


def names_in(source: str) -> Iterator[str]:
    """The names that a source binds, but those of its classes and tests."""
    for node in ast.walk(ast.parse(source)):
        if isinstance(node, (ast.FunctionDef, ast.AsyncFunctionDef)) and not node.name.startswith("test_"):
            yield node.name
        elif isinstance(node, ast.arg) and node.arg not in ("self", "cls"):
            yield node.arg
        elif isinstance(node, ast.Name) and isinstance(node.ctx, ast.Store):
            yield node.id
        elif isinstance(node, ast.Attribute) and isinstance(node.ctx, ast.Store):
            yield node.attr
        elif isinstance(node, ast.ExceptHandler) and node.name:
            yield node.name


def names_of(tree: str) -> List[str]:
    """The names that the sources of a tree bind, as often as they do."""
    sources = (path.read_text("utf-8") for path in files_in(tree) if is_python(path))
    return [name.strip("_") for source in sources for name in names_in(source)]


def share_of(names: Sequence[str]) -> float:
    """How many of a hundred names are empty, to the next tenth above."""
    return math.ceil(1000 * sum(name in EMPTY for name in names) / len(names)) / 10


@pytest.mark.parametrize("tree", SHARES)
def test_few_names_say_no_thing(tree: str) -> None:
    names = names_of(tree)
    share, frequent = share_of(names), Counter(name for name in names if name in EMPTY).most_common(12)
    assert share <= SHARES[tree], f"{tree}: {share} in a hundred of {len(names)} names are empty: {frequent}"


def test_empty_names_are_counted() -> None:
    names = [*names_in("""
class Each:
    def told(self, at, page, *some, what=1, **more):
        self.held = [it for it, row in page]
def test_made(): pass
try:
    lambda one: None
except OSError as why:
    number: int = 2
""")]
    assert sorted(names) == sorted("told at page some what more held it row one why number".split())
    assert share_of(names) == 75.0


@pytest.mark.parametrize("trees", LINES)
def test_the_code_gets_no_longer(trees: str) -> None:
    lines = sum(path.read_bytes().count(b"\n") for path in files_in(trees))
    assert lines <= LINES[trees], f"{trees}: {lines} lines"
