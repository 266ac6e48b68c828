"""Each test asserts something, in Rust and in Python.

A test in Rust is a function marked #[test]; one in Python is a function whose name begins with `test_`, in a file whose
name does. It asserts by itself, by a function of its own crate or file, or by one of tests/lib and conftest.py:
`assert`, and pytest's `raises`, `warns` and `fail`.
"""
import ast
import functools
import re
from pathlib import Path
from typing import FrozenSet, Iterable, Iterator, List, NamedTuple, Set

import pytest

from dev.layout import TOP
from dev.rattle.items import items_in
from dev.rattle.tokens import Source

CRATES = sorted(path.name for path in TOP.glob("crates/*"))
FOLDERS = sorted({path.parent.name for path in TOP.glob("tests/*/test_*.py")})
CALL = re.compile(r"\b(\w+)\s*(?:::<[^>()]*>)?\(")
RUST_ASSERTS = re.compile(r"\bassert(?:_eq|_ne)?!")
PYTHON_ASSERTS = re.compile(r"assert\w*|raises|fail|warns")


class Function(NamedTuple):
    """A function: its place and name, whether it asserts by itself, whether it is a test, and the names it calls."""

    place: str
    name: str
    asserts: bool
    is_test: bool
    calls: FrozenSet[str]


def in_rust(path: Path) -> Iterator[Function]:
    """The functions of a source in Rust."""
    source = Source.of(path.read_text("utf-8"))
    for item in items_in(source):
        if item.kind == "fn":
            body = source.shape[slice(*item.body)]
            place = f"{path.relative_to(TOP)}:{source.line(item.start)}"
            yield Function(place, item.name, RUST_ASSERTS.search(body) is not None, "#[test]" in item.attributes,
                           frozenset(CALL.findall(body)))


def names_called(node: ast.AST, modules: Set[str]) -> Iterator[str]:
    """The names that a function calls, but for those of modules."""
    for call in ast.walk(node):
        if isinstance(call, ast.Call) and isinstance(call.func, ast.Name):
            yield call.func.id
        elif isinstance(call, ast.Call) and isinstance(call.func, ast.Attribute):
            owner = call.func.value
            if not (isinstance(owner, ast.Name) and owner.id in modules and owner.id != "pytest"):
                yield call.func.attr


def in_python(path: Path) -> List[Function]:
    """The functions of a source in Python, those within others and methods too."""
    nodes = [*ast.walk(ast.parse(path.read_text("utf-8"), str(path)))]
    modules = {name.asname or name.name for node in nodes if isinstance(node, ast.Import) for name in node.names}
    functions = []
    for node in nodes:
        if isinstance(node, (ast.FunctionDef, ast.AsyncFunctionDef)):
            names = frozenset(names_called(node, modules))
            asserts = any(isinstance(inner, ast.Assert) for inner in ast.walk(node))
            functions.append(Function(f"{path.relative_to(TOP)}:{node.lineno}", node.name,
                                      asserts or any(map(PYTHON_ASSERTS.fullmatch, names)),
                                      path.name.startswith("test_") and node.name.startswith("test_"), names))
    return functions


def asserting(functions: Iterable[Function], known: FrozenSet[str] = frozenset()) -> FrozenSet[str]:
    """The names of functions that assert, by themselves or by those that they call, with names that are known to."""
    names, more = known, {function.name for function in functions if function.asserts}
    while more:
        names |= more
        more = {function.name for function in functions if function.calls & names} - names
    return names


@functools.lru_cache(maxsize=None)
def shared() -> FrozenSet[str]:
    """The names that assert among those that all tests in Python share."""
    return asserting([function for pattern in ("lib/*.py", "**/conftest.py")
                      for path in sorted((TOP / "tests").glob(pattern)) for function in in_python(path)])


def silent(functions: List[Function], known: FrozenSet[str] = frozenset()) -> List[str]:
    """The tests among functions that assert nothing, neither by themselves nor by those that they call."""
    names = asserting(functions, known)
    return [f"{function.place}: {function.name} asserts nothing" for function in functions
            if function.is_test and not (function.asserts or function.calls & names)]


@pytest.mark.parametrize("crate", CRATES)
def test_each_test_in_rust_asserts(crate: str) -> None:
    functions = [function for path in sorted((TOP / "crates" / crate / "src").rglob("*.rt"))
                 for function in in_rust(path)]
    assert silent(functions) == []
    assert crate != "nap_tests" or any(function.is_test for function in functions), "no test is found"


@pytest.mark.parametrize("folder", FOLDERS)
def test_each_test_in_python_asserts(folder: str) -> None:
    paths = sorted((TOP / "tests" / folder).glob("test_*.py"))
    assert [fault for path in paths for fault in silent(in_python(path), shared())] == []
