"""All Python of the repository: for 3.9, short functions, files and lines, docstrings; mypy and pyflakes find nothing.

mypy is as strict as python/pyproject.toml says.
"""
import ast
import os
import shutil
import subprocess
from pathlib import Path
from typing import Dict, Iterator, List, Optional

import pytest

from dev.layout import TOP

FOLDERS = ("python", "pages", "dev", "tests", "scripts", "library", "vectors", "examples", "browser")
# Tests that have no types yet, and helpers of theirs whose types are too wide; other helpers without types of their
# functions aren't looked at by mypy either.
UNTYPED = ("tests/tool/*", "tests/browser/*", "tests/lib/damaged.py", "tests/lib/gallery.py", "tests/lib/near_box.py")
HELPERS = ("tests/lib/*", "tests/conftest.py")
# A function has fewer lines than the first, a file than the second; a line has no more columns than the third.
LINES_OF_A_FUNCTION, LINES_OF_A_FILE, COLUMNS = 40, 800, 120


def is_python(path: Path) -> bool:
    """Whether a file is one of Python, by its name or by its first line."""
    if path.suffix == ".py":
        return True
    with path.open("rb") as file:
        first = file.readline(100)
    return not path.suffix and first.startswith(b"#!") and b"python3" in first


def sources_in(*folders: str) -> List[Path]:
    """The sources of Python in folders, with those whose names have no ending."""
    paths = [path for folder in folders for path in (TOP / folder).rglob("*") if path.is_file()]
    return sorted(path for path in paths
                  if not path.is_symlink() and "__pycache__" not in path.parts and is_python(path))


SOURCES = sources_in(*FOLDERS)


def name_of(path: Path) -> str:
    """The path of a source from the top."""
    return str(path.relative_to(TOP))


def parsed(path: Path) -> ast.Module:
    """A source, read as one of Python 3.9."""
    return ast.parse(path.read_text("utf-8"), str(path), feature_version=(3, 9))


def is_typed(path: Path) -> bool:
    """Whether mypy looks at a source."""
    if any(path.relative_to(TOP).match(pattern) for pattern in UNTYPED):
        return False
    is_helper = any(path.relative_to(TOP).match(pattern) for pattern in HELPERS)
    return not is_helper or all(node.returns or node.name == "__init__" for node in ast.walk(parsed(path))
                                if isinstance(node, (ast.FunctionDef, ast.AsyncFunctionDef)))


def sizes(path: Path) -> Iterator[str]:
    """What is too long in a source."""
    lines = path.read_text("utf-8").split("\n")
    if len(lines) >= LINES_OF_A_FILE:
        yield f"{len(lines)} lines"
    yield from (f"line {number} has {len(line)} columns" for number, line in enumerate(lines, 1) if len(line) > COLUMNS)
    for node in ast.walk(parsed(path)):
        if isinstance(node, (ast.FunctionDef, ast.AsyncFunctionDef)):
            if (node.end_lineno or node.lineno) - node.lineno >= LINES_OF_A_FUNCTION:
                yield f"line {node.lineno}: {node.name} is too long"


def bare_items(owner: ast.AST) -> Iterator[str]:
    """The public functions and classes of a module or a class that have no docstring."""
    for node in ast.iter_child_nodes(owner):
        if isinstance(node, (ast.FunctionDef, ast.AsyncFunctionDef, ast.ClassDef)) and not node.name.startswith("_"):
            if not ast.get_docstring(node):
                yield f"line {node.lineno}: {node.name} has no docstring"
            if isinstance(node, ast.ClassDef):
                yield from bare_items(node)


@pytest.mark.parametrize("path", SOURCES, ids=name_of)
def test_sizes_and_docstrings(path: Path) -> None:
    faults, tree = [*sizes(path)], parsed(path)
    if not ast.get_docstring(tree):
        faults.append("no docstring")
    if not path.name.startswith("test_"):
        faults.extend(bare_items(tree))
    assert not faults, f"{name_of(path)}: {'; '.join(faults)}"


def assert_finds_nothing(*words: str, env: Optional[Dict[str, str]] = None) -> None:
    """Runs a checker, which is skipped where it isn't there."""
    if shutil.which(words[0]) is None:
        pytest.skip(f"there is no {words[0]} (Debian: apt-get install {words[0]})")
    result = subprocess.run([*words], stdout=subprocess.PIPE, stderr=subprocess.STDOUT, env=env, encoding="utf-8",
                            cwd=TOP)
    assert result.returncode == 0, f"{words[0]}:\n{result.stdout[-4000:]}"


@pytest.mark.slow
@pytest.mark.parametrize("is_vectors", [False, True], ids=["all but vectors", "vectors"])
def test_mypy_finds_nothing(tmp_path: Path, is_vectors: bool) -> None:
    """Programs of vectors may be copied, and import each other by their plain names."""
    options = ["--config-file", "python/pyproject.toml", "--scripts-are-modules", "--explicit-package-bases",
               "--allow-untyped-calls", "--follow-imports=silent", "--cache-dir", str(tmp_path)]
    folders = ("vectors",) if is_vectors else (".", "python", "tests/lib")
    paths = [name_of(path) for path in SOURCES if is_typed(path)]
    assert_finds_nothing("mypy", *options, *(path for path in paths if path.startswith("vectors/") == is_vectors),
                         env={**os.environ, "MYPYPATH": os.pathsep.join(folders)})


def test_pyflakes_finds_nothing() -> None:
    assert_finds_nothing("pyflakes3", *map(name_of, SOURCES))
