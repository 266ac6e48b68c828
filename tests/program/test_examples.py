"""The examples of README.md, docs/TOUR.md and docs/LIBRARY.md.

Each command of the tour prints what the comments after it show, and has the status that they name, or 0; so do those
commands of README.md that have such comments. Each block in Rattle of LIBRARY.md stands in a source of
crates/naplps_examples, but for blank lines.
"""
import os
import re
import subprocess
from pathlib import Path
from typing import List, NamedTuple, Optional, Tuple

import pytest

from dev.judging import Answer, run
from dev.layout import TOP

CRATE = TOP / "crates" / "naplps_examples"
# What isn't shown.
AROUND = {"lib.rt", "tests.rt"}
README = TOP / "README.md"
TOUR = TOP / "docs" / "TOUR.md"
LIBRARY = TOP / "docs" / "LIBRARY.md"
# A command, and the comments after it.
COMMAND = re.compile(r"^    (?!# )(.+)\n((?:    # .*\n)*)", re.MULTILINE)


class Example(NamedTuple):
    """A command, its status, and what it prints on both outputs, where that is shown."""

    command: str
    status: int
    printed: Optional[str]


def examples_in(document: Path) -> List[Example]:
    """The commands of a document."""
    found = []
    for command, comments in COMMAND.findall(document.read_text("utf-8")):
        printed, _, status = re.sub("^    # ", "", comments, flags=re.MULTILINE).partition("status ")
        found.append(Example(command, int(status or 0), printed or None))
    return found


@pytest.fixture
def folder(naplps: str, tmp_path: Path) -> Path:
    """A folder with the program, the examples and naplps-pages, as at the top of a clone."""
    (tmp_path / "pages").mkdir()
    (tmp_path / "naplps").symlink_to(naplps)
    (tmp_path / "examples").symlink_to(TOP / "examples")
    (tmp_path / "pages" / "naplps-pages").symlink_to(TOP / "pages" / "naplps-pages")
    return tmp_path


@pytest.mark.parametrize("document", [README, TOUR], ids=["README.md", "docs/TOUR.md"])
def test_commands(naplps: str, folder: Path, document: Path) -> None:
    """The commands of a document, one after another in one folder, print what stands after them."""
    examples = [entry for entry in examples_in(document) if entry.printed or document != README]
    assert examples, f"{document.name} shows no command"
    for command, status, printed in examples:
        result = run(["sh", "-c", command], cwd=folder, env={**os.environ, "NAPLPS": naplps}, stderr=subprocess.STDOUT)
        expected = result.out if printed is None else printed.encode()
        assert result == Answer(status, expected), f"{document.name}: {command}"


def lines_of(text: str) -> List[str]:
    """The lines of a text that aren't blank."""
    return [line for line in text.splitlines() if line.strip()]


def blocks() -> List[Tuple[str, List[str]]]:
    """The blocks in Rattle of LIBRARY.md: the files of the crate that have such blocks, and the lines of each."""
    text = LIBRARY.read_text("utf-8")
    return [(pattern, lines_of(block)) for language, pattern in (("rust", "src/*.rt"), ("antt", "specs/*.antt"))
            for block in re.findall(rf"^```{language}\n(.*?)^```$", text, re.DOTALL | re.MULTILINE)]


def test_there_are_blocks() -> None:
    """LIBRARY.md has blocks in Rattle."""
    assert "src/*.rt" in [pattern for pattern, _ in blocks()]


@pytest.mark.parametrize("pattern, block", blocks(), ids=[block[0] for _, block in blocks()])
def test_block(pattern: str, block: List[str]) -> None:
    """The lines of a block stand in a source of the crate, one after another."""
    sources = [lines_of(file.read_text("utf-8")) for file in CRATE.glob(pattern) if file.name not in AROUND]
    assert any(lines[start : start + len(block)] == block for lines in sources for start in range(len(lines))), (
        f"no {pattern} of {CRATE.name} has the block of docs/LIBRARY.md that begins with: {block[0]}")
