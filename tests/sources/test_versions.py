"""All places that name this program's version name that of the file VERSION.

WRITTEN, MADE and PRINTED have them: places that are written, places that are made, and commands that print it. Any
other text that has the version's number fails too, until it is in WRITTEN or HISTORY.
"""
import os
import re
import subprocess
import sys
from typing import Iterator, Sequence, Tuple

import pytest

from dev.layout import TOP, sources_version

VERSION = sources_version()
NUMBER = r"(\d+\.\d+\.\d+)"
# Files that name it, by a pattern: the first group is the version.
WRITTEN = {
    "crates/nap_cli/src/words.rt": rf'const VERSION: &str = "{NUMBER}, canonical form \d+";',
    "debian/changelog": rf"\Anaplps \({NUMBER}\) ",
    "browser/package.json": rf'"version": "{NUMBER}"',
    "README.md": rf"(?m)^Version {NUMBER}, of ",
    "docs/STABILITY.md": rf"A version has three numbers, as {NUMBER}\.",
    "docs/LIBRARY.md": rf"(?m)^    6 CAFÉ {NUMBER}$",
    "examples/gallery.html": rf" by naplps {NUMBER}, canonical form \d+",
    "dist/browser/naplps.html": rf">naplps {NUMBER}\. The module has the SHA-256 ",
}
# Files that have it from the file VERSION, by the words with which they do.
MADE = {
    "python/pyproject.toml": 'version = {attr = "naplps.version.VERSION"}',
    "library/naplps.pc": "Version: @version@",
    "library/make-library": "sources_version()",
    "dev/package.py": "version_of(program)",
    "scripts/install": "version_of(program)",
    "dev/packaging/for_pages.py": "from naplps.version import VERSION",
}
# Commands that print it.
PRINTED = {
    "the kept program": (str(TOP / "dist" / "x86_64-linux-gnu" / "naplps"), "--version"),
    "naplps-pages": (str(TOP / "pages" / "naplps-pages"), "--version"),
    "the module naplps": (sys.executable, "-c", "import naplps; print(naplps.__version__)"),
}
# Files and folders that have earlier versions, or other numbers that look so.
HISTORY = ("CHANGELOG.md", "NOTICES.md", "crates/*/proofs", "dist/x86_64-linux-gnu", "vectors", "out")


@pytest.mark.parametrize("name", WRITTEN)
def test_a_place_that_is_written_has_the_version(name: str) -> None:
    found = re.findall(WRITTEN[name], (TOP / name).read_text("utf-8"))
    assert found == [VERSION], f"{name} has {found} in places like {WRITTEN[name]}, and VERSION has {VERSION}"


def test_the_changelog_has_a_section_for_this_version_or_a_later_one() -> None:
    newest = re.search(rf"(?m)^## {NUMBER}(?: |$)", (TOP / "CHANGELOG.md").read_text("utf-8"))
    assert newest, "CHANGELOG.md has no section of a version"
    assert [*map(int, newest[1].split("."))] >= [*map(int, VERSION.split("."))], "CHANGELOG.md: no section for this one"


@pytest.mark.parametrize("name", MADE)
def test_a_place_that_is_made_has_it_from_the_file(name: str) -> None:
    assert MADE[name] in (TOP / name).read_text("utf-8"), f"{name} has the version no longer by {MADE[name]!r}"


@pytest.mark.parametrize("words", PRINTED.values(), ids=PRINTED)
def test_a_command_prints_the_version(words: Sequence[str]) -> None:
    env = {**os.environ, "PYTHONPATH": str(TOP / "python"), "PYTHONDONTWRITEBYTECODE": "1"}
    output = subprocess.run(words, stdout=subprocess.PIPE, env=env, check=True, encoding="utf-8").stdout
    assert re.findall(NUMBER, output) == [VERSION], f"it prints {output!r}, and VERSION has {VERSION}"


def lines() -> Iterator[Tuple[str, int, str]]:
    """The lines of all texts that have no earlier versions: file, number and text."""
    for path in sorted(TOP.rglob("*")):
        name = path.relative_to(TOP)
        hidden = any(part.startswith(".") or part == "__pycache__" for part in name.parts)
        old = any(part.match(pattern) for part in (name, *name.parents) for pattern in HISTORY)
        if not (hidden or old) and path.is_file() and not path.is_symlink():
            text = path.read_bytes().decode("utf-8", "replace")
            yield from ((str(name), number, line) for number, line in enumerate(text.split("\n"), 1))


def test_no_other_text_names_the_version() -> None:
    pattern = re.compile(rf"(?<![\w.]){re.escape(VERSION)}(?![\w]|\.\d)")
    found = [f"{name}:{number}" for name, number, line in lines() if pattern.search(line) and name != "VERSION"
             and not (name in WRITTEN and re.search(WRITTEN[name], line))]
    assert found == [], f"they name the version {VERSION}, and WRITTEN has no such place"
