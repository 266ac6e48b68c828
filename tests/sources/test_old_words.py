"""naplps-pages has few commands and options, and no document has the words that it had before.

Only CHANGELOG tells of those.
"""
import re
from pathlib import Path
from typing import Dict, Iterator, List, Set

import pytest

from dev.layout import TOP
from naplps_pages import old_words
from naplps_pages.commands import MODULES, command, options

COMMANDS = {"box", "scan", "files", "find", "equal", "report", "check", "show", "fix", "list", "canon", "make", "diff"}
MOST_OPTIONS = 36
OLD_COMMANDS = ("carve census convert cures describe explain look merge near play refused serve source split status "
                "text").split()
OLD_OPTIONS = ("after again animate by dots each-refused full guesses html into least look most no-carve "
               "no-cures no-words null on part past png processes replace seconds sheet sketches speed svg treated "
               "unfinished with").split()
# What has gone without another word for it.
GONE = ("copies", "cures", "words")
# Documents, by patterns; what is made of pages isn't read.
PATTERNS = ("README.md", "docs/**/*", "man/*", "completions/*", "python/README.md", "examples/**/*")
ENDINGS = {".md", ".1", ".sh", ".py", ".sbatch", ".jq", ".sql", ".txt", ".bash", ".fish", ".tsv", ""}
# A command where one is named: after the tool's name, before an option or what it takes, or alone, but for words that
# are also those of formats, ways and fields.
OLD = "|".join(OLD_COMMANDS)
IN_MANUAL = "|".join(name for name in OLD_COMMANDS if name not in ("carve", "split", "text"))
CALLED = re.compile(rf"\bnaplps-pages\s+({OLD})\b(?!-|\.\w)|`({OLD}) (?:-|[A-Z]{{2,}}|\S+\.(?:nap|db)\b)"
                    r"|`(look|explain|serve|play)`|^\.?(?:It )?Cm (" + IN_MANUAL + r")\b", re.MULTILINE)
OPTION = re.compile(rf"(?<![\w-])(?:--|Fl Fl |-l )({'|'.join((*OLD_OPTIONS, *GONE))})(?![\w-])")
# Functions of crates that are called so.
FUNCTIONS = {"docs/PROMISES.md": "`serve`"}
# Lines with commands of others, which have options of the same names.
OF_OTHERS = re.compile(r"python3 -m |(?:^|[`|(&;])\s*(?:make|git|sqlite3|parallel|xargs|apt-get|pip|pytest|rt|cc) ")


def documents() -> Dict[str, Path]:
    """The documents by their paths from the top."""
    paths = {path for pattern in PATTERNS for path in TOP.glob(pattern)}
    return {str(path.relative_to(TOP)): path for path in sorted(paths)
            if path.is_file() and path.suffix in ENDINGS and "__pycache__" not in path.parts}


def old_words_in(text: str) -> Iterator[str]:
    """The old words of a text, each with its line."""
    for found in CALLED.finditer(text):
        yield f"{text.count(chr(10), 0, found.start()) + 1}: {' '.join(found[0].split())}"
    for number, line in enumerate(text.split("\n"), 1):
        yield from (f"{number}: {found[0]}" for found in OPTION.finditer(line) if not OF_OTHERS.search(line))


def test_there_are_thirteen_commands() -> None:
    assert {*MODULES} == COMMANDS


def test_there_are_few_long_options() -> None:
    words: Set[str] = {"--version", *(option.word for name in MODULES for option in options(command(name).parts()))}
    assert len(words) <= MOST_OPTIONS, sorted(words)
    assert not words & {f"--{name}" for name in (*OLD_OPTIONS, *GONE)}


def test_each_old_word_is_answered() -> None:
    assert {*OLD_COMMANDS} <= {*old_words.COMMANDS}
    assert {f"--{name}" for name in OLD_OPTIONS} <= {*old_words.OPTIONS}


@pytest.mark.parametrize("name", documents())
def test_a_document_has_no_old_words(name: str) -> None:
    text = documents()[name].read_text("utf-8", "replace")
    found: List[str] = [*old_words_in(text.replace(FUNCTIONS[name], "") if name in FUNCTIONS else text)]
    assert not found, f"{name}: {'; '.join(found)}"


@pytest.mark.parametrize("text, count", [
    ("naplps-pages look a.nap", 1), ("naplps-pages\nlook a.nap", 1), ("`carve FILE`", 1), ("`text page.nap`", 1),
    ("the `explain` of it", 1), (".Cm merge", 1), (".It Cm serve Ar store", 1), ("`--into F`", 1), (".Fl Fl into", 1),
    (".It Cm text", 0),
    ("--format text, --only split", 0), ("naplps-pages show --format text", 0), ("`split`, `text`", 0),
    ("python3 -m dev.measure_pages --words", 0), ("--no-wordsmith", 0), ("naplps-pages text.txt", 0),
])
def test_old_words_are_found(text: str, count: int) -> None:
    assert len([*old_words_in(text)]) == count
