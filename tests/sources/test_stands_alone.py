"""The repository stands alone: no text of it names a rule by a number alone, or a place outside of it.

All texts are read: sources, definitions, proofs, commands, tests, documents.
"""
import re
from pathlib import Path
from typing import Iterator

import pytest

from dev.layout import TOP

ENDINGS = {".rt", ".antt", ".md", ".py", ".js", ".mjs", ".c", ".h", ".css", ".html", ".tsv", ".rows", ".edit", ".txt",
           ".1", ".toml", ".sql", ".sh", ".fish", ".bash", ".sbatch", ".ini", ".json", ".jsonl", ".jq", ".xml", ".pc",
           ".symbols", ".rs", ""}
NOT_READ = {"out", "dist", "__pycache__", "node_modules"}
# Folders beside the repository, and things that are named by a number.
NAMES = re.compile(r"\.\./shared\b|\b(?:papers?|requirements?|bars?|findings?|issues?) [A-Z]?\d+[a-z]?\b")


def is_hidden(name: str) -> bool:
    """Whether a file or a folder is none of the sources."""
    return name in NOT_READ or name.startswith(".")


FOLDERS = ["."] + sorted(path.name for path in TOP.iterdir() if path.is_dir() and not is_hidden(path.name))


def texts(folder: str) -> Iterator[Path]:
    """The texts in a folder and below it; those of the top alone."""
    for path in sorted(TOP.glob("*") if folder == "." else (TOP / folder).rglob("*")):
        hidden = any(map(is_hidden, path.relative_to(TOP).parts))
        if path.suffix in ENDINGS and not hidden and path.is_file() and not path.is_symlink():
            yield path


@pytest.mark.parametrize("folder", FOLDERS)
def test_no_text_names_what_is_not_of_the_repository(folder: str) -> None:
    found = [f"{path.relative_to(TOP)}:{number}: {match[0]}"
             for path in texts(folder) if path != Path(__file__).resolve()
             for number, line in enumerate(path.read_bytes().decode("utf-8", "replace").split("\n"), 1)
             for match in NAMES.finditer(line)]
    assert found == []
