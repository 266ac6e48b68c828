"""Edits of a crate's sources: wrong bodies, each of which the prover has to refuse.

Those in crates/NAME/must-fail/ are tried by each run of `rt ci`. Those in crates/NAME/wrong-bodies/ are tried by
python3 -m dev.wrong_bodies, apart from it.
"""
import hashlib
import os
import re
from pathlib import Path
from typing import Dict, Iterator, List, NamedTuple, Tuple

from dev.rattle.items import Item, items_in
from dev.rattle.tokens import Source, tokens

PLACES = {"gate": "must-fail", "apart": "wrong-bodies"}
LOOP = re.compile(r"\b(?:for\b(?!\s*<)|while\b|loop\b)")
# What an edit outside of functions changes.
NAMED = ("const", "static", "type", "struct", "enum")
PARAMETERS = re.compile(r"<(?:[^<>]|<[^<>]*>)*>")


class Where(NamedTuple):
    """What an edit changes: its files, functions and constants, and whether that is in a loop, or in no function."""

    files: List[str]
    names: List[str]
    is_in_loop: bool
    is_outside: bool


class Unfit(Exception):
    """An edit can't be made, with the reason."""


def edits_in(folder: Path) -> List[Path]:
    """The edits of a folder, in the order of their names."""
    return sorted(folder.glob("*.edit"))


def changes_of(edit: str) -> Iterator[Tuple[str, str, str]]:
    """The changes that an edit's text makes, in its order: the file in its crate, the text that goes, and the one that
    comes."""
    path, old = "", ""
    for line in edit.splitlines():
        word, _, rest = line.partition(":")
        rest = rest[1:] if rest.startswith(" ") else rest
        if word == "file":
            path = rest.strip()
        elif word == "old":
            old = rest
        elif word == "new":
            yield path, old, rest


def texts_with(edit: Path, crate: Path) -> Dict[str, Tuple[str, str]]:
    """The files that an edit changes, before and after it; raises Unfit unless each `old:` text stands once in its file
    when its turn comes."""
    texts: Dict[str, Tuple[str, str]] = {}
    for file, old, new in changes_of(edit.read_text("utf-8")):
        if not (crate / file).is_file():
            raise Unfit(f"there is no file {file}")
        before, after = texts[file] if file in texts else ((crate / file).read_text("utf-8"),) * 2
        times = after.count(old) if old else 0
        if times != 1:
            raise Unfit(f"its old text stands {times} times in {file}")
        texts[file] = before, after.replace(old, new)
    if not texts:
        raise Unfit("it changes no file")
    return texts


def make(edit: Path, crate: Path) -> None:
    """Makes an edit in a crate's folder; raises Unfit."""
    for file, (_, after) in texts_with(edit, crate).items():
        (crate / file).write_text(after, "utf-8")


def _spans(edit: str, texts: Dict[str, Tuple[str, str]]) -> Iterator[Tuple[str, int, int]]:
    """For each change, its file and what it takes from there, by the places where the two texts begin and end to
    differ. What a change before it put there isn't in the file, and has no span of its own."""
    for file, old, new in changes_of(edit):
        place = texts[file][0].find(old)
        if place >= 0:
            start = len(os.path.commonprefix([old, new]))
            same = len(os.path.commonprefix([old[start:][::-1], new[start:][::-1]]))
            yield file, place + start, place + len(old) - same


def _is_in_loop(source: Source, function: Item, start: int, end: int) -> bool:
    """Whether what is between two places of a function is in a loop, or changes its head."""
    loops = LOOP.finditer(source.shape, function.body[0], max(start + 1, end))
    return any(end <= source.closing(source.end_of_head(found.end())) for found in loops)


def full_name(owner: str, name: str) -> str:
    """The name of a function with the type or the trait that it is of, by the head of what it stands in."""
    words = PARAMETERS.sub("", owner[len("impl") :], 1) if owner.startswith("impl<") else owner
    return f"{re.sub('^(impl|pub trait|trait)', '', words).strip()}::{name}" if owner else name


def where(edit: Path, crate: Path) -> Where:
    """What an edit of a crate changes; raises Unfit."""
    texts = texts_with(edit, crate)
    names, in_loop, outside = [], [], []
    for file, start, end in _spans(edit.read_text("utf-8"), texts):
        source = Source.of(texts[file][0])
        items = list(items_in(source))
        inside = [item for item in items if item.kind == "fn" and item.body[0] <= start and end <= item.body[1]]
        outside.append(not inside)
        in_loop.append(any(_is_in_loop(source, item, start, end) for item in inside))
        if inside:
            names.append(full_name(inside[0].owner, inside[0].name))
        else:
            before = [item.name for item in items if item.kind in NAMED and item.start <= start]
            names.append(before[-1] if before else "?")
    return Where(list(texts), sorted(set(names)), any(in_loop), all(outside))


def sum_of_edit(edit: Path, crate: Path, clauses: str) -> str:
    """A sum over what decides whether a wrong body is refused: its text, the tokens of the files that it changes, and
    the sum of the clauses and definitions of its crate and of those below; raises Unfit."""
    files = {file: tokens(Source.of(before).kept) for file, (before, _) in sorted(texts_with(edit, crate).items())}
    return hashlib.sha256(repr((edit.read_bytes(), files, clauses)).encode()).hexdigest()[:16]
