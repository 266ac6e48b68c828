"""The page of promises: below each promise stand the wrong bodies that break it, as the list of wrong bodies has them.

The list is docs/wrong-bodies.tsv. A row has the promises that a body breaks, between semicolons, and what it does,
which it may share with others. A row without an edit, of the place `test`, is of a body that a test alone refuses.
"""
import re
import textwrap
from collections import Counter
from itertools import zip_longest
from pathlib import Path
from typing import Dict, Iterator, List, NamedTuple

from dev.tables import rows_in

LIST = "docs/wrong-bodies.tsv"
PROMISES = "docs/PROMISES.md"
NO_EDIT = "-"
LEAD = "Refused is a body that\n\n"
BODIES = re.compile(rf"{LEAD}(?:- .*\n(?:  .*\n)*)+\n?")
PROMISE = re.compile(r"^### (?P<name>.+)\n(?P<said>(?:(?!^#).*\n)*?)(?P<state>\*State\*.*\n(?:.+\n)*)", re.MULTILINE)
WIDTH = 120
PLACE_ORDER = ("gate", "apart", "test")


class Row(NamedTuple):
    """A row of the list of wrong bodies."""

    crate: str
    edit: str
    file: str
    function: str
    place: str
    kept: str
    breaks: str
    does: str

    @property
    def promises(self) -> List[str]:
        """The promises that the body breaks."""
        return self.breaks.split("; ")


def rows_of_list(root: Path) -> List[Row]:
    """The rows of the list of wrong bodies; one with more or fewer columns raises ValueError."""
    return [Row(*row) for row in rows_in(root / LIST, Row._fields)]


def _places(rows: List[Row], names: Dict[Row, str]) -> str:
    """Where the bodies of some rows are refused, and their names."""
    places: Dict[str, List[str]] = {}
    for row in sorted(rows, key=lambda row: PLACE_ORDER.index(row.place)):
        places.setdefault(row.place, []).extend([] if row.edit == NO_EDIT else [f"`{names[row]}`"])
    return "; ".join(f"{word}: {', '.join(edits)}" if edits else word for word, edits in places.items())


def _bodies(promise: str, rows: List[Row], names: Dict[Row, str]) -> str:
    """The lines on the wrong bodies of a promise, those that the gate tries first; empty where there are none. What a
    body does is told below the first promise that it breaks, and its name alone below the others."""
    groups: Dict[str, List[Row]] = {}
    elsewhere: Dict[str, List[str]] = {}
    for row in sorted(rows, key=lambda row: PLACE_ORDER.index(row.place)):
        if row.promises[0] == promise:
            groups.setdefault(row.does, []).append(row)
        elif promise in row.promises:
            elsewhere.setdefault(row.promises[0], []).append("one" if row.edit == NO_EDIT else f"`{names[row]}`")
    lines = [f"{does} ({_places(group, names)})" for does, group in groups.items()]
    lines += [f"breaks *{first}* too: {', '.join(edits)}" for first, edits in elsewhere.items()]
    if not lines:
        return ""
    return LEAD + "".join(
        textwrap.fill(line, WIDTH, initial_indent="- ", subsequent_indent="  ", break_long_words=False,
                      break_on_hyphens=False) + "\n" for line in lines) + "\n"


def with_bodies(text: str, rows: List[Row]) -> str:
    """The page of promises with the wrong bodies of these rows, in place of those that stand in it."""
    having = Counter(row.edit for row in rows)
    names = {row: row.edit if having[row.edit] == 1 else f"{row.crate}/{row.edit}" for row in rows}
    bare = re.sub(r"\n{3,}", "\n\n", BODIES.sub("", text))
    filled = PROMISE.sub(lambda found: f"{found[0]}\n{_bodies(found['name'], rows, names)}", bare)
    return re.sub(r"\n{3,}", "\n\n", filled)


def promises_in(text: str) -> List[str]:
    """The names of the promises of the page, in its order."""
    return [found["name"] for found in PROMISE.finditer(text)]


def faults_of_promises(root: Path) -> Iterator[str]:
    """What is wrong with the rows of the list, and with the wrong bodies on the page."""
    text = (root / PROMISES).read_text("utf-8")
    known = Counter(promises_in(text))
    rows = rows_of_list(root)
    yield from (f"{PROMISES} has the promise {name} {number} times" for name, number in known.items() if number > 1)
    for row in rows:
        strange = [name for name in row.promises if name not in known]
        if strange:
            yield f"{LIST}: {row.edit} breaks {strange[0]}, and {PROMISES} has no such promise"
    pairs = enumerate(zip_longest(text.splitlines(), with_bodies(text, rows).splitlines()), 1)
    first = next((number for number, (line, right) in pairs if line != right), 0)
    if first:
        yield f"{PROMISES}:{first}: the wrong bodies aren't those of {LIST}: run python3 -m dev.promises --write"
