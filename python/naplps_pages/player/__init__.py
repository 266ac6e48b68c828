"""A page as it came down the line: what a player shows when, and its document."""
import base64
import hashlib
import json
import os
import re
import zlib
from dataclasses import dataclass, field
from html import escape
from itertools import accumulate, takewhile
from typing import Dict, List, Sequence, Tuple

from naplps.answers import Accepted, Refusal
from naplps.drawing.description import describe
from naplps.drawing.walk import MOST_DRAWN
from naplps.entry import Entries

from ..codes import rows_of_codes
from ..listing import Listed, Row

# Bytes of the page, and rows of codes.
MOST_BYTES, MOST_CODES = 1 << 20, 50_000
# Characters of all lines of the list: those of all that a picture may have.
MOST_LINES = 8 << 20
# Lines of a page in words, and characters of each.
MOST_DESCRIBED, A_DESCRIBED = 200, 500
# The place of an entry that came with no byte of the page; and what a longer text ends with.
NOT_HERE, CUT = -1, " .."


@dataclass
class CodeColumns:
    """The codes of a page by columns; and for each entry the number of its code, or -1."""

    start: List[int] = field(default_factory=list)
    end: List[int] = field(default_factory=list)
    name: List[int] = field(default_factory=list)
    names: List[str] = field(default_factory=list)
    entry: List[int] = field(default_factory=list)


def played(data: bytes, page: Listed, note: str = "", before: Sequence[str] = ()) -> str:
    """What a player holds of a page that has these bytes, this answer, and places of its entries.

    `note` stands beside it; the player itself tells what it leaves out, and has the page in words beside the picture.
    `before` are the lines of the entries of earlier pages: what they draw is there when the first byte comes.
    """
    assert page.rows is not None
    every: List[Row] = [*((NOT_HERE, line) for line in before), *page.rows]
    held = every[:_so_many(every)]
    earlier = min(len(before), len(held))
    rows = held[earlier:]
    length = _length(data, page, rows)
    codes, is_cut = _codes(data, page, rows, length)
    codes.entry[:0] = [-1] * earlier
    shown = data[:min(length, MOST_BYTES)]
    members = {"length": length, "before": earlier, "entries": len(every), "places": [place for place, _ in held],
               "lines": [line for _, line in held], "codes": vars(codes), "isCut": is_cut,
               "bytes": base64.b64encode(shown).decode("ascii"), "notes": [note] if note else [],
               "described": _described([line for _, line in held])}
    return json.dumps(members, separators=(",", ":"))


def _described(lines: Sequence[str]) -> List[str]:
    """The page in words, as far as that is held."""
    described = describe(list(Entries(lines))).lines()
    more = [CUT] if len(described) > MOST_DESCRIBED else []
    return [line if len(line) <= A_DESCRIBED else line[:A_DESCRIBED] + CUT
            for line in described[:MOST_DESCRIBED]] + more


def _so_many(rows: Sequence[Row]) -> int:
    """How many of the entries are held: no more than may be drawn, with no more characters in their lines."""
    sizes = accumulate(len(line) for _, line in rows[:MOST_DRAWN])
    return sum(1 for _ in takewhile(lambda size: size <= MOST_LINES, sizes))


def _length(data: bytes, page: Listed, some: Sequence[Row]) -> int:
    """How many bytes come down the line: all, those up to a refusal, or those up to the last entry that is held."""
    assert page.rows is not None
    if len(some) < len(page.rows):
        last = some[-1][0] if some else 0
        return min(len(data), (last or 0) + 1)
    return min(len(data), page.answer.place + 1) if isinstance(page.answer, Refusal) else len(data)


def _codes(data: bytes, page: Listed, some: List[Row], length: int) -> Tuple[CodeColumns, bool]:
    """The codes as `check --explain` has them, with the entries that came of each; and whether there are too many."""
    stop = page.answer.place if isinstance(page.answer, Refusal) else None
    columns = CodeColumns(entry=[-1] * len(some))
    numbers: Dict[str, int] = {}
    rows = list(takewhile(lambda row: row.start < length, rows_of_codes(data, some, stop)))
    shown = list(takewhile(lambda row: row.start < MOST_BYTES, rows[:MOST_CODES]))
    for at, row in enumerate(shown):
        for number in row.entries:
            columns.entry[number] = at
        columns.start.append(row.start)
        columns.end.append(row.end)
        columns.name.append(numbers.setdefault(row.name, len(numbers)))
    columns.names = list(numbers)
    return columns, len(shown) < len(rows)


def can_be_played(page: Listed) -> bool:
    """Whether there is an answer with entries and their places."""
    known = isinstance(page.answer, (Accepted, Refusal)) and page.rows is not None
    return known and all(place is not None for place, _ in page.rows or ())


HERE = os.path.dirname(os.path.abspath(__file__))
# (made of browser/ by `make browser`)
DRAWING, DOTS = "drawing.js", "dots.js"
SCRIPTS = ("elements.js", DRAWING, DOTS, "drawn.js", "smooth.js", "raster.js", "moments.js", "flashes.js", "screen.js",
           "codes.js", "player.js")
POLICY = "default-src 'none'; script-src %s; style-src %s; base-uri 'none'; form-action 'none'"
MARK = re.compile(r"@([A-Z]+)@")


def html(title: str, note: str, data: str) -> str:
    """The page, with a note on it, and its data as JSON, which can't act."""
    style, script = _resource("page.css") + _resource("player.css"), "".join(map(_resource, (*SCRIPTS, "play.js")))
    packed = base64.b64encode(zlib.compress(data.encode("ascii"), 9)).decode("ascii")
    parts = {"POLICY": escape(POLICY % (policy_hash(script), policy_hash(style))), "STYLE": style, "SCRIPT": script,
             "TITLE": escape(title), "SAID": escape(note), "DATA": packed}
    return MARK.sub(lambda found: parts[found[1]], _resource("play.html"))


def component(draws: bool = True) -> Tuple[str, str]:
    """The style and the script of a player for another document, which has `Player` then and no other name of it.
    Without `draws` it has to get pages with their drawings."""
    script = "".join(_resource(name) for name in SCRIPTS if draws or name != DRAWING)
    return _resource("player.css"), "const Player = (() => {\n%s\nreturn Player;\n})();\n" % script


def _resource(name: str) -> str:
    return resource(HERE, name)


def resource(folder: str, name: str) -> str:
    """The text of a file that stands beside a module."""
    with open(os.path.join(folder, name), encoding="utf-8") as file:
        return file.read()


def policy_hash(text: str) -> str:
    """The hash by which a policy lets a script or a style act."""
    return f"'sha256-{base64.b64encode(hashlib.sha256(text.encode('utf-8')).digest()).decode('ascii')}'"
