"""The command diff: the sources of two pages side by side, also as a document with their pictures."""
from __future__ import annotations

from itertools import zip_longest
from typing import TYPE_CHECKING, Iterator, List, NamedTuple, Optional, Sequence, Tuple

from naplps.names import printable, shown

from .. import messages
from ..console import COMPLETE, REFUSED
from . import (
    BUDGET, FILES_OF_STORE, JSON_ALONE, NOTHING_OVERWRITTEN, OF_PAGE, OUTPUT, PAGE_GROUP, TIMEOUT, Argument, Command,
    Given, Option, Part, on_pages, require_one_standard_input,
)

if TYPE_CHECKING:
    from ..page_session import Session
    from ..source import Page

TEXT, HTML = FORMATS = ("text", "html")
OUT = OUTPUT._replace(title="FILE", help="the file to write, or - for standard output")
FORMAT = Option("--format", "what to make: text, both pages as text, side by side; or html, a document for a browser "
                "that also shows both. The default is html if FILE ends in .html, and otherwise text", "FORMAT", str,
                choices=FORMATS)
# The most columns of a source that are shown beside another one, and what a longer line ends with.
MOST_WIDE, CUT = 60, ".."
SAME, LEFT_ALONE, RIGHT_ALONE, CHANGED = " ", "<", ">", "|"
# Lines of a source are compared one with another, so sources have no more. In a longer one than the second number,
# lines that stand often are no anchors by themselves.
MOST_LINES, PLAIN_LINES = 4000, 1000
CLASSES = {SAME: "same", LEFT_ALONE: "left", RIGHT_ALONE: "right", CHANGED: "changed"}
DOCUMENT = """<!DOCTYPE html>
<html lang="en">
<head>
<meta charset="utf-8">
<meta http-equiv="Content-Security-Policy" content="default-src 'none'; style-src 'unsafe-inline'; img-src data:">
<meta name="viewport" content="width=device-width">
<meta name="color-scheme" content="light dark">
<title>%(title)s</title>
<style>
body { font-family: sans-serif; margin: 1em }
figure { display: inline-block; margin: 0 1em 1em 0 }
figure img { width: 420px; max-width: 100%% }
table { font-family: monospace; border-collapse: collapse }
td { padding: 0 .5em; vertical-align: top; white-space: pre-wrap; overflow-wrap: anywhere }
.left td:first-child { background: #c0392b55 } .right td:last-child { background: #2a7d2a55 }
.changed td { background: #b8860b55 }
</style>
</head>
<body>
<h1>%(title)s</h1>
%(pictures)s
<table>
<tr><th scope="col">%(left)s</th><th></th><th scope="col">%(right)s</th></tr>
%(rows)s</table>
</body>
</html>
"""


def _parts() -> List[Part]:
    return [Argument("pages", "PAGE", OF_PAGE, 2), OUT, FORMAT, JSON_ALONE, BUDGET, TIMEOUT]


def _check(given: Given) -> None:
    from .. import outputs
    outputs.place(given, False)
    if given.into is not None:
        given.parser.error("-o names a file here, not a folder")
    given.format = given.format or (HTML if outputs.ending(given.output or "") in (".html", ".htm") else TEXT)
    if given.json and given.format == HTML:
        given.parser.error("--json and --format html exclude each other")
    if given.format == HTML:
        outputs.require_no_terminal(given, "a page of HTML")
    require_one_standard_input(given)


class _PageSource(NamedTuple):
    """A page: its name, the lines of its source, and its picture."""

    name: str
    source: List[str]
    svg: str


def diff(session: Session) -> int:
    """Prints two pages side by side. The status is 1 where they draw something else, as that of diff(1)."""
    from naplps import drawing
    from ..authoring.writing import source_lines
    from ..console import FAILED, NotWritten
    from .make import entries_of
    pages: List[_PageSource] = []

    def work(page: Page) -> None:
        entries = entries_of(session, page)
        source = None if entries is None else list(source_lines(list(entries)))
        if source is not None and len(source) > MOST_LINES:
            session.complain(page.name, messages.LONG_TO_COMPARE.format(most=MOST_LINES))
        elif entries is not None and source is not None:
            svg = drawing.draw(entries).svg if session.format == HTML else ""
            pages.append(_PageSource(shown(page.name), source, svg))
    status = session.each(work)
    if len(pages) < 2:
        return status
    left, right = pages
    made = (_json(left, right) if session.json else _html(left, right) if session.format == HTML
            else "".join(side_by_side(left.source, right.source)))
    try:
        session.deliver(left.name, made.encode("utf-8", "backslashreplace"))
        session.output.flush()
    except NotWritten as error:
        session.tell(str(error))
        return FAILED
    return max(status, COMPLETE if left.source == right.source else REFUSED)


def _json(left: _PageSource, right: _PageSource) -> str:
    """An object with each row: its line of both sources, null where there is none, and whether they are equal."""
    from ..schema import dumps
    rows = [{"left": one, "right": other, "same": one == other} for one, other in _rows(left.source, right.source)]
    return dumps({"left": left.name, "right": right.name, "same": left.source == right.source, "rows": rows}) + "\n"


def side_by_side(left: Sequence[str], right: Sequence[str]) -> Iterator[str]:
    """The lines of two sources in two columns. Between them: `|` changed, `<` only left, `>` only right."""
    wide = min(max(map(len, left), default=0), MOST_WIDE)
    for one, other in _rows(left, right):
        yield f"{_column(one, wide):{wide}} {_mark(one, other)} {_column(other, MOST_WIDE)}".rstrip() + "\n"


def _rows(left: Sequence[str], right: Sequence[str]) -> Iterator[Tuple[Optional[str], Optional[str]]]:
    """Lines of both that belong together; None where one has no line there."""
    from difflib import SequenceMatcher
    matcher = SequenceMatcher(None, list(left), list(right), autojunk=max(len(left), len(right)) > PLAIN_LINES)
    for _, start, end, from_, to in matcher.get_opcodes():
        yield from zip_longest(left[start:end], right[from_:to])


def _mark(one: Optional[str], other: Optional[str]) -> str:
    if one == other:
        return SAME
    return RIGHT_ALONE if one is None else LEFT_ALONE if other is None else CHANGED


def _column(line: Optional[str], wide: int) -> str:
    """A line as a column shows it."""
    text = printable(line or "")
    return text if len(text) <= wide else text[:wide - len(CUT)] + CUT


def _html(left: _PageSource, right: _PageSource) -> str:
    """The document with both pictures and both sources."""
    from html import escape
    rows = "".join(map(_row, *zip(*_rows(left.source, right.source)))) if left.source or right.source else ""
    return DOCUMENT % {"title": escape(f"{left.name} and {right.name}"), "left": escape(left.name), "rows": rows,
                   "right": escape(right.name), "pictures": _picture(left) + _picture(right)}


def _row(one: Optional[str], other: Optional[str]) -> str:
    from html import escape
    mark = _mark(one, other)
    return (f'<tr class="{CLASSES[mark]}"><td>{escape(one or "")}</td><td>{escape(mark)}</td>'
            f'<td>{escape(other or "")}</td></tr>\n')


def _picture(page: _PageSource) -> str:
    import base64
    from html import escape
    data = base64.b64encode(page.svg.encode("utf-8")).decode("ascii")
    name = escape(page.name)
    return (f'<figure><img alt="Sketch of {name}" src="data:image/svg+xml;base64,{data}">'
            f"<figcaption>{name}</figcaption></figure>")


COMMAND = Command("compare two pages side by side, as text that people edit", _parts, on_pages(
    diff, FILES_OF_STORE), "diff ferry.nap chart.nap", _check, NOTHING_OVERWRITTEN, PAGE_GROUP, 60)
