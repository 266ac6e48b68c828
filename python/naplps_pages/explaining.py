"""Entries beside the bytes that added them, and the reason of a refusal."""
from __future__ import annotations

from textwrap import wrap
from typing import TYPE_CHECKING, Iterable, Iterator, List, Optional, Tuple, Union

from naplps.limits import MOST_LISTED
from naplps.names import quoted, shown

if TYPE_CHECKING:
    from naplps.answers import Accepted, Refusal
    from .codes import CodeRow, PlacedLine
    from .page_session import Session
    from .refusals import RefusalText
    from .source import Page

IN_ROW = 8
AROUND = 16
# The name of characters that have one row.
CHARACTERS = "characters"


def explain(session: Session) -> int:
    """Explains each page."""
    return session.each(lambda page: _explained(session, page), more=("codes", "help"))


def _explained(session: Session, page: Page) -> None:
    from naplps.answers import Refusal, Unanswered
    last, every = session.heard(page)
    answer = last.answer
    if not session.answered(page, answer) or isinstance(answer, Unanswered):
        return
    if session.json:
        _print_json(session, page, answer, every.rows)
        return
    session.output.line(f"{shown(page.name)}: {answer.line}")
    for line in _before(page, answer, every.rows, session.earlier.data):
        session.output.line(line)
    if isinstance(answer, Refusal):
        for line in _reasons(page, answer, session.earlier.data):
            session.output.line(line)


def _print_json(session: Session, page: Page, answer: Union[Accepted, Refusal],
                entries: Optional[List[PlacedLine]]) -> None:
    """Prints a row for each code, none where the entries aren't known, and what the manual says of the refusal."""
    from naplps.answers import Refusal
    from .schema import answered, pieces_of
    data, earlier = page.data, session.earlier.data
    rows = [] if data is None or entries is None else _rows(data, answer, entries, earlier)
    told = None
    if isinstance(answer, Refusal):
        known = _known(page, answer)
        told = {"means": known.means, "may_come_from": known.causes, "do": known.do, "command": _command(page, known),
                "treatments": list(known.treatments)}
    codes = ({"offset": row.start, "bytes": (data or b"")[row.start:row.end].hex(), "name": row.name,
              "entries": [str(line) for line in row.lines]} for row in rows)
    for piece in pieces_of({**answered(page.name, answer), "help": told}, "codes", codes):
        session.output.text(piece)
    session.output.line("")


def _rows(data: bytes, answer: Union[Accepted, Refusal], entries: List[PlacedLine], earlier: bytes) -> List[CodeRow]:
    """The rows of an accepted page, or of a refused one up to the refusal."""
    from naplps.answers import Refusal
    from .codes import rows_after, rows_with_lines
    place = len(earlier) + answer.place if isinstance(answer, Refusal) else None
    rows = rows_with_lines(earlier + data, entries, place)
    return list(rows_after(rows, len(earlier)) if earlier else rows)


def _before(page: Page, answer: Union[Accepted, Refusal], entries: Optional[List[PlacedLine]],
            earlier: bytes) -> Iterator[str]:
    """The rows of an accepted page, or of a refused one up to the refusal; or why they aren't shown.

    The entries are those of the earlier pages too. Characters that differ in nothing but their letter have one row.
    """
    from naplps.answers import Refusal
    from .codes import REST
    if page.data is None:
        yield "The page is longer than 16 MiB: its entries aren't shown."
        return
    if entries is None:
        yield f"The entries aren't shown: there are more than {MOST_LISTED}, or their lines are too long."
        return
    rows = _rows(page.data, answer, entries, earlier)
    if isinstance(answer, Refusal):
        yield ""
        yield "What came before:" if rows else "Nothing came before."
    for row in joined_characters(rows):
        yield from printed(row, page.data, row.name == REST)


def joined_characters(rows: Iterable[CodeRow]) -> Iterator[CodeRow]:
    """The rows, of which those with characters that continue each other are one, and entries of one look too."""
    from dataclasses import replace
    from .listing import MOST_IN_ROW, folded, goes_on

    def continues(last: CodeRow, row: CodeRow) -> bool:
        return (len(last.lines) < MOST_IN_ROW and len(row.lines) == 1 and last.end == row.start and _is_character(row)
                and (last.name == CHARACTERS or _is_character(last)) and goes_on(last.lines[-1], row.lines[0]))

    waiting: Optional[CodeRow] = None
    for row in rows:
        if waiting is not None and continues(waiting, row):
            waiting = replace(waiting, end=row.end, name=CHARACTERS, lines=waiting.lines + row.lines)
            continue
        if waiting is not None:
            yield replace(waiting, lines=[each.line for each in folded(waiting.lines)])
        waiting = row
    if waiting is not None:
        yield replace(waiting, lines=[each.line for each in folded(waiting.lines)])


def _is_character(row: CodeRow) -> bool:
    return len(row.lines) == 1 and (row.name == "space" or "character " in row.name)


def printed(row: CodeRow, data: bytes, is_rest: bool) -> Iterator[str]:
    """The lines of a row: offset, bytes, name of the code, and an entry in each as long as there are any. Of the rest
    of a page only the first bytes are in one."""
    starts = range(row.start, row.start + 1 if is_rest else row.end, IN_ROW)
    for i in range(max(len(starts), len(row.lines))):
        some = data[starts[i]:min(starts[i] + IN_ROW, row.end)] if i < len(starts) else b""
        line = "%8s  %-23s  %-26s %s" % (
            starts[i] if some else row.start if i == 0 else "", some.hex(" "), row.name if i == 0 else "",
            row.lines[i] if i < len(row.lines) else "")
        yield line.rstrip(" ")


def _reasons(page: Page, answer: Refusal, earlier: bytes) -> Iterator[str]:
    yield ""
    around, first = _around(page, answer.place)
    yield f"The bytes around {answer.place}:"
    yield from hexdump(around, first, answer.place)
    if page.data is not None:
        yield f"The code there: {name_at(earlier + page.data, len(earlier) + answer.place)}"
    known = _known(page, answer)
    yield ""
    tries = f"`naplps-pages fix` tries {', '.join(known.treatments)}." if known.treatments else ""
    for about, text in (("What it means", known.means), ("It may come from", known.causes),
                        ("What can be done", known.do), ("Repairs", tries)):
        if text:
            yield from wrap(f"{about}: {text}", 78, subsequent_indent="    ", break_on_hyphens=False)
    if known.command:
        yield "    " + _command(page, known)


def _known(page: Page, answer: Refusal) -> RefusalText:
    """What the manual says of a refusal, or of the case of it that this is."""
    from . import refusals
    case = "" if page.data is None else refusals.case_of(page.data, answer)
    return refusals.text_of(answer.number, answer.code or "", case)


def _command(page: Page, known: RefusalText) -> str:
    from . import refusals
    return known.command.replace(refusals.PAGE, quoted(page.name))


def _around(page: Page, place: int) -> Tuple[bytes, int]:
    first = max(0, place // AROUND * AROUND - (AROUND if place % AROUND < AROUND // 2 else 0))
    if page.data is not None:
        return page.data[first:first + 2 * AROUND], first
    assert page.file
    page.file.seek(first)
    return page.file.read(2 * AROUND), first


def hexdump(data: bytes, first: int, place: int) -> Iterator[str]:
    """Bytes in hexadecimal and as characters, sixteen a line, with carets under the byte at the place."""
    for at in range(0, max(len(data), 1), AROUND):
        some = data[at:at + AROUND]
        letters = "".join(chr(byte) if 0x20 <= byte < 0x7F else "." for byte in some)
        yield "%8d  %-47s  |%s|" % (first + at, some.hex(" "), letters)
        column = place - first - at
        is_last = at + AROUND >= len(data)
        if 0 <= column < AROUND or (is_last and column == AROUND):
            yield (" " * (10 + 3 * column) + "^^").ljust(10 + 47 + 3 + column) + "^"


def name_at(data: bytes, place: int) -> str:
    """The name of the code at a place, as far as the tables know it."""
    from .codes import cut
    if place >= len(data):
        return "none, the page has ended"
    for code in cut(data):
        if code.start <= place < code.end:
            return code.name
    return "unknown"
