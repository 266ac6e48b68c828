"""The lists of pages, alone or after other pages; and their rows, in which characters after each other are one."""
from dataclasses import dataclass
from functools import cached_property
from typing import Iterable, Iterator, List, NamedTuple, Optional, Tuple, Union

from naplps.answers import NONSENSE, Accepted, Answer, Refusal, Unanswered
from naplps.client import Client
from naplps.entry import Entries, lines_in, placed
from naplps.limits import MOST_LISTED, MOST_PAGE
from naplps.names import shown

from . import messages
from .source import Page, Unread, read

# The commands that tell entries, without their places and with them.
LIST, PLACES = "list", "places"
# The place of the byte with which an entry came, where that is known, and the entry's line.
Row = Tuple[Optional[int], str]


@dataclass(frozen=True)
class Listed:
    """The answer to a page, and its entries, of a refused one those before the refusal; None where they're too much.

    Those of which no places were wanted are lines alone.
    """

    answer: Answer
    rows: Optional[List[Row]] = None
    unplaced: Optional[List[str]] = None

    @cached_property
    def lines(self) -> Optional[List[str]]:
        """The lines of the entries without their places."""
        return self.unplaced if self.rows is None else [line for _, line in self.rows]

    @cached_property
    def entries(self) -> Optional[Entries]:
        """The entries, each of which is read once. Reading one raises NotALine where a line isn't that of an entry."""
        return None if self.lines is None else Entries(self.lines)


def listed(program: Client, page: Page) -> Listed:
    """Asks `check` first, and then for the entries where that tells of few. A page above 16 MiB has no places."""
    return _listed(program, page, program.ask("check", page))


def listed_of_few(program: Client, page: Page, has_places: bool = True) -> Listed:
    """The same of a page that was accepted before with few entries: asks for these alone, where they are few still.
    Where places aren't wanted there are no rows but lines, which is faster."""
    command = command_of(page) if has_places else LIST
    reply = program.ask(command, page)
    if isinstance(reply, Unanswered):
        return listed(program, page) if reply.too_much else Listed(reply)
    if has_places:
        return _with_rows(command, reply, reply)
    lines = reply.body.decode("ascii").splitlines()
    return Listed(reply, unplaced=lines if len(lines) <= MOST_LISTED else None)


def _listed(program: Client, page: Page, answer: Answer) -> Listed:
    if isinstance(answer, Unanswered) or (isinstance(answer, Accepted) and answer.entries > MOST_LISTED):
        return Listed(answer)
    if page.data is None and isinstance(answer, Refusal):
        return Listed(answer)
    reply = program.ask(command_of(page), page)
    if isinstance(reply, Unanswered):
        return Listed(answer if reply.too_much else reply)
    if reply.line != answer.line:
        return Listed(Unanswered(NONSENSE))
    return _with_rows(command_of(page), answer, reply)


def _with_rows(command: str, answer: Answer, reply: Union[Accepted, Refusal]) -> Listed:
    rows = [*_rows(command, reply.body)]
    return Listed(answer, rows if len(rows) <= MOST_LISTED else None)


def command_of(page: Page) -> str:
    """The command that tells the entries of a page, with their places if it is 16 MiB or less."""
    return LIST if page.data is None else PLACES


def rows_of(page: Page, body: bytes) -> Iterator[Row]:
    """The entries that the answer to that command has, one after another."""
    return _rows(command_of(page), body)


def _rows(command: str, body: bytes) -> Iterator[Row]:
    if command == LIST:
        return ((None, line) for line in lines_in(body))
    return ((place, line) for place, line in placed(body))


@dataclass(frozen=True)
class Earlier:
    """Pages that come before another one: their bytes one after the other, their names, and where each ends."""

    data: bytes = b""
    names: Tuple[str, ...] = ()
    ends: Tuple[int, ...] = ()

    def joined(self, page: Page) -> Page:
        """The page with the earlier ones before it."""
        return Page(page.name, self.data + (page.data or b""))

    def refusal(self, answer: Refusal) -> str:
        """What is reported where one of the earlier pages is refused."""
        at = next(number for number, end in enumerate(self.ends) if answer.place < end)
        start = self.ends[at - 1] if at else 0
        return messages.EARLIER_REFUSED.format(path=shown(self.names[at]), answer=moved(answer, start).line)


class Heard(NamedTuple):
    """The answer to a page alone, with offsets in it; and to it with the pages before it."""

    last: Listed
    every: Listed


def read_earlier(names: List[str], seconds: float) -> Earlier:
    """Reads the pages of these names, each within a number of seconds. Raises Unread, with the name of the page."""
    pieces: List[bytes] = []
    ends: List[int] = []
    for name in names:
        try:
            page = read(name, seconds)
        except Unread as error:
            raise Unread(f"{shown(name)}: {error}") from None
        page.close()
        length = (ends[-1] if ends else 0) + len(page.data or b"")
        if page.data is None or length > MOST_PAGE:
            raise Unread(messages.LONG_EARLIER.format(path=shown(name)))
        pieces.append(page.data)
        ends.append(length)
    return Earlier(b"".join(pieces), tuple(names), tuple(ends))


def heard(program: Client, earlier: Earlier, page: Page) -> Heard:
    """Asks about a page after these."""
    if not earlier.names:
        alone = listed(program, page)
        return Heard(alone, alone)
    if page.data is None or len(earlier.data) + len(page.data) > MOST_PAGE:
        return _without(Unanswered(messages.LONG_WITH_EARLIER))
    every = listed(program, earlier.joined(page))
    answer, start = every.answer, len(earlier.data)
    if isinstance(answer, Unanswered):
        return _without(answer)
    if isinstance(answer, Refusal) and answer.place < start:
        return _without(Unanswered(earlier.refusal(answer)))
    before = listed(program, Page("", earlier.data))
    if isinstance(before.answer, Unanswered):
        return _without(before.answer)
    if every.rows is None or before.rows is None:
        return _without(Unanswered(messages.MANY_WITH_EARLIER))
    rows = _behind(every.rows, before.rows, start)
    of_page: Answer = Accepted(len(rows)) if isinstance(answer, Accepted) else moved(answer, start)
    return Heard(Listed(of_page, rows), every)


def _behind(every: List[Row], before: List[Row], start: int) -> List[Row]:
    """The entries that came with bytes from the start on, with the offsets after it.

    At the start itself an opcode may act whose operands end there: these entries are of the page before, and come
    first.
    """
    of_before = sum(place == start for place, _ in before)
    rows: List[Row] = [(place - start, line) for place, line in every if place is not None and place >= start]
    at_start = sum(place == 0 for place, _ in rows)
    return rows[min(of_before, at_start):]


def moved(answer: Refusal, start: int) -> Refusal:
    """The refusal with its place counted from here."""
    return Refusal(answer.number, answer.fault, answer.code, answer.place - start, answer.body)


def _without(answer: Answer) -> Heard:
    return Heard(Listed(answer), Listed(answer))


# The greatest number of characters that have one row.
MOST_IN_ROW = 80
PEN, AFTER = " pen=", " pen=after "
# Digits of a character's code.
CODE = 2
# Letters of the primary set that stand for themselves in quotation marks.
ESCAPES = {0x22: '\\"', 0x5C: "\\\\", 0x7F: "\\x7f"}


class FoldedRow(NamedTuple):
    """A row of a list, and how many entries it tells."""

    line: str
    entries: int


class _Characters(NamedTuple):
    """A character's line: its set, its code, its pen, and what else it has."""

    set: str
    code: str
    pen: str
    rest: str


def _character(line: str) -> Optional[_Characters]:
    if not line.startswith("CHAR "):
        return None
    words = line.split(" ", 4)
    return _Characters(*words[1:]) if len(words) == 5 else None


def goes_on(last: str, line: str) -> bool:
    """Whether the line is a character that continues a row."""
    around = _around(last)
    return around is not None and line[:around[0]] + line[around[0] + CODE:] == around[1]


def _around(line: str) -> Optional[Tuple[int, str]]:
    """Of a character's line where its code stands, and what stands around the code in the lines that continue it."""
    pen = line.find(PEN)
    if pen < 0 or not line.startswith("CHAR "):
        return None
    return pen - CODE, line[:pen - CODE] + AFTER[:-1] + line[line.find(" ", pen + 1):]


def folded(lines: Iterable[str]) -> Iterator[FoldedRow]:
    """The rows of a list, one after another."""
    run: List[str] = []
    around: Optional[Tuple[int, str]] = None
    at, expected = 0, ""
    for line in lines:
        if around and line[:at] + line[at + CODE:] == expected and len(run) < MOST_IN_ROW:
            run.append(line)
            continue
        if run:
            yield _row(run)
        run, around = [line], _around(line)
        at, expected = around or (0, "")
    if run:
        yield _row(run)


def _row(run: List[str]) -> FoldedRow:
    """The row of some lines that continue each other."""
    first = _character(run[0]) if len(run) > 1 else None
    if first is None:
        return FoldedRow(run[0], 1)
    at = run[0].find(PEN) - CODE
    codes = [line[at:at + CODE] for line in run]
    codes_shown = " ".join([first.set, *codes])
    if first.set == "primary":
        codes_shown = '"%s"' % bytes.fromhex("".join(codes)).decode("latin-1").translate(ESCAPES)
    return FoldedRow(f"CHAR {codes_shown} x{len(run)} {first.pen} {first.rest}", len(run))
