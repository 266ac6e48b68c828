"""The command make: pages of text that people write, what is wrong with it, and such text of a page."""
from __future__ import annotations

import os
from typing import TYPE_CHECKING, List, Optional, Tuple

from naplps.limits import MOST_LISTED, Limits
from naplps.names import printable, shown

from .. import messages
from ..console import REFUSED, tell_line
from ..new_files import made_folder, put_inside
from . import (
    BUDGET, FILES_OF_STORE, MAKE_GROUP, NOTHING_OVERWRITTEN, OF_PAGE, OUTPUT, TIMEOUT, Argument, Command, Given, Option,
    Part, require_one_standard_input,
)

if TYPE_CHECKING:
    from naplps.answers import Accepted, WrongLine
    from naplps.entry import Entries
    from ..authoring.translating import Translation
    from ..authoring.values import Mistake
    from ..page_session import Session
    from ..source import Page

SOURCES = Argument("pages", "FILE", "text that describes a page, as docs/MAKING.md says, or lines that `list` printed; "
                   f"with --from, a page. Each {OF_PAGE}", "+", "source")
OUT = OUTPUT._replace(help="the file to write, or - for standard output. For several FILEs, a folder, in which pages "
                      "end in .nap, drawings in .svg and text in .txt")
FROM = Option("--from", "turn a page into text that `make` takes", default=False, to="is_from")
PAGE, SVG = FORMATS = ("page", "svg")
FORMAT = Option("--format", "what to make: page; or svg, a drawing of it, which a folder gets beside the page. The "
                "default is svg if OUT ends in .svg, and otherwise page", "FORMAT", str, choices=FORMATS)
NAPLPS, PICTURE, SOURCE = ".nap", ".svg", ".txt"


def _parts() -> List[Part]:
    return [SOURCES, OUT, FROM, FORMAT, BUDGET, TIMEOUT]


def _check(given: Given) -> None:
    from .. import outputs
    is_several = len(given.pages) > 1
    outputs.place(given, is_several)
    if is_several and given.into is None:
        given.parser.error(messages.SEVERAL_PAGES)
    if given.is_from and given.format:
        given.parser.error("--from and --format exclude each other")
    if not given.format:
        given.format = SVG if outputs.ending(given.output or "") == PICTURE and not given.is_from else PAGE
    if not given.is_from:
        outputs.require_no_terminal(given, "a page" if given.format == PAGE else "a picture")
    require_one_standard_input(given)


def _run(given: Given, tool: str) -> int:
    from ..page_session import on_pages as running
    if given.is_from:
        return running(given, tool, source, of_store=FILES_OF_STORE)
    return running(given, tool, make, Limits())


def source(session: Session) -> int:
    """The source of each page: what `make` makes the same canonical bytes of."""
    from ..authoring.writing import source_lines

    def work(page: Page) -> None:
        entries = entries_of(session, page)
        if entries is not None:
            lines = "".join(line + "\n" for line in source_lines(list(entries)))
            session.deliver(page.name, lines.encode("utf-8"), SOURCE)
    with made_folder(session.into):
        return session.each(work)


def entries_of(session: Session, page: Page) -> Optional[Entries]:
    """The entries of a page that has a source; where it has none, why is told."""
    from naplps.answers import Refusal
    last = session.heard(page).last
    if not session.answered(page, last.answer):
        return None
    session.tell_refused(page.name, last.answer, messages.NO_SOURCE_OF_REFUSED)
    if isinstance(last.answer, Refusal):
        return None
    if last.entries is None:
        session.complain(page.name, messages.LONG_FOR_SOURCE.format(most=MOST_LISTED))
    return last.entries


def make(session: Session) -> int:
    """The page of each source, or its drawing."""
    from naplps.answers import Unanswered, WrongLine
    from ..authoring.translating import Translation, translate

    def work(page: Page) -> None:
        if page.data is None:
            session.complain(page.name, messages.LONG_SOURCE)
            return
        text, mistakes = _decoded(page.data)
        made = Translation(mistakes=mistakes) if mistakes else translate(text)
        if made.mistakes:
            _tell(session, page.name, made.mistakes)
            return
        answer = session.program.make(bytes(made.text))
        if isinstance(answer, Unanswered):
            session.complain(page.name, answer.reason)
        elif isinstance(answer, WrongLine):
            _tell(session, page.name, [_mistake(text, made, answer)])
        else:
            _put(session, page.name, answer)
    with made_folder(session.into):
        return session.each(work)


def _put(session: Session, name: str, answer: Accepted) -> None:
    """Hands on the page, or its drawing; into a folder both, the page first."""
    path = ""
    if session.into is not None:
        path = os.path.splitext(session.path_for(name))[0] + NAPLPS
        put_inside(path, answer.body)
    elif session.format == PAGE:
        session.deliver(name, answer.body)
    picture = _drawing(session, name, answer.body) if session.format == SVG else None
    if picture is not None and path:
        put_inside(path + PICTURE, picture)
    elif picture is not None:
        session.deliver(name, picture)


def _drawing(session: Session, name: str, data: bytes) -> Optional[bytes]:
    """The drawing of a page; None where there is none, which is told."""
    from ..showing.sketches import sketch
    from ..source import Page
    drawn = sketch(session, Page(name, data))
    return None if drawn is None else drawn.encode("utf-8")


def _decoded(data: bytes) -> Tuple[str, List[Mistake]]:
    """The text of a source, and where it isn't UTF-8."""
    from ..authoring.values import Mistake
    try:
        return data.decode("utf-8"), []
    except UnicodeDecodeError as error:
        before = data[data.rfind(b"\n", 0, error.start) + 1:error.start]
        return "", [Mistake(data.count(b"\n", 0, error.start) + 1, len(before.decode("utf-8")) + 1,
                            messages.NOT_UTF_8.format(byte=data[error.start]))]


def _mistake(source: str, made: Translation, wrong: WrongLine) -> Mistake:
    """What the program found, at what of the source it comes from."""
    from ..authoring.translating import misfit
    from ..authoring.values import Mistake, quoted
    if wrong.opening is not None:
        return Mistake(*made.origin(wrong.opening), messages.NO_END)
    where = made.origin(wrong.number)
    if wrong.column is None:
        why: Optional[str] = misfit(source, wrong.number)
        return Mistake(*where, wrong.reason + (f": {why}" if why else ""))
    line = bytes(made.text).split(b"\n")[wrong.number - 1].decode("ascii")
    return Mistake(*where, messages.LINE_NOT_TAKEN.format(line=quoted(line), column=wrong.column))


def _tell(session: Session, name: str, mistakes: List[Mistake]) -> None:
    """Tells what is wrong with a source, as compilers do."""
    from ..authoring.translating import MOST_MISTAKES
    session.output.flush()
    for line, column, message in mistakes:
        tell_line(f"{shown(name)}:{line}:{column}: {printable(message)}")
    if len(mistakes) >= MOST_MISTAKES:
        session.tell(messages.MANY_MISTAKES.format(path=shown(name), most=MOST_MISTAKES))
    session.fail(REFUSED)


COMMAND = Command("make pages from text that people edit, or turn pages into such text", _parts, _run,
                  "make ferry.txt -o ferry.nap", _check, NOTHING_OVERWRITTEN, MAKE_GROUP, 10)
