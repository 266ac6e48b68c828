"""The command list: a line for each entry of pages."""
from __future__ import annotations

from typing import TYPE_CHECKING, Iterable, List

from naplps.limits import Limits

from .. import messages
from . import (
    BUDGET, FILES_OF_STORE, JSON_ALONE, PAGES, PAGE_GROUP, PREVIOUS, TIMEOUT, Command, Part, on_pages,
    require_one_standard_input,
)

if TYPE_CHECKING:
    from naplps.answers import Answer
    from ..listing import Row
    from ..page_session import Session
    from ..source import Page


def _parts() -> List[Part]:
    return [PAGES, JSON_ALONE, PREVIOUS, BUDGET, TIMEOUT]


def list_entries(session: Session) -> int:
    """The lines of each page's entries."""
    work = _list_json if session.json else _list_lines
    return session.each(lambda page: work(session, page), more=("list",))


def _list_lines(session: Session, page: Page) -> None:
    from naplps.answers import Accepted
    from naplps.entry import lines_in
    if session.after:
        _list_after(session, page)
        return
    answer = _limited(session.program.ask("list", page))
    if not session.answered(page, answer):
        return
    session.tell_refused(page.name, answer)
    front = session.front(page.name)
    if isinstance(answer, Accepted) and front:
        for line in lines_in(answer.body):
            session.output.line(front + line)
    elif isinstance(answer, Accepted):
        session.output.bytes(answer.body)


def _list_after(session: Session, page: Page) -> None:
    """The lines of a page after others."""
    from naplps.answers import Refusal
    page_list = session.heard(page).last
    if not session.answered(page, page_list.answer):
        return
    if isinstance(page_list.answer, Refusal):
        session.tell_refused(page.name, page_list.answer)
    else:
        front = session.front(page.name)
        session.output.text("".join(front + line + "\n" for line in page_list.lines or []))


def _list_json(session: Session, page: Page) -> None:
    from naplps.answers import Accepted
    from naplps.entry import members_of, read_line
    from ..listing import command_of, rows_of
    from ..schema import AT_ONCE, answered, pieces_of
    rows: Iterable[Row] = ()
    if session.after:
        page_list = session.heard(page).last
        answer, rows = page_list.answer, page_list.rows or ()
    else:
        answer = _limited(session.program.ask(command_of(page), page))
        if isinstance(answer, Accepted):
            rows = rows_of(page, answer.body)
            if answer.entries > AT_ONCE:  # (nothing is printed of what isn't a list)
                for _, line in rows_of(page, answer.body):
                    read_line(line)
    session.answered(page, answer)
    if not isinstance(answer, Accepted):
        session.print_answer(page, answer, list=None)
        return
    written = (members_of(read_line(line), place) for place, line in rows)
    for piece in pieces_of(answered(page.name, answer), "list", written):
        session.output.text(piece)
    session.output.line("")


def _limited(answer: Answer) -> Answer:
    """The answer, which says what else can be done where it would be too much."""
    from naplps.answers import Unanswered
    if isinstance(answer, Unanswered) and answer.too_much:
        return Unanswered(messages.NO_LIMIT_BY_ITSELF.format(reason=answer.reason), too_much=True)
    return answer


COMMAND = Command("print the entries of pages, one per line", _parts, on_pages(
    list_entries, FILES_OF_STORE, limits=Limits()), "list ferry.nap", require_one_standard_input, group=PAGE_GROUP,
    rank=40)
