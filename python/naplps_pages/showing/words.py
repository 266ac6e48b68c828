"""Pages as text, as lines of the screen; and in words: their texts, areas and changes."""
from __future__ import annotations

from typing import TYPE_CHECKING, List, Sequence, Union

from naplps.limits import MOST_LISTED

from .. import messages
from ..new_files import made_folder

if TYPE_CHECKING:
    from naplps.names import Members
    from ..listing import Listed
    from ..page_session import Session
    from ..source import Page

TEXT = "text"
# What is told of a refused page, of which what comes before the refusal is shown.
BEFORE_REFUSAL = {TEXT: messages.TEXT_BEFORE_REFUSAL, "words": messages.DESCRIBED_BEFORE_REFUSAL}


def show_words(session: Session) -> int:
    """Each page as text, or in words."""
    with made_folder(session.into):
        return session.each(lambda page: _show(session, page), more=(session.format,))


def _show(session: Session, page: Page) -> None:
    last = session.heard(page).last
    if not session.answered(page, last.answer):
        return
    why = _too_much(session, last)
    if why:
        session.complain(page.name, why)
        return
    made = _text(last) if session.format == TEXT else _words(last, session.json)
    if session.json:
        session.print_answer(page, last.answer, **{session.format: made})
    else:
        session.deliver_lines(page.name, list(made))
    session.tell_refused(page.name, last.answer, BEFORE_REFUSAL[session.format])


def _too_much(session: Session, last: Listed) -> str:
    """Why a page has neither text nor words; nothing where it has."""
    from naplps.answers import Accepted
    if last.entries is not None:
        return ""
    if session.format == TEXT:
        return messages.LONG_FOR_TEXT
    is_accepted = isinstance(last.answer, Accepted)
    return messages.LONG_FOR_DESCRIPTION.format(most=MOST_LISTED) if is_accepted else messages.LONG_BEFORE_REFUSAL


def _text(last: Listed) -> List[str]:
    """The lines of the screen."""
    from naplps.screen_text import lines_of
    list(last.entries or ())  # (raises NotALine where one isn't that of an entry)
    return lines_of("".join(f"{each}\n" for each in last.lines or ()))


def _words(last: Listed, as_members: bool) -> Union[Sequence[str], Members]:
    """The description, as lines or as JSON has it."""
    from naplps.drawing.description import describe
    it = describe(list(last.entries or ()))
    if not as_members:
        return it.lines()
    return {"screens": [{"text": each.text_lines(), "areas": each.area_lines()} for each in it.screens],
            "defined": list(it.defined), "changes": list(it.changes)}
