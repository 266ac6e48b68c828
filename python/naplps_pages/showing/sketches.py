"""Sketches of pages, as SVG."""
from __future__ import annotations

from typing import TYPE_CHECKING, NamedTuple, Optional

from .. import messages
from ..new_files import made_folder

if TYPE_CHECKING:
    from naplps import drawing
    from naplps.entry import Entries
    from ..listing import Heard, Listed
    from ..page_session import Session
    from ..source import Page


def sketches(session: Session) -> int:
    """A sketch of each page."""
    def work(page: Page) -> None:
        heard = session.heard(page)
        if is_shown(session, page, heard):
            session.deliver(page.name, _drawn(session, page, heard).svg.encode("utf-8"), ".svg")
    with made_folder(session.into):
        return session.each(work)


def is_shown(session: Session, page: Page, heard: Heard) -> bool:
    """Whether there is a picture of a page that was asked about."""
    return session.answered(page, heard.last.answer) and session.takes(listed(heard))


def listed(heard: Heard) -> Listed:
    """The answer to a page, with the entries of those before it."""
    from ..listing import Listed
    return Listed(heard.last.answer, heard.every.rows)


class _Shown(NamedTuple):
    """The entries that are drawn, if they are few enough, and which of them are a guess."""

    entries: Optional[Entries]
    guess: Optional[drawing.Guess] = None


def with_guess(session: Session, page: Page, heard: Heard) -> _Shown:
    """What is drawn of a page that was answered. A refusal is reported, and what the sketch shows then."""
    from naplps import drawing
    from naplps.answers import Refusal
    from naplps.entry import Entries
    from ..guessing import Guesser
    page_list, answer = listed(heard), heard.last.answer
    if not isinstance(answer, Refusal):
        return _Shown(page_list.entries)
    first = len(session.earlier.data)
    guessed = None
    if session.guess and page.data is not None:
        guessed = Guesser(session.program, session.earlier.data + page.data).guess(heard.every)
    shows = messages.SKETCHED_BEFORE_REFUSAL if page_list.lines is not None else ""
    if session.guess:
        shows += messages.GUESSED_BEHIND if guessed else messages.NOT_GUESSED_BEHIND
    session.tell_refused(page.name, answer, shows)
    if guessed is None:
        return _Shown(page_list.entries)
    return _Shown(Entries(guessed.lines), drawing.Guess(guessed.start, guessed.sentences(first)))


def _drawn(session: Session, page: Page, heard: Heard) -> drawing.Sketch:
    """The sketch of a page that was answered."""
    from naplps import drawing
    from naplps.answers import Refusal
    from ..pictures import sketch_of
    entries, guess = with_guess(session, page, heard)
    if guess is None or entries is None:
        return sketch_of(listed(heard), session.treated)
    answer = heard.last.answer
    return drawing.draw(entries, f"then {answer.line}" if isinstance(answer, Refusal) else "", guess)


def sketch(session: Session, page: Page) -> Optional[str]:
    """The sketch of a page that was made; None where there is no answer to it, which is reported."""
    heard = session.heard(page)
    return _drawn(session, page, heard).svg if session.answered(page, heard.last.answer) else None
