"""Pages as they came down the line, each in one HTML file that plays it."""
from __future__ import annotations

import os
from typing import TYPE_CHECKING, List, Union

from naplps.limits import MOST_LISTED
from naplps.names import shown

from .. import messages
from ..new_files import made_folder

if TYPE_CHECKING:
    from naplps.answers import Accepted, Refusal
    from ..listing import Earlier, Heard
    from ..page_session import Session
    from ..source import Page

TITLE = "%s, as it came down the line"


def play(session: Session) -> int:
    """The player of each page."""
    from naplps.answers import Accepted, Refusal
    from ..player import can_be_played, html, played

    def work(page: Page) -> None:
        heard = session.heard(page)
        last, answer = heard.last, heard.last.answer
        if not session.answered(page, answer):
            return
        assert isinstance(answer, (Accepted, Refusal))
        if page.data is None or not can_be_played(last):
            session.complain(page.name, messages.UNKNOWN_PLACES if page.data is None else
                             messages.LONG_TO_PLAY.format(most=MOST_LISTED))
            return
        made = played(page.data, last, before=_before(heard))
        name = "A page" if page.name == "-" else shown(os.path.basename(page.name))
        document = html(TITLE % name, _notes(answer, session.earlier), made)
        session.deliver(page.name, document.encode("utf-8"), ".html")
        session.tell_refused(page.name, answer, messages.PLAYED_BEFORE_REFUSAL)
    with made_folder(session.into):
        return session.each(work)


def _before(heard: Heard) -> List[str]:
    """The lines of the entries that earlier pages added."""
    every, last = heard.every.lines or [], heard.last.lines or []
    return every[:len(every) - len(last)]


def _notes(answer: Union[Accepted, Refusal], earlier: Earlier) -> str:
    from naplps.answers import Refusal
    some = [f"The answer to the page: {answer.line}."]
    if isinstance(answer, Refusal):
        some.append("It is played up to there.")
    if earlier.names:
        names = ", ".join("standard input" if each == "-" else shown(os.path.basename(each)) for each in earlier.names)
        some.append(f"It comes after {names}: what that drew is there when the first byte comes.")
    return " ".join(some)
