"""Pictures of pages in dots, as PNG, and as PNG that moves."""
from __future__ import annotations

from typing import TYPE_CHECKING

from .. import messages
from ..new_files import made_folder
from .sketches import listed

if TYPE_CHECKING:
    from ..listing import Listed
    from ..page_session import Session
    from ..source import Page

MOVING = "apng"


def dots(session: Session) -> int:
    """The dots of each page."""
    def work(page: Page) -> None:
        heard = session.heard(page)
        if not session.answered(page, heard.last.answer):
            return
        if heard.every.lines is None:
            session.complain(page.name, messages.LONG_FOR_PICTURE)
            return
        if not session.takes(listed(heard)):
            return
        session.tell_refused(page.name, heard.last.answer, messages.PICTURE_BEFORE_REFUSAL)
        make = _moving if session.format == MOVING else _still
        made = make(session, page, heard.every, len(heard.every.lines) - len(heard.last.lines or ()))
        session.deliver(page.name, made, ".png")
    with made_folder(session.into):
        return session.each(work)


def _still(session: Session, page: Page, every: Listed, _before: int) -> bytes:
    """The picture at the end of a page."""
    from naplps.dots import raster
    from naplps.dots.frames import png
    assert every.entries is not None
    it = raster(every.entries)
    if it.drawn < it.total:
        session.complain(page.name, messages.PICTURE_ENDS.format(entry=it.drawn + 1))
    colours = it.colours()
    return png([[colours[ink] for ink in row] for row in it.rows()], session.scale)


def _moving(session: Session, page: Page, every: Listed, before: int) -> bytes:
    """The picture over time; what earlier pages draw is there from the first frame on."""
    from naplps.dots.frames import apng, moving
    assert every.entries is not None
    start = len(session.earlier.data)
    places = [max((place or 0) - start, 0) if number >= before else 0 for number, (place, _) in enumerate(
        every.rows or [(None, line) for line in every.lines or ()])]
    film = moving(list(every.entries), places, session.baud)
    if film.was_cut:
        session.complain(page.name, messages.FRAMES_END.format(frames=len(film.frames)))
    return apng(film.frames, session.scale)
