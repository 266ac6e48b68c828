"""One picture of several pages, as SVG or as PNG."""
from __future__ import annotations

from typing import TYPE_CHECKING, Tuple

from ..console import FAILED, tell
from ..new_files import put
from .sketches import is_shown, listed, with_guess

if TYPE_CHECKING:
    from ..page_session import Session
    from ..source import Page

PNG = "png"
TOO_MUCH_COMES = "too many entries"


def sheet(session: Session) -> int:
    """One picture of all pages. Those without an answer are reported, and not in it."""
    from ..pictures import NoPng, find_converter, png_of
    try:
        if session.format == PNG:
            find_converter()
        status, svg = _drawn(session)
        if not svg:
            return status
        made = svg.encode("utf-8")
        if session.format == PNG:
            made = png_of(made, session.program.limits.seconds)
    except NoPng as error:
        tell(str(error))
        return FAILED
    assert session.output_file is not None
    put(session.output_file, made)
    return status


def _drawn(session: Session) -> Tuple[int, str]:
    """The status, and the picture as SVG, which is nothing where there are no pages."""
    from naplps import drawing
    from naplps.answers import Refusal
    from ..pictures import ContactSheet, Tile
    made = ContactSheet()

    def work(page: Page) -> None:
        heard = session.heard(page)
        answer = heard.last.answer
        if is_shown(session, page, heard):
            line = session.treated or answer.line
            entries, guess = with_guess(session, page, heard)
            # (a black picture would look as a page that is black)
            is_empty = isinstance(answer, Refusal) and not listed(heard).lines and not guess
            drawn = None if entries is None or is_empty else drawing.drawn(entries, "", guess, made.prefix())
            line += "; then a guess" if guess else ""
            below = line if drawn or isinstance(answer, Refusal) else TOO_MUCH_COMES
            made.add(Tile(session.title(page), below, drawn))
    status = session.each(work)
    return status, made.svg() if made.tiles else ""
