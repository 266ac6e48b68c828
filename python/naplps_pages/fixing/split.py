"""Captures cut into their pages, each a file of its own with a note."""
from __future__ import annotations

from typing import TYPE_CHECKING, List, Optional

from naplps.names import shown

from .. import messages
from ..console import FAILED
from ..new_files import make_folder
from ..source import Unread

if TYPE_CHECKING:
    from naplps.treating.borders import Piece
    from naplps.treating.treatments import Ask
    from ..notes import CutPart
    from ..page_session import Session
    from ..source import Page

# A capture of more pages isn't cut.
MOST_PAGES = 100_000


def split(session: Session, page: Page) -> Optional[str]:
    """Cuts a capture into its pages; where it has none why, and nothing is made. Raises Unread where it is too long."""
    from naplps.answers import Accepted, Refusal, Unanswered
    from naplps.treating.borders import pieces
    if page.data is None:
        raise Unread(messages.LONG_CAPTURE)
    some = pieces(page.data)
    if len(some) > MOST_PAGES:
        raise Unread(messages.MANY_PARTS.format(pages=len(some), most=MOST_PAGES))
    if not some:
        return messages.NO_BORDER
    parts = parts_of(session.program.ask, page.data, some)
    if not has_a_page(session.program.ask, parts):
        return messages.NO_PAGE_AMONG_PARTS.format(parts=len(parts))
    _write(session, page, parts)
    if not session.json:
        accepted, refused = (sum(isinstance(part.answer, kind) for part in parts) for kind in (Accepted, Refusal))
        session.output.line("%s%d parts: %d accepted, %d refused" % (
            session.front(page.name), len(parts), accepted, refused))
    if any(isinstance(part.answer, Unanswered) for part in parts):
        session.fail(FAILED)
    return None


def parts_of(ask: Ask, data: bytes, some: List[Piece]) -> List[CutPart]:
    """The parts of a capture, with the answers to them."""
    from ..notes import CutPart
    parts: List[CutPart] = []
    for piece in some:
        part = data[piece.offset:piece.end]
        after = data[piece.end:] if piece is some[-1] else b""
        parts.append(CutPart(piece, part, data[piece.offset - piece.before:piece.offset], after, ask("check", part)))
    return parts


def has_a_page(ask: Ask, parts: List[CutPart]) -> bool:
    """Whether a page is among the parts, or of one it isn't known."""
    from naplps.answers import Unanswered
    return any(isinstance(part.answer, Unanswered) for part in parts) or any(
        part.is_page or _is_readable(ask, part) for part in parts)


def _is_readable(ask: Ask, part: CutPart) -> bool:
    """Whether it is refused, and what is left of it without bytes before and after it is accepted as a page."""
    from naplps.answers import Accepted, Refusal
    from naplps.treating.treatments import TreatmentSearch
    from .. import file_kinds
    if not isinstance(part.answer, Refusal):
        return False
    cure = TreatmentSearch(ask).find(part.data, part.answer.place)
    return (cure is not None and cure.is_cut
            and file_kinds.kind((cure.data,), Accepted(cure.entries)) == file_kinds.PAGE)


def _write(session: Session, page: Page, parts: List[CutPart]) -> None:
    """Tells of the parts, and writes them where a folder is named, each after its note."""
    from naplps.answers import Unanswered
    from naplps.client import version
    from ..notes import capture_source, part_note, part_path, part_paths, paths_with_notes, put_part
    assert page.data is not None
    source = capture_source(page.name, page.data, len(parts), version(session.program.path, session.program.limits))
    beside = page.name
    if session.into is not None:
        beside = session.path_for(page.name, making=lambda path: paths_with_notes(part_paths(path, len(parts))))
        make_folder(session.into)
    for number, part in enumerate(parts, 1):
        path = part_path(beside, number, len(parts))
        if isinstance(part.answer, Unanswered):
            session.complain(path, part.answer.reason)
        if session.into is not None:
            put_part(path, part, {**part_note(source, number, part), **session.path_members(path)})
        _print(session, path, part)


def _print(session: Session, path: str, part: CutPart) -> None:
    from naplps.answers import Accepted, Refusal
    from naplps.treating.borders import text_length
    from .. import file_kinds
    from ..schema import answered, dumps
    piece, answer = part.piece, part.answer
    if session.json:
        session.output.line(dumps({**answered(path, answer), "offset": piece.offset, "bytes": piece.length,
                                   "cut_at": piece.cut_at, "before": part.before.hex(), "after": part.after.hex()}))
    elif isinstance(answer, (Accepted, Refusal)):
        texts = "".join(", %d bytes of text %s it" % (text_length(some), where) for some, where in (
            (part.before, "before"), (part.after, "after")) if text_length(some))
        line = answer.line if part.is_page or isinstance(answer, Refusal) else (
            "%s (%s)" % (answer.line, file_kinds.kind((part.data,), answer)))
        session.output.line("%s: %d bytes at %d, cut at %s%s: %s" % (
            shown(path), piece.length, piece.offset, piece.cut_at, texts, line))
