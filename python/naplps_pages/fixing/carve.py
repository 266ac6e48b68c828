"""Pages inside files of any kind, and how far such a search is."""
from __future__ import annotations

import io
import os
import sys
import time
from contextlib import suppress
from typing import IO, TYPE_CHECKING, List, Optional

from naplps.names import shown

from .. import TOOL, messages
from ..console import FAILED, REFUSED, NotWritten, tell
from ..new_files import put_inside, replace, require_free

if TYPE_CHECKING:
    from naplps.names import Members
    from ..collection.progress import Stopping
    from ..page_finder import CarvedPage, PageFinder
    from ..page_session import Session
    from ..source import Page

WHAT, MOST_LENGTH = "how far naplps-pages fix has come; the same command goes on", 1 << 16
PIECE = 1 << 20
# Between two states that are kept, in seconds.
OFTEN = 5.0


def carve(session: Session, page: Page, stopping: Stopping) -> int:
    """Finds the pages in a file; how many there are. Where carving is but one way, refused ones are left out."""
    carving = _Carving(session, page, stopping)
    if stopping.number is None:
        carving.run()
    return carving.found


class _Carving:
    """The work on one source."""

    def __init__(self, session: Session, page: Page, stopping: Stopping) -> None:
        from ..collection.progress import Progress
        self.session, self.page, self.stopping = session, page, stopping
        self.file: IO[bytes] = io.BytesIO(page.data) if page.data is not None else _of(page)
        self.length = self.file.seek(0, os.SEEK_END)
        self.progress = Progress(sys.stderr, lambda: self.length >> 20, what="MiB")
        self.kept = time.monotonic()
        self.state: Optional[CarveState] = None
        self.found = 0
        self.stem = ""

    def run(self) -> None:
        """Reads the source once for its hash, and once for its pages."""
        from naplps.client import version
        from naplps.faults import Error
        from ..notes import carve_source, carved_before
        from ..page_finder import PageFinder
        marks = self._marks()
        sha256 = self._hash()
        if self.stopping.number is not None:
            return
        session = self.session
        begin = 0
        if session.into is not None:
            self.stem = session.path_for(self.page.name)
            folder, name = os.path.split(self.stem)
            terms = [sha256, self.length, session.min_entries, version(session.program.path, session.program.limits)]
            self.state = CarveState(os.path.join(folder, state_name(name)), shown(self.page.name), terms)
            begin = self.state.load(self.length)
            self.found = carved_before(self.stem, begin)
        if begin:
            tell(f"{shown(self.page.name)}: {messages.CARVES_ON.format(at=begin, number=self.found)}")
        finder = PageFinder(session.program, session.min_entries, self._beat)
        source = carve_source(self.page.name, self.length, sha256)
        try:
            self.file.seek(begin)
            for found in finder.find(self._read, begin):
                self._take(source, found)
        except Error as unanswered:
            session.complain(self.page.name, str(unanswered))
            return
        finally:
            self.progress.clear()
        if self._marks() != marks:
            session.complain(self.page.name, messages.CHANGED)
        elif not finder.stopped:
            self._end(finder)

    def _end(self, finder: PageFinder) -> None:
        if self.state:
            self.state.remove()
        if finder.skipped:
            tell(f"{shown(self.page.name)}: {messages.BEGINNINGS_SKIPPED.format(number=finder.skipped)}")
            self.session.fail(REFUSED)
        if not self.session.json and (self.found or self.session.only or self.page.data is None):
            pages = "1 page" if self.found == 1 else f"{self.found} pages"
            self.session.output.line(f"{shown(self.page.name)}: {pages} found in {self.length} bytes")

    def _marks(self) -> object:
        """By what it shows that a long source changed. (A short one is held.)"""
        if self.page.file is None:
            return None
        it = os.fstat(self.page.file.fileno())
        return it.st_size, it.st_mtime_ns, it.st_ino

    def _hash(self) -> str:
        import hashlib
        hashed = hashlib.sha256()
        self.file.seek(0)
        while self.stopping.number is None:
            piece = self._read(PIECE)
            if not piece:
                break
            hashed.update(piece)
        return hashed.hexdigest()

    def _read(self, number: int) -> bytes:
        try:
            return self.file.read(number)
        except OSError as error:
            from ..source import Unread
            raise Unread(error.strerror or str(error)) from None

    def _beat(self, at: int) -> bool:
        """Tells how far it is, and keeps that; whether to stop."""
        self.progress.show(at >> 20)
        is_stopped = self.stopping.number is not None
        now = time.monotonic()
        if self.state and (is_stopped or now - self.kept > OFTEN):
            self.kept = now
            self.state.keep(at, self.found)
        return is_stopped

    def _take(self, source: Members, found: CarvedPage) -> None:
        """Tells of a page, and writes it after its note."""
        from naplps.answers import Refusal, Unanswered
        from naplps.client import version
        from ..notes import carved_note, carved_path, carved_places, note_bytes
        from ..schema import answered, dumps
        session, name = self.session, self.page.name
        if session.only is None and isinstance(found.answer, Refusal):
            return  # (what is cut within stands in the file as well)
        if isinstance(found.answer, Unanswered):
            session.complain(name, found.answer.reason)
            return
        self.progress.clear()
        path = name
        if session.into is not None:
            path = carved_path(self.stem, found.offset)
            try:
                require_free(path, found.data)
            except NotWritten as taken:
                tell(str(taken))
                session.fail(FAILED)
                return
            note = carved_note(source, found, session.min_entries,
                               version(session.program.path, session.program.limits))
            self._put(path, found, note_bytes(note))
        self.found += 1
        if session.json:
            session.output.line(dumps({**answered(path, found.answer), **carved_places(found)}))
        else:
            session.output.line("%s: %d bytes at %d, at least %d, at most %d from %d: %s" % (
                shown(path), len(found.data), found.offset, found.least_end - found.offset,
                found.end - found.most_begin, found.most_begin, found.answer.line))

    def _put(self, path: str, found: CarvedPage, note: bytes) -> None:
        """Writes a page and its note; where the disk is full, the same command goes on before this page."""
        try:
            put_inside(path + ".json", note)
            put_inside(path, found.data)
        except NotWritten:
            if self.state:
                self.state.keep(found.offset, self.found)
            raise


def state_name(name: str) -> str:
    """The name of the file that has how far the search of a file of this name is."""
    from ..free_names import MOST_NAME, shortened
    return shortened(f".{name}.carve.json", MOST_NAME)


class CarveState:
    """The file that has how far the search of one source is, by its hash and length, what was asked, and by whom."""

    def __init__(self, path: str, source: str, terms: List[object]) -> None:
        self.path, self.source, self.terms = path, source, terms

    def load(self, length: int) -> int:
        """Where the search of so many bytes goes on. Raises NotWritten where a foreign file is."""
        from ..notes import read_note
        if not os.path.lexists(self.path):
            return 0
        try:
            if os.lstat(self.path).st_uid != os.geteuid():
                raise NotWritten(self.path, messages.STATE_OF_OTHER)
            members = read_note(self.path, MOST_LENGTH)
            if members["what"] != WHAT:
                raise ValueError
        except (OSError, ValueError, KeyError, TypeError, RecursionError):
            raise NotWritten(self.path, messages.FOREIGN_STATE) from None
        at = members.get("at")
        return at if members.get("terms") == self.terms and type(at) is int and 0 <= at <= length else 0

    def keep(self, at: int, found: int) -> None:
        """Keeps how far the search is. Where that can't be written, it goes on from before."""
        from naplps.version import VERSION
        from ..notes import note_bytes
        with suppress(NotWritten, OSError):
            members = {"source_name": self.source, "what": WHAT, "tool": f"{TOOL} {VERSION}", "terms": self.terms,
                       "at": at, "found": found}
            replace(self.path, note_bytes(members))

    def remove(self) -> None:
        """Removes it at the end."""
        with suppress(OSError):
            os.unlink(self.path)


def _of(page: Page) -> IO[bytes]:
    assert page.file is not None
    return page.file
