"""What a box keeps of each page: a worker of a scan makes it while it has the bytes, and asks no question twice. A file
that is too long for a page is read once, and the pages inside it are found as they come.
"""
import hashlib
import io
import os
import re
import sys
from typing import IO, Any, Callable, Dict, List, Optional, Sequence, Tuple

from naplps.answers import Accepted, Answer, FindAnswer, HashedAnswer, Refusal, Unanswered
from naplps.client import Client
from naplps.faults import Error
from naplps.limits import MOST_LISTED
from naplps.names import shown
from naplps.treating.borders import pieces
from naplps.treating.changes import digest
from naplps.treating.treatments import Cure

from .. import messages
from ..collection import tables
from ..collection.every_file import FileFacts
from ..collection.file_reader import FLAGS, Seen, change, marks
from ..collection.folders import OpenFolders, reason, root_length
from ..collection.progress import Progress
from ..collection.protocol import BlockMaker, Piece, WorkerOptions, serve
from ..collection.tables import Answered, Cured
from ..collection.worker import KnownHashes, Knows, Worker
from ..fixing.split import MOST_PAGES, has_a_page, parts_of
from ..listing import LIST, PLACES
from ..notes import treatment_members
from ..page_finder import CarvedPage, PageFinder
from ..report import HELD_PLAYER
from .kept_pages import Claims, KeptPage, KeptPart

# The number of answers that are known at once, and of bytes of these.
MOST_KNOWN, MOST_BYTES = 100_000, 64 << 20
PLACE = re.compile(rb"(?m)^[0-9]+ ")


class AskedOnce:
    """Asks a client, and knows its answers. The body of `list` is that of `places` without the places."""

    def __init__(self, program: Client, beat: Callable[[], None]) -> None:
        self.program, self.beat = program, beat
        self.known: Dict[Tuple[str, bytes], Answer] = {}
        self.held = 0

    def ask(self, call: str, data: bytes) -> Answer:
        """The answer to a call on some bytes."""
        self.beat()
        if call == LIST:
            places = self.ask(PLACES, data)
            if isinstance(places, Accepted):
                return Accepted(places.entries, PLACE.sub(b"", places.body))
            if not isinstance(places, Unanswered) or not places.too_much:
                return places
        key = call, digest(data)
        if key not in self.known:
            answer = self.program.ask(call, data)
            self.held += len(getattr(answer, "body", b""))
            if self.held > MOST_BYTES or len(self.known) >= MOST_KNOWN:
                self.forget()
                return answer
            self.known[key] = answer
        return self.known[key]

    def find(self, data: bytes, least: int) -> FindAnswer:
        """The pages among some bytes."""
        self.beat()
        return self.program.find(data, least)

    def forget(self) -> None:
        """Forgets all answers."""
        self.known.clear()
        self.held = 0


# A longer canonical stream isn't kept; and no more bytes of a page behind the one that it is refused at.
MOST_CANON, MOST_BEHIND = 16 << 20, 64 << 10
# A player has each byte in base64, so of a longer page it has none.
MOST_PLAYED = HELD_PLAYER * 3 // 4


class BoxWorker(Worker):
    """Turns chunks into rows that have what is kept of each page too."""

    def __init__(self, options: WorkerOptions, knows: Knows, beat: Callable[[], None], carves: bool,
                 claims: Optional[Claims] = None) -> None:
        super().__init__(options, knows, beat)
        self.carves, self.claims = carves, claims
        self.keeps, self.has_more = MOST_CANON, True
        self.once = AskedOnce(self.program, beat)
        self.streams: Dict[bytes, bytes] = {}
        self.cure: Optional[Cure] = None

    def _answered(self, window: List[Seen]) -> Piece:
        try:
            return super()._answered(window)
        finally:
            self.streams.clear()

    def _unknown(self, window: List[Seen]) -> Dict[bytes, bytes]:
        some = super()._unknown(window)
        claimed = self.claims.taken(list(some)) if self.claims and some else some
        return {own: data for own, data in some.items() if own in claimed}

    def tries_treatments(self, is_so: bool) -> None:
        """Sets whether it makes treated copies."""
        self.options = self.options._replace(retry=self.options.retry._replace(cures=is_so))

    def answered(self, window: List[Seen]) -> Piece:
        """The rows of files that were read."""
        return self._answered(window)

    def _row(self, own: bytes, data: bytes, hashed: HashedAnswer) -> Answered:
        if isinstance(hashed.answer, Accepted) and hashed.answer.body:
            self.streams[own] = hashed.answer.body
        return super()._row(own, data, hashed)

    def _more(self, answered: Answered, data: bytes) -> Answered:
        self.cure = None
        answered = super()._more(answered, data)
        if answered.state == tables.NO_ANSWER:
            return answered
        return answered._replace(values=self._kept(answered, data).values)

    def _treated(self, cure: Cure) -> Cured:
        made = super()._treated(cure)
        self.cure = None if made.why else cure
        return made

    def _ask(self, command: str, data: bytes) -> Answer:
        return self.once.ask(command, data)

    def _kept(self, answered: Answered, data: bytes) -> KeptPage:
        """What is kept of a page that has an answer."""
        if answered.state == tables.ACCEPTED:
            return KeptPage(_front(data, len(data)), self._places(data, answered.entries),
                            self.streams.get(answered.own))
        kept = KeptPage(_front(data, answered.place or 0))
        if answered.kind == tables.CAPTURE:
            kept = kept._replace(data=data, parts=self._parts(data))
        if self.cure:
            copy = self.cure.data
            kept = kept._replace(cure=treatment_members(data, self.cure), copy=copy,
                                 copied=self._places(copy, self.cure.entries))
        else:
            kept = kept._replace(places=self._places(data))
        return self._carved(kept, data) if self.carves and kept.is_searched(answered.looks_like) else kept

    def _places(self, data: bytes, entries: Optional[int] = None) -> Optional[bytes]:
        """The body of `places` for a page, where it isn't too much."""
        if entries is not None and entries > MOST_LISTED:
            return None
        answer = self._ask(PLACES, data)
        return None if isinstance(answer, Unanswered) else answer.body

    def _parts(self, data: bytes) -> List[KeptPart]:
        """The parts of a capture; none where they are too many, or no page is among them."""
        some = pieces(data)
        parts = parts_of(self._ask, data, some) if len(some) <= MOST_PAGES else []
        return [KeptPart(each.offset, each.length, (each.before, int(each.draws)), each.cut_at, *_line_of(it.answer))
                for each, it in zip(some, parts)] if has_a_page(self._ask, parts) else []

    def _carved(self, kept: KeptPage, data: bytes) -> KeptPage:
        """What is kept of a refused file, with the pages inside it; or with why these aren't known."""
        try:
            found = list(PageFinder(self.once).find(io.BytesIO(data).read))
        except Error as unanswered:
            return kept._replace(carved=[KeptPart(0, 0, (0, 0), "", "", str(unanswered))], cut=b"")
        return kept._replace(carved=[part_of(each) for each in found], cut=b"".join(each.data for each in found))


def part_of(found: CarvedPage) -> KeptPart:
    """A carved page as it is kept."""
    return KeptPart(found.offset, len(found.data), (found.least_end, found.most_begin), "", *_line_of(found.answer))


def _line_of(answer: Answer) -> Sequence[str]:
    """The line of an answer, and why there is none."""
    return (answer.line, "") if isinstance(answer, (Accepted, Refusal)) else ("", answer.reason)


def _front(data: bytes, refused_at: int) -> Optional[bytes]:
    """The bytes of a page that a player has, where it isn't too long for one."""
    return data[:refused_at + MOST_BEHIND] if min(len(data), refused_at + 1) <= MOST_PLAYED else None


def main(descriptor: int) -> None:
    """Works until the connection ends."""
    serve(descriptor, _worker)


def _worker(first: Sequence[Any], beat: Callable[[], None]) -> BlockMaker:
    options, store, terms, run, carves, claims = first
    known = KnownHashes(store, terms, run, options.retry)
    return BoxWorker(options, known, beat, carves, Claims(claims) if claims else None)


class NotCarved(Exception):
    """The file can't be read, or isn't as it was when it was scanned, with the reason."""


def key_of_long(file: FileFacts) -> bytes:
    """By what is known again what is kept of such a file: its path, its size and its times."""
    text = repr((file.folder, file.name, file.size, file.mtime_ns, file.at))
    return hashlib.sha256(b"long file: " + text.encode("ascii")).digest()


def carve_long(file: FileFacts, roots: Sequence[bytes], program: Client) -> KeptPage:
    """What is kept of a file in these folders: its hash in place of its bytes, and the pages inside it. Raises
    NotCarved.
    """
    try:
        with OpenFolders() as folders:
            at = folders.opened(file.folder, root_length(file.folder, roots))
            descriptor = os.open(file.name, FLAGS, dir_fd=at)
        with open(descriptor, "rb", buffering=0) as source:
            before = os.fstat(descriptor)
            if (file.size, file.mtime_ns) != marks(before)[:2]:
                raise NotCarved(messages.NOT_AS_SCANNED)
            kept = _searched(source, before.st_size, program, file.at_path.path)
            if change(before, os.fstat(descriptor)):
                raise NotCarved(messages.NOT_AS_SCANNED)
            return kept
    except OSError as error:
        raise NotCarved(reason(error)) from None


def _searched(source: IO[bytes], length: int, program: Client, name: str) -> KeptPage:
    """Reads a file, piece by piece."""
    hashed = hashlib.sha256()
    progress = Progress(sys.stderr, lambda: length >> 20, what=f"MiB of {shown(name)}")

    def read(number: int) -> bytes:
        piece = source.read(number)
        hashed.update(piece)
        return piece

    def beat(at: int) -> bool:
        progress.show(at >> 20)
        return False
    try:
        found = list(PageFinder(program, beat=beat).find(read))
    except Error as unanswered:
        raise NotCarved(str(unanswered)) from None
    finally:
        progress.clear()
    return KeptPage(hashed.digest(), carved=[part_of(each) for each in found],
                    cut=b"".join(each.data for each in found))
