"""What a worker of a scan does: looks at files, and asks about those whose bytes the store doesn't know."""
import os
import sqlite3
from collections import OrderedDict
from typing import Any, Callable, Dict, Iterable, Iterator, List, NamedTuple, Optional, Sequence, Set, Tuple, Union

from naplps.answers import Accepted, Answer, HashedAnswer, Refusal, Unanswered
from naplps.client import Client
from naplps.limits import MODEST, MOST_LISTED, MOST_PAGE, Limits
from naplps.screen_text import lines_of
from naplps.treating.borders import clears_again
from naplps.treating.treatments import Cure, TreatmentSearch

from .. import file_kinds
from ..codes import stop_of
from ..notes import is_note
from ..packs import PackLimits, pack_of
from ..page_words import MOST_TEXT, first_words
from ..source import Page
from . import tables
from .file_reader import OTHER, REPLACED, PackScan, Seen, change, look
from .folders import OpenFolders, Replaced, is_gone, reason
from .protocol import MAX_AHEAD, BlockMaker, Chunk, FolderFiles, Piece, Retry, RowBlock, WorkerOptions, block_of, serve
from .store import reader
from .tables import (
    CHANGED, DESCRIBED, HAS_TEXT, NO_ANSWER, REFUSED, TRIED, UNREADABLE, VANISHED, Answered, Cured, File, PageText,
)

# An answer counts under the same terms; one of this run alone, where there was none, or all is asked again; and, if
# treatments are asked for, of a refused page with what they came to; and if texts are, with one.
KNOWN = f"""SELECT 1 FROM pages p WHERE own = :own AND terms = :terms
    AND (run = :run OR state <> {NO_ANSWER} AND NOT :again AND {DESCRIBED})
    AND (state <> {REFUSED} OR NOT :cures OR {TRIED}) AND (state = {NO_ANSWER} OR NOT :words OR {HAS_TEXT})"""


class KnownHashes:
    """Looks for hashes in a store that another process writes. Where it can't be read, nothing is known."""

    def __init__(self, store: Optional[str], terms: int, run: int, retry: Retry) -> None:
        self.store = store
        self.values: Dict[str, object] = {"terms": terms, "run": run, **retry._asdict()}
        self.connection: Optional[sqlite3.Connection] = None

    def __call__(self, hashes: List[bytes]) -> Set[bytes]:
        """Those of the hashes that need no question."""
        if self.store is None:
            return set()
        try:
            if self.connection is None:
                self.connection = reader(self.store)
            ask = self.connection.execute
            return {own for own in hashes if ask(KNOWN, dict(self.values, own=own)).fetchone()}
        except sqlite3.Error:
            self.store = None
            return set()


# The number of bytes of requests that are written ahead.
MAX_BYTES = 1 << 20
# The number of latest answers that are remembered.
MAX_REMEMBERED = 4096
TOO_LONG_TO_CURE = "it is too long for treatments"
TOO_MANY_FOR_TEXT = "it has too many entries for its text"
TOO_LONG_FOR_TEXT = "it is too long for its text"
OTHERWISE = "the program answers otherwise when it is asked for its canonical bytes"
NUMBERS = {name: number for number, name in enumerate(tables.KINDS)}
# Bytes of codes without which a page is text, or has no macro.
SHIFT_OUT, ESCAPE = 0x0E, 0x1B
# Tells which of these hashes need no question.
Knows = Callable[[List[bytes]], Set[bytes]]


class Described(NamedTuple):
    """The kind of an accepted page, and whether it is perhaps several; or the look of a refused one, its stop, and how
    many pages it holds, with its kind, if it is a capture."""

    kind: Optional[int] = None
    looks_like: Optional[str] = None
    several: Optional[int] = None
    stop: Optional[str] = None
    holds: int = 0


class Worker:
    """Turns chunks into rows; of a pack only those of a number of members, and `left` is where it continues.

    `others` are the folders that aren't those which the scan met.
    """

    def __init__(self, options: WorkerOptions, knows: Knows, beat: Callable[[], None] = lambda: None,
                 members: Optional[int] = None, elsewhere: bool = False) -> None:
        self.options, self.knows, self.beat, self.members, self.elsewhere = options, knows, beat, members, elsewhere
        self.others: List[FolderFiles] = []
        self.ahead = Client(options.program, options.budget, Limits(seconds=options.seconds), beat)
        self.program = Client(options.program, options.budget, MODEST._replace(seconds=options.seconds), beat)
        self.asked: "OrderedDict[bytes, None]" = OrderedDict()
        self.left: Chunk = ()
        # The number of bytes of a canonical stream that is held; and whether more is asked than for answers.
        self.keeps = 0
        self.has_more = options.retry.cures or options.retry.words

    def pieces(self, chunk: Chunk) -> Iterator[Piece]:
        """The rows of a chunk, in the order of its files."""
        with OpenFolders() as folders:
            for names in chunk:
                if pack_of(names.path) is not None:
                    yield from self._pack(names)
                    continue
                try:
                    at = folders.opened_again(names.path, names.root, names.identity, self.elsewhere)
                except (OSError, Replaced) as error:
                    if isinstance(error, Replaced) or is_gone(error):
                        self.others.append(names)
                    yield tuple(_without(names, error)), ()
                    continue
                yield from self._folder(names, at)

    def blocks(self, chunk: Chunk) -> Iterator[RowBlock]:
        """The same, ready to be inserted."""
        return map(block_of, self.pieces(chunk))

    def _folder(self, names: FolderFiles, at: int) -> Iterator[Piece]:
        """The rows of files of one folder."""
        yield from self._windows(
            look(names.folder, at, name, self.options.most, MOST_PAGE, self.beat) for name in names.names)

    def _pack(self, names: FolderFiles) -> Iterator[Piece]:
        """The rows of a pack: those of its members, and then its own."""
        scan = PackScan(names, PackLimits(min(self.options.most, MOST_PAGE), self.beat), self.members, self.elsewhere)
        yield from self._windows(scan.members())
        if scan.own.why == REPLACED:
            self.others.append(names)
        if scan.left is None:
            yield (scan.own,), ()
        else:
            self.left = (names._replace(names=(scan.left,)),)

    def _windows(self, some: Iterable[Seen]) -> Iterator[Piece]:
        """The rows of files but the tool's own notes, in windows of which the requests are written ahead."""
        window: List[Seen] = []
        length = 0
        for seen in some:
            if seen.data and is_note(seen.file.name, seen.data):
                continue
            if seen.descriptor is not None:
                yield self._answered(window)
                yield self._alone(seen)
                window, length = [], 0
                continue
            window.append(seen)
            length += len(seen.data or b"")
            if len(window) >= MAX_AHEAD or length >= MAX_BYTES:
                yield self._answered(window)
                window, length = [], 0
        yield self._answered(window)

    def _answered(self, window: List[Seen]) -> Piece:
        asked = self._unknown(window)
        result = self.ahead.hash_canon(list(asked.values()), self.keeps)
        rows = [self._row(own, data, each) for (own, data), each in zip(asked.items(), result)]
        if self.has_more:
            rows = [self._more(each, asked[each.own]) for each in rows]
        self._remember(asked)
        return tuple(seen.file for seen in window), tuple(rows)

    def _more(self, answered: Answered, data: bytes) -> Answered:
        """The row with what the treatments of a page come to, and with its text, where these are asked for."""
        copy: Optional[bytes] = None
        if self.options.retry.cures:
            answered, copy = self._cured(answered, data)
        if self.options.retry.words and answered.state != tables.NO_ANSWER:
            answered = answered._replace(text=self._text_of(answered, data, copy))
        return answered

    def _text_of(self, answered: Answered, data: bytes, copy: Optional[bytes]) -> PageText:
        """The text of a page: its own, that before its refusal, or that of its treated copy."""
        if answered.state == tables.REFUSED and copy is None:
            return _text(tables.BEFORE, self._ask("places", data))
        source, data = (tables.WHOLE, data) if copy is None else (tables.TREATED, copy)
        if (answered.entries or 0) > MOST_LISTED:
            return PageText(source, why=TOO_MANY_FOR_TEXT)
        return _text(source, self._ask("list", data))

    def _row(self, own: bytes, data: bytes, result: HashedAnswer) -> Answered:
        """The row of an answer to these bytes. (It is made for each page, so the usual one has the shortest way.)"""
        answer = result.answer
        if isinstance(answer, Accepted):
            is_page = answer.entries and SHIFT_OUT in data
            kind = tables.PAGE if is_page else NUMBERS[file_kinds.kind((data,), answer)]
            several = int(clears_again(data) or (
                ESCAPE in data and file_kinds.DEFINITION in data and self._is_several(data)))
            return Answered(own, tables.ACCEPTED, None, None, None, answer.entries, result.canon, result.length, None,
                            kind, None, several, None, 0)
        look = file_kinds.looks_like(data[:file_kinds.MOST_LOOKED_AT], len(data))
        if not isinstance(answer, Refusal):
            return row(own, result, Described())
        holds = file_kinds.pages_of_capture(data, look)
        return row(own, result, Described(tables.CAPTURE if holds else None, look or "", stop=stop_of(data, answer),
                                        holds=holds))

    def _is_several(self, data: bytes) -> bool:
        """Whether an accepted page is perhaps several: whether it has what begins a page after its first entry."""
        last = file_kinds.last_beginning(data)
        if last < 0:
            return False
        answer = self._ask("places", data)
        return not isinstance(answer, Accepted) or last > int(answer.body.partition(b" ")[0] or last)

    def _unknown(self, window: List[Seen]) -> Dict[bytes, bytes]:
        """The pages to be asked about, by their hashes."""
        some = {seen.file.own: seen.data for seen in window if seen.file.own is not None and seen.data is not None}
        fresh = [own for own in some if own not in self.asked]
        known = self.knows(fresh) if fresh else set()
        return {own: some[own] for own in fresh if own not in known}

    def _remember(self, asked: Iterable[bytes]) -> None:
        self.asked.update(dict.fromkeys(asked))
        while len(self.asked) > MAX_REMEMBERED:
            self.asked.popitem(last=False)

    def _alone(self, seen: Seen) -> Piece:
        """The rows of a page that is too long to be held."""
        assert seen.descriptor is not None and seen.file.own is not None
        with open(seen.descriptor, "rb", buffering=0) as file:
            own = seen.file.own
            if own in self.asked or self.knows([own]):
                return (seen.file,), ()
            before = os.fstat(seen.descriptor)
            result = self.program.hash_canon_of_file(file)
            described = file_kinds.described(Page("", None, file), result.answer)
            if change(before, os.fstat(seen.descriptor)):
                return (seen.file._replace(state=CHANGED, why=OTHER, own=None),), ()
        answered = row(own, result, Described(NUMBERS.get(described.kind or ""), described.looks_like or ""))
        if answered.state == tables.REFUSED and self.options.retry.cures:
            answered = answered._replace(cured=Cured(why=TOO_LONG_TO_CURE))
        if self.options.retry.words and answered.state != tables.NO_ANSWER:
            source = tables.BEFORE if answered.state == tables.REFUSED else tables.WHOLE
            answered = answered._replace(text=PageText(source, why=TOO_LONG_FOR_TEXT))
        self._remember([own])
        return (seen.file,), (answered,)

    def _cured(self, answered: Answered, data: bytes) -> Tuple[Answered, Optional[bytes]]:
        """The row with what the treatments of a refused page come to, and the treated copy where it is accepted."""
        if answered.state != tables.REFUSED or answered.place is None:
            return answered, None
        search = TreatmentSearch(self._ask, self.beat)
        cure = search.find(data, answered.place)
        if search.took_a_page:
            answered = answered._replace(several=1)
        if cure is None:
            return answered._replace(cured=Cured()), None
        cured = self._treated(cure)
        return answered._replace(cured=cured), None if cured.why else cure.data

    def _treated(self, cure: Cure) -> Cured:
        """The row of a treated copy."""
        names = "+".join(each.treatment for each in cure.changes)
        copy = cure.data
        result, = self.ahead.hash_canon([copy])
        why = None if isinstance(result.answer, Accepted) else OTHERWISE
        if isinstance(result.answer, Unanswered):
            why = result.answer.reason
        return Cured(names, cure.entries, tables.hashed(copy), why, int(cure.treated.is_guess), result.canon,
                     result.length)

    def _ask(self, command: str, data: bytes) -> Answer:
        self.beat()
        return self.program.ask(command, data)

    def close(self) -> None:
        """Ends the programs."""
        self.ahead.close()
        self.program.close()


def _text(source: int, answer: Answer) -> PageText:
    """The text that an answer to `list` or `places` has."""
    if isinstance(answer, Unanswered):
        return PageText(source, why=answer.reason)
    if answer.body.count(b"\n") > MOST_LISTED:
        return PageText(source, why=TOO_MANY_FOR_TEXT)
    text = "\n".join(lines_of(answer.body.decode("ascii")))[:MOST_TEXT]
    return PageText(source, text, first_words(text))


def row(own: bytes, result: HashedAnswer, it: Described) -> Answered:
    """The row of an answer."""
    answer = result.answer
    if isinstance(answer, Accepted):
        return Answered(own, tables.ACCEPTED, entries=answer.entries, canon=result.canon, canon_size=result.length,
                        kind=it.kind, several=it.several, holds=it.holds)
    if isinstance(answer, Refusal):
        return Answered(own, tables.REFUSED, number=answer.number, left_out=answer.code, place=answer.place,
                        kind=it.kind, looks_like=it.looks_like, stop=it.stop, holds=it.holds, fault=answer.fault)
    assert isinstance(answer, Unanswered)
    return Answered(own, tables.NO_ANSWER, why=answer.reason)


def _without(names: FolderFiles, error: Union[OSError, Replaced]) -> Iterator[File]:
    """The rows of files whose folder can't be opened, or is another one."""
    if isinstance(error, Replaced):
        state, why = CHANGED, REPLACED
    else:
        state, why = (VANISHED, "its folder vanished") if is_gone(error) else (UNREADABLE, reason(error))
    return (File(names.folder, name, state, why) for name in names.names)


def main(descriptor: int) -> None:
    """Works until the connection ends."""
    serve(descriptor, _worker)


def _worker(first: Sequence[Any], beat: Callable[[], None]) -> BlockMaker:
    options, store, terms, run = first
    return Worker(options, KnownHashes(store, terms, run, options.retry), beat)
