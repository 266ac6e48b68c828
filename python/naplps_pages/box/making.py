"""Fills a box: scans, makes its files and its report, and tells in ten lines what it came to. What a run before wrote
is replaced where it is as that left it; what somebody changed stays, and is reported.
"""
import argparse
import errno
import gc
import hashlib
import io
import os
import secrets
import sqlite3
import stat
import sys
from contextlib import suppress
from dataclasses import dataclass, field
from typing import Callable, Dict, Iterator, List, NamedTuple, Optional, Set, Tuple

from naplps.answers import Answer, Refusal, Unanswered, read_line
from naplps.client import find
from naplps.finds import LEAST_ENTRIES
from naplps.ending import Stopped
from naplps.limits import MOST_PAGE
from naplps.names import Members, shown
from naplps.treating.borders import Piece
from naplps.version import VERSION

from .. import messages, notes
from ..collection import equal, every_file, tables
from ..collection.every_file import FileFacts
from ..collection.file_reader import Otherwise, Seen, read
from ..collection.folders import absolute, reason
from ..collection.kept import skipped_by
from ..collection.pool import processors
from ..collection.printing import Printer, numbered, shown_as
from ..collection.protocol import Retry, WorkerOptions, block_of
from ..collection.scan import ScanOptions, ScanRun, missing, scanned
from ..collection.tables import Count, File, Text, checked
from ..collection.search import apart
from ..collection.session import Names
from ..collection.status import SHUT, UNKNOWN, WORDS, Status, status
from ..collection.store import StoreFailed, open_to_read
from ..console import CHANGED, COMPLETE, FAILED, NotWritten, Output, tell, tell_of
from ..free_names import FreeNames, folds_case
from ..new_files import make_folders, put_inside, replace
from ..packs import pack_of
from ..page_finder import CarvedPage
from ..report import USUAL_SKETCHES
from ..report.facts import load_groups
from ..report.making import ReportOptions, TooLarge, make
from ..report.sketch_workers import OBJECTS
from .box_worker import BoxWorker, NotCarved, carve_long, key_of_long
from .folder import CANONICAL, CAPTURES, CARVED, CUT, KEPT, MARKER, READABLE, REPORT, STORE, TABLE, BoxFolder
from .kept_checks import has_canonical, has_carved, has_copy, has_parts
from .kept_pages import KeptPage, KeptPages, KeptPart, made_claims

# The number of files that are put together, and of their bytes.
MOST_FILES, MOST_BYTES = 200, 16 << 20
# What is wrong with the disk, and so with all files, in the system's words.
OF_DISK = frozenset(map(os.strerror, (errno.ENOSPC, errno.EDQUOT, errno.EROFS, errno.EFBIG, errno.EIO)))

# Of a file that is shown, it is noted under this path what its bytes are, and under its own of what it was made.
BYTES = "/bytes"


class PutFiles:
    """Puts files, some at a time: of each it is noted before what it will be."""

    def __init__(self, place: BoxFolder, connection: sqlite3.Connection, complain: Callable[[str, str], None]) -> None:
        self.place, self.connection, self.complain = place, connection, complain
        self.waiting: List[Tuple[str, bytes]] = []
        self.length = 0
        self.lost: Set[str] = set()

    def put(self, path: str, data: bytes) -> None:
        """Puts a file at a path below the folder, now or with others. Raises NotWritten."""
        self.waiting.append((path, data))
        self.length += len(data)
        if len(self.waiting) >= MOST_FILES or self.length >= MOST_BYTES:
            self.flush()

    def put_noted(self, path: str, data: bytes, note: Members) -> None:
        """Puts a file, and before it its note; one that is there and tells the same, of an earlier time, stays."""
        if not notes.has_same_note(self.place.of(path + ".json"), note):
            self.put(path + ".json", notes.note_bytes(note))
        self.put(path, data)

    def flush(self) -> None:
        """Puts the files that wait, each at a path of its own. Raises NotWritten where the disk takes none."""
        some = dict(self.waiting)
        self.waiting, self.length = [], 0
        known = {path: self._hashes(path) for path in some}
        new = {path: hashlib.sha256(data).digest() for path, data in some.items()}
        self._note({path: digest for path, digest in new.items() if digest not in known[path]})
        for path, data in some.items():
            try:
                self._put(path, data, new[path], known[path])
            except NotWritten as error:
                if error.reason in OF_DISK:
                    raise
                self.lose(path, error.reason)
        self._forget({path: digest for path, digest in new.items() if known[path] - {digest} and path not in self.lost})

    def has_shown(self, path: str, digest: bytes) -> bool:
        """Whether the file at a path is there, and was made of what has this hash."""
        return os.path.isfile(self.place.of(path)) and digest in self._hashes(path)

    def require_unchanged(self, path: str) -> None:
        """Raises NotWritten where the file at a path isn't as it was moved there."""
        there, made = _hash_of(self.place.of(path)), self._hashes(path + BYTES)
        if there is not None and made and there not in made:
            raise NotWritten(self.place.of(path), messages.CHANGED_IN_BOX)

    def move(self, part: str, path: str, digest: bytes) -> None:
        """Moves a whole file to a path, and notes its bytes, and by a hash of what it was made. Raises NotWritten."""
        made = _hash_of(part)
        assert made is not None
        self._note({path + BYTES: made})
        try:
            os.replace(part, self.place.of(path))
        except OSError as error:
            raise NotWritten(path, reason(error)) from None
        new = {path + BYTES: made, path: digest}
        self._note(new)
        self._forget(new)

    def _hashes(self, path: str) -> Set[bytes]:
        """What the runs before made there."""
        rows = self.connection.execute("SELECT hash FROM made WHERE path = ?", (os.fsencode(path),))
        return {digest for digest, in rows}

    def _put(self, path: str, data: bytes, digest: bytes, known: Set[bytes]) -> None:
        whole = self.place.of(path)
        if os.path.dirname(path):
            make_folders(self.place.path, path)
        there = _hash_of(whole)
        if there is None:
            put_inside(whole, data)
        elif there == digest:
            return
        elif there in known:
            replace(whole, data)
        else:
            self.lose(path, messages.CHANGED_IN_BOX)

    def lose(self, path: str, why: str) -> None:
        """Tells of a file that isn't made; the others are."""
        self.lost.add(path)
        self.complain(self.place.of(path), why)

    def _note(self, new: Dict[str, bytes]) -> None:
        """Notes what will stand where."""
        if new:
            self.connection.execute("BEGIN IMMEDIATE")
            self.connection.executemany("INSERT OR IGNORE INTO made(path, hash) VALUES(?, ?)", (
                (os.fsencode(path), digest) for path, digest in new.items()))
            self.connection.execute("COMMIT")

    def _forget(self, new: Dict[str, bytes]) -> None:
        """Forgets what stood there before, once it doesn't any more."""
        if new:
            self.connection.execute("BEGIN IMMEDIATE")
            self.connection.executemany("DELETE FROM made WHERE path = ? AND hash <> ?", (
                (os.fsencode(path), digest) for path, digest in new.items()))
            self.connection.execute("COMMIT")


def _hash_of(path: str) -> Optional[bytes]:
    """The hash of the file that is there; none where nothing is. Raises NotWritten where it is no file."""
    try:
        status = os.lstat(path)
        if not stat.S_ISREG(status.st_mode):
            raise NotWritten(path, messages.NO_FILE_THERE)
        hashed = hashlib.sha256()
        with open(os.open(path, os.O_RDONLY | os.O_NOFOLLOW | os.O_NONBLOCK | os.O_CLOEXEC), "rb") as file:
            for piece in iter(lambda: file.read(1 << 20), b""):
                hashed.update(piece)
        return hashed.digest()
    except FileNotFoundError:
        return None
    except OSError as error:
        raise NotWritten(path, reason(error)) from None


# The column of the table of files that has the path of a treated copy.
COPY_PATH = "readable"
# The columns of the table of pages that were cut out of files.
OF_CUT = ["path", "source", "how", "offset", "bytes", "cut_at", "at_least_bytes", "at_most_offset", "answer"]


@dataclass
class Totals:
    """What a box has, in numbers."""

    canonical: Set[bytes] = field(default_factory=set)
    copies: int = 0
    guesses: int = 0
    captures: int = 0
    cut: int = 0
    carved: int = 0
    sources: int = 0


class AnswerTerms(NamedTuple):
    """By what pages were asked: the version of the program and the budget."""

    version: str
    budget: int


class BoxFiles:
    """Makes the files; `find` gives what is kept of a page, and `complain` gets what isn't made."""

    def __init__(self, put: PutFiles, terms: AnswerTerms, names: Names, find: Callable[[FileFacts], Optional[KeptPage]],
                 complain: Callable[..., None]) -> None:
        self.put, self.terms, self.names, self.find, self.complain = put, terms, names, find, complain
        self.free = FreeNames(put.place.path, tell_of, sees_disk=True, folds=folds_case(put.place.of(MARKER)))
        self.totals = Totals()
        self.cut: List[Members] = []
        self.table = io.BytesIO()
        # (of the file that is at work)
        self.copy_path: Optional[str] = None

    def make(self, files: Iterator[FileFacts]) -> None:
        """Makes the files of all that the store has. Raises NotWritten."""
        printer = Printer("csv", [*every_file.COLUMNS, COPY_PATH], self.table)
        for file in files:
            self.copy_path = None
            try:
                if file.answer == tables.ACCEPTED:
                    self._canonical(file)
                elif file.answer == tables.REFUSED:
                    self._refused(file)
                elif file.state == tables.TOO_LONG and pack_of(file.folder) is None:
                    self._long(file)
            except NotNamed as error:
                self.complain(file.at_path.path, str(error))
            printer.row({**shown_as(file.at_path), **every_file.members(file), COPY_PATH: self.copy_path})
        self.put.put(TABLE, self.table.getvalue())
        self.put.put(CUT, self._table_of_cut())
        self.put.flush()

    def _table_of_cut(self) -> bytes:
        file = io.BytesIO()
        printer = Printer("csv", OF_CUT, file)
        for row in self.cut:
            printer.row(row)
        return file.getvalue()

    def _canonical(self, file: FileFacts) -> None:
        """The canonical page of an accepted file, once."""
        canon = file.canon
        if canon is None or canon in self.totals.canonical:
            return
        self.totals.canonical.add(canon)
        path = os.path.join(CANONICAL, canon.hex()[:2], canon.hex() + ".nap")
        try:
            if _hash_of(self.put.place.of(path)) == canon:
                return
        except NotWritten:
            pass  # (what is wrong there is reported where it is put)
        kept = self.find(file)
        if kept is None or kept.canon is None or not has_canonical(file, kept):
            self.complain(path, messages.NOT_KEPT, CHANGED)
        else:
            self.put.put(path, kept.canon)

    def _refused(self, file: FileFacts) -> None:
        """The treated copy of a refused file, its parts, or the pages that were carved out of it."""
        kept = self.find(file)
        if kept is None:
            self.complain(file.at_path.path, messages.NOT_KEPT, CHANGED)
            return
        if file.treated is not None and self._is_true(has_copy, file, kept):
            self._copy(file, kept)
        if file.kind == tables.CAPTURE and self._is_true(has_parts, file, kept):
            self._parts(file, kept)
        if kept.carved and self._is_true(has_carved, file, kept):
            self._carved(file, kept)

    def _is_true(self, has: Callable[[FileFacts, KeptPage], bool], file: FileFacts, kept: KeptPage) -> bool:
        """Whether what is kept can be so; else that is reported."""
        if not has(file, kept):
            self.complain(file.at_path.path, messages.NOT_KEPT, CHANGED)
            return False
        return True

    def _long(self, file: FileFacts) -> None:
        """The pages inside a file that is too long for one."""
        kept = self.find(file)
        if kept is not None and kept.carved:
            self._carved(file, kept)

    def _named(self, folder: str, file: FileFacts) -> str:
        """The path for what is made of a file, below the folder of the box. Raises NotNamed."""
        try:
            return os.path.join(folder, self.names.of(file.at_path))
        except NotWritten as error:
            raise NotNamed(str(error)) from None

    def _copy(self, file: FileFacts, kept: KeptPage) -> None:
        """The treated copy of a refused file."""
        assert isinstance(file.answered, Refusal) and kept.cure is not None and kept.copy is not None
        usual = self._named(READABLE, file)
        path = self.free.of(usual, lambda path: notes.paths_with_notes([path]))
        treatment: Members = {**kept.cure, "program": self.terms.version}
        note = notes.treated_note(file.at_path.path, file.answered, treatment, self.terms.budget)
        self.put.put_noted(path, kept.copy, {**note, **notes.path_members(path, path == usual)})
        self.copy_path = shown(path)
        self.totals.copies += 1
        self.totals.guesses += file.grade == tables.WITHIN

    def _parts(self, file: FileFacts, kept: KeptPage) -> None:
        """The parts of a capture, where a page is among them."""
        name, data, parts = file.at_path.path, kept.data or b"", kept.parts or []
        self.totals.captures += 1
        some = [_cut(data, parts, number) for number in range(len(parts))]
        usual = self._named(CAPTURES, file)
        beside = self.free.of(usual, lambda path: notes.paths_with_notes(notes.part_paths(path, len(parts))))
        source = notes.capture_source(name, data, len(parts), self.terms.version)
        for number, part in enumerate(some, 1):
            path = notes.part_path(beside, number, len(parts))
            more = notes.path_members(path, beside == usual)
            self.put.put_noted(path, part.data, {**notes.part_note(source, number, part), **more})
            self.totals.cut += 1
            self.cut.append({"path": shown(path), "source": shown(name), "how": "split", "offset": part.piece.offset,
                             "bytes": part.piece.length, "cut_at": part.piece.cut_at,
                             "answer": part.answer.line})

    def _carved(self, file: FileFacts, kept: KeptPage) -> None:
        """The pages inside a refused file. (Of one that is too long for a page, its hash is kept.)"""
        parts, cut, sha256 = kept.carved or [], kept.cut or b"", file.own or kept.data or b""
        name, usual = file.at_path.path, self._named(CARVED, file)
        stem = self.free.of(usual, lambda path: notes.paths_with_notes(
            notes.carved_path(path, part.offset) for part in parts))
        source = notes.carve_source(name, file.size or 0, sha256.hex())
        at = 0
        for part in parts:
            found = CarvedPage(part.offset, cut[at:at + part.length], *part.more, _answer(part))
            at += part.length
            if isinstance(found.answer, Unanswered):
                self.complain(name, found.answer.reason)
                continue
            path = notes.carved_path(stem, found.offset)
            note = notes.carved_note(source, found, LEAST_ENTRIES, self.terms.version)
            more = notes.path_members(path, stem == usual)
            self.put.put_noted(path, found.data, {**note, **more})
            self.totals.carved += 1
            self.cut.append({"path": shown(path), "source": shown(name), "how": "carve", "offset": found.offset,
                             "bytes": len(found.data), "at_least_bytes": found.least_end - found.offset,
                             "at_most_offset": found.most_begin, "answer": found.answer.line})
        self.totals.sources += 1


class NotNamed(Exception):
    """No file can be named after another, with the reason."""


def _cut(data: bytes, parts: List[KeptPart], number: int) -> notes.CutPart:
    """A part of a capture with its bytes, and those before it and behind the last."""
    part = parts[number]
    before, draws = part.more
    end = part.offset + part.length
    return notes.CutPart(
        Piece(part.offset, part.length, before, part.cut_at, bool(draws)), data[part.offset:end],
        data[part.offset - before:part.offset], data[end:] if number + 1 == len(parts) else b"", _answer(part))


def _answer(part: KeptPart) -> Answer:
    return read_line(part.line.encode("ascii"), part.length) if part.line else Unanswered(part.why)


# Refused files that no treatment makes readable and that are no capture, by the formats that they look like.
OTHERS = f"""SELECT coalesce(p.looks_like, ''), count(*) FROM present f CROSS JOIN pages p ON p.id = f.page
    LEFT JOIN cures c ON c.page = p.id AND c.terms = p.terms WHERE p.state = {tables.REFUSED} AND p.kind IS NULL
    AND c.treatments IS NULL GROUP BY 1"""


class FilesOfFormat(NamedTuple):
    """How many files look like a format; or like none, which has no name."""

    looks_like: Text
    files: Count


# The number of formats that are named.
MOST_NAMED = 4


def summary_lines(place: BoxFolder, connection: sqlite3.Connection, it: Status, totals: Totals) -> List[str]:
    """The ten lines."""
    connection.execute("DROP TABLE IF EXISTS temp.found")
    connection.execute(equal.GROUPS.format(equal.SEVERAL + equal.COPIES, "count(*) > 1"))
    groups = int(connection.execute("SELECT count(*) FROM found").fetchone()[0])
    with_copies = len(load_groups(connection))
    formats = {row.looks_like: row.files for row in checked(connection.execute(OTHERS), FilesOfFormat)}
    unknown = formats.pop("", 0)
    counts, kinds = it.counts.get, it.tally.kinds.get
    folder = shown(place.path)
    return [
        f"files:           {_files_line(it)}",
        "accepted:        %d: %s" % (counts("accepted", 0), ", ".join((
            numbered(kinds("page", 0), "page"), numbered(kinds("text", 0), "text"), f"{kinds('blank', 0)} blank",
            *([f"{kinds(UNKNOWN, 0)} {UNKNOWN}"] if kinds(UNKNOWN) else [])))),
        "captures:        %s" % _captures_line(totals.captures, totals.cut, CAPTURES),
        "readable copies: %d, %d of them guesses, in %s" % (totals.copies, totals.guesses, READABLE),
        "carved:          %s" % (f"{numbered(totals.carved, 'page')} out of {numbered(totals.sources, 'file')}, in "
                                 f"{CARVED}"),
        "equal pages:     %s of accepted files, %d with readable copies; %s, in %s" % (
            numbered(groups, "group"), with_copies, numbered(
                len(totals.canonical), "different canonical page"), CANONICAL),
        f"other kinds:     {sum(formats.values())}{_formats(formats)}",
        f"not known:       {numbered(unknown, 'file')}",
        f"not read:        {_unread_line(it)}",
        f"look at:         {folder}/{REPORT}; {TABLE} has each file, {CUT} each page that was cut out of one"]


def _files_line(it: Status) -> str:
    """How many files there are, and how many are gone."""
    gone = tables.FILE_STATES[tables.GONE]
    number = sum(number for name, number in it.counts.items() if name != gone)
    return str(number) + (f", and {it.counts[gone]} gone" if it.counts.get(gone) else "")


def _captures_line(files: int, pages: int, folder: str) -> str:
    return f"{numbered(files, 'file')}, cut into {numbered(pages, 'part')}, in {folder}"


def _formats(numbers: Dict[str, int]) -> str:
    """The formats that most files look like."""
    some = sorted(numbers.items(), key=lambda each: (-each[1], each[0]))
    formats = [f"{number} {name}" for name, number in some[:MOST_NAMED]]
    return f": {', '.join(formats)}{', ..' if len(some) > MOST_NAMED else ''}" if formats else ""


def _unread_line(it: Status) -> str:
    """Files without an answer, by their states, and the folders that can't be read."""
    some = [f"{it.counts[tables.FILE_STATES[state]]} {word}" for state, word in WORDS.items()
            if it.counts.get(tables.FILE_STATES[state])]
    lacking, shut = it.counts.get(tables.PAGE_STATES[tables.NO_ANSWER]), it.tally.left.get(SHUT)
    return ", ".join([*some, *([f"{lacking} without an answer"] if lacking else []),
                      *([f"{numbered(shut, 'folder')} unreadable"] if shut else [])]) or "nothing"


Given = argparse.Namespace


def fill_box(given: Given, tool: str) -> int:
    """Fills the box that is asked for; the status. `tool` is the path of the tool, beside which naplps may stand.

    Raises NoProgram, NotWritten, StoreFailed, TooLarge or sqlite3.Error.
    """
    options = WorkerOptions(find(tool), given.budget, given.timeout, MOST_PAGE)
    roots = apart(map(absolute, given.folders))
    lacking = missing(roots)
    if lacking and not os.path.lexists(given.into):
        for root, why in lacking:
            tell(f"{shown(os.fsdecode(root))}: {why}")
        return FAILED
    with BoxFolder(given.into, roots) as place:
        return BoxRun(place, options, given).fill()


class BoxRun:
    """One run over a box."""

    def __init__(self, place: BoxFolder, options: WorkerOptions, given: Given) -> None:
        self.place, self.given = place, given
        self.carves = "carve" not in (given.skip or ())
        is_lost = os.path.lexists(place.of(STORE)) and not os.path.lexists(place.of(KEPT))
        self.options = options._replace(retry=Retry(again=is_lost))
        self.processes = given.jobs or processors()
        self.kept = KeptPages(place.of(KEPT), self.carves, is_new=True)
        self.claims = made_claims(place.path)
        self.kept.share(self.claims)
        self.status = COMPLETE
        self.worker: Optional[BoxWorker] = None

    def fill(self) -> int:
        """Scans, makes the files, and prints what all came to; the status."""
        try:
            found = scanned(ScanOptions(list(self.given.folders), self.place.of(STORE), self.processes, self.options,
                                        beside=self.kept, refused=skipped_by(self.given.skip)))
            if isinstance(found, int):
                return found
            self.status = found.status
            try:
                lines = self._made(found)
            except Stopped:
                tell(messages.STOPPED)
                raise
        finally:
            with suppress(OSError):
                os.unlink(self.claims)
            if self.worker:
                self.worker.close()
            self.kept.close()
        output = Output(sys.stdout.buffer)
        for line in lines:
            output.line(line)
        output.flush()
        return self.status

    def _made(self, found: ScanRun) -> List[str]:
        """Makes the files, and the report where it would show anything else; the lines that tell of all."""
        connection = open_to_read(self.place.of(STORE))
        version, = connection.execute("SELECT version FROM terms WHERE id = ?", (found.writer.terms,)).fetchone()
        put = PutFiles(self.place, self.kept.connection, self._complain)
        files = BoxFiles(put, AnswerTerms(version, self.options.budget), Names(connection), self._find, self._complain)
        files.make(every_file.load(connection, None, None))
        connection.execute("DROP TABLE temp.kept")
        it = status(connection, self.place.of(STORE))
        shown_by = hashlib.sha256(repr((VERSION, version, it.roots, it.tally.left)).encode("ascii", "backslashreplace"))
        shown_by.update(files.table.getvalue())
        if not put.has_shown(REPORT, shown_by.digest()):
            self._report(put, shown_by.digest())
        return summary_lines(self.place, connection, it, files.totals)

    def _report(self, put: PutFiles, shown_by: bytes) -> None:
        """Makes the report of what is kept, unless somebody changed the one that is there. Raises NotWritten."""
        gc.set_threshold(OBJECTS)  # (a large store has many objects, all of which are needed)
        part = self.place.of(f".naplps-{secrets.token_hex(4)}")
        try:
            put.require_unchanged(REPORT)
            made = make(open_to_read(self.place.of(STORE)), ReportOptions(
                self.place.of(STORE), part, self.options.program, USUAL_SKETCHES, False, self.processes,
                self.options.seconds, kept=self.place.of(KEPT)))
            put.move(part, REPORT, shown_by)
            for path, why in made.missed:
                self._complain(path, messages.NO_SKETCH.format(reason=why), made.status)
        except TooLarge as error:
            put.lose(REPORT, str(error))
        except NotWritten as error:
            if error.reason in OF_DISK:
                raise NotWritten(self.place.of(REPORT), error.reason) from None
            put.lose(REPORT, error.reason)
        finally:
            with suppress(OSError):
                os.unlink(part)

    def _complain(self, name: str, why: str, status: int = FAILED) -> None:
        tell_of(name, why)
        self.status = max(self.status, status)

    def _find(self, file: FileFacts) -> Optional[KeptPage]:
        """What is kept of a file's page. Where too little is, the file is read again."""
        if file.own is None:
            return self._find_long(file)
        kept = self._kept_of(file.own)
        if kept is None or self._lacks(file, kept):
            self._fill(file, file.own)
            kept = self._kept_of(file.own)
        return kept

    def _kept_of(self, own: bytes) -> Optional[KeptPage]:
        """What is kept by a hash; nothing where it can't be read, so that it is found out anew."""
        try:
            return self.kept.of(own)
        except StoreFailed:
            return None

    def _find_long(self, file: FileFacts) -> Optional[KeptPage]:
        """What is kept of a file that is too long for a page; where nothing is, it is read."""
        key = key_of_long(file)
        kept = self._kept_of(key)
        if kept is not None and (kept.data is None or not has_carved(file, kept)):
            kept = None
        if kept is None and self.carves:
            try:
                kept = carve_long(file, self.place.roots, self._local_worker().program)
            except NotCarved as why:
                self._complain(file.at_path.path, str(why))
                return None
            self.kept.put([(key, kept.values)])
        return kept

    def _local_worker(self) -> BoxWorker:
        """A worker in this process."""
        self.worker = self.worker or BoxWorker(self.options, lambda _: set(), lambda: None, self.carves)
        return self.worker

    def _lacks(self, file: FileFacts, kept: KeptPage) -> bool:
        """Whether more is asked for now than is kept of a page."""
        if file.answer == tables.ACCEPTED:
            return not has_canonical(file, kept)
        is_searched = kept.is_searched(file.looks_like) and self.carves
        return (is_searched and not has_carved(file, kept)) or (
            file.treated is not None and not has_copy(file, kept)) or (
            file.kind == tables.CAPTURE and not has_parts(file, kept))

    def _fill(self, file: FileFacts, own: bytes) -> None:
        """Reads a file again, and keeps what its page comes to."""
        try:
            page = read(file.at_path, own)
        except Otherwise as otherwise:
            self._complain(file.at_path.path, str(otherwise), CHANGED)
            return
        page.close()
        if page.data is not None:
            worker = self._local_worker()
            worker.tries_treatments(file.treated is not None)
            piece = worker.answered([Seen(File(0, b"", tables.READ, own=own), page.data)])
            self.kept.take(block_of(piece).values)
            self.kept.write()
