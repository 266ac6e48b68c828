"""The canonical streams of a store, put into a folder and named by their hashes."""
import hashlib
import os
import sqlite3
import stat
import sys
from typing import Dict, Iterator, NamedTuple, Optional

from naplps.answers import Accepted, Answer
from naplps.client import Client
from naplps.names import Members, shown

from .. import console, messages
from ..new_files import made_folder, make_folders, put_inside
from .file_reader import Otherwise, read
from .folders import Place, reason
from .printing import NAME, ErrorReporter, Printer, named, shown_as
from .progress import Progress
from .sources import most_budget
from .store import kept, open_to_read
from .tables import Count, Hash, Name, Path, hashed

COLUMNS = ["canonical", "status", "path", "reason", *NAME]
PIECE = 1 << 20
WRITTEN, THERE, CHANGED, NOT_MADE = "written", "there", "changed", "not made"
PAGES = """SELECT p.canon, p.canon_size, p.own, d.path, f.name, f.at FROM pages p
    JOIN present f ON f.page = p.id JOIN folders d ON d.id = f.folder
    WHERE p.canon IS NOT NULL ORDER BY p.canon, d.path, f.name"""


class CanonFile(NamedTuple):
    """A canonical page, by its hash and length, and a file that gives it."""

    canon: Hash
    length: Count
    own: Hash
    folder: Path
    name: Name
    at: Optional[Count]

    @property
    def place(self) -> Place:
        """Where it is."""
        return Place(self.folder, self.name, self.at)


class ConvertedRow(NamedTuple):
    """What came of a canonical page, or of a file that might have given it."""

    canon: bytes
    status: str
    path: str
    place: Place
    reason: Optional[str] = None


class Conversion:
    """Puts canonical pages into a folder."""

    def __init__(self, program: Client, into: str) -> None:
        self.program, self.into = program, into
        self.counts: Dict[str, int] = {}

    def rows(self, connection: sqlite3.Connection) -> Iterator[ConvertedRow]:
        """Puts the canonical page of each group in place, and tells what came of it. Raises NotWritten."""
        done: Optional[bytes] = None
        with made_folder(self.into):
            for file in kept(connection, PAGES, CanonFile):
                if file.canon != done:
                    row = self._convert(file)
                    self.counts[row.status] = self.counts.get(row.status, 0) + 1
                    done = None if row.status == CHANGED else file.canon  # another file may have the page still
                    yield row

    def _convert(self, file: CanonFile) -> ConvertedRow:
        canon, place = file.canon, file.place
        path = self.path(canon)
        if os.path.lexists(path):
            why = _otherwise(path, canon, file.length)
            return ConvertedRow(canon, NOT_MADE if why else THERE, path, place, why)
        try:
            page = read(place, file.own)
        except Otherwise as otherwise:
            return ConvertedRow(canon, CHANGED, path, place, str(otherwise))
        try:
            return self._written(canon, path, place, self.program.ask("canon", page))
        finally:
            page.close()

    def _written(self, canon: bytes, path: str, place: Place, answer: Answer) -> ConvertedRow:
        if not isinstance(answer, Accepted):
            return ConvertedRow(canon, NOT_MADE, path, place, answer.line)
        if hashed(answer.body) != canon:
            return ConvertedRow(canon, NOT_MADE, path, place, messages.OTHER_HASH)
        make_folders(self.into, os.path.join(canon.hex()[:2], ""))
        put_inside(path, answer.body)
        return ConvertedRow(canon, WRITTEN, path, place)

    def path(self, canon: bytes) -> str:
        """Where the canonical page of this hash stands."""
        name = canon.hex()
        return os.path.join(self.into, name[:2], name + ".nap")

    def line(self) -> str:
        """What came of it all, in one line."""
        number = self.counts.get
        line = f"{number(WRITTEN, 0)} written, {number(THERE, 0):d} there"
        if number(CHANGED):
            line += f", {self.counts[CHANGED]} files changed since the scan"
        if number(NOT_MADE):
            line += f", {self.counts[NOT_MADE]} not made"
        return line


def convert(program: Client, store: str, into: str, form: str) -> int:
    """Puts the canonical pages of a store into a folder, and prints what came of it; the status."""
    connection = open_to_read(store)
    program.budget = most_budget([store])  # (a budget only refuses)
    printer = Printer(form, COLUMNS)
    telling = ErrorReporter(printer)
    conversion = Conversion(program, into)
    total: int = connection.execute("SELECT count(DISTINCT canon) FROM pages").fetchone()[0]
    progress = Progress(sys.stderr, lambda: total, what="canonical streams")
    for done, row in enumerate(conversion.rows(connection)):
        progress.show(done)
        if row.reason:
            progress.clear()
            is_made = row.status != NOT_MADE
            telling(row.place.path if is_made else row.path, row.reason, console.CHANGED if is_made else console.FAILED)
        show(printer, row)
    progress.clear()
    if form == "text":
        printer.line(conversion.line())
    printer.flush()
    return telling.status


def show(printer: Printer, row: ConvertedRow) -> None:
    """Prints a row, in the forms that have rows."""
    members: Members = {"canonical": row.canon.hex(), "status": row.status, "path": shown(row.path),
                        "reason": row.reason}
    if printer.form == "json":
        printer.object({**members, **named(row.place)})
    elif printer.form == "csv":
        printer.row({**members, **shown_as(row.place)})


def _otherwise(path: str, canon: bytes, length: int) -> Optional[str]:
    """What is wrong with what is there in place of a canonical page; None where it has its bytes."""
    try:
        status = os.stat(path)
        if not stat.S_ISREG(status.st_mode):
            return "is there already, but is no file"
        if status.st_size == length and _hash_of(path) == canon:
            return None
    except OSError as error:
        return f"is there already, but can't be read: {reason(error)}"
    return "is there already with other bytes, and isn't written over"


def _hash_of(path: str) -> bytes:
    made = hashlib.sha256()
    with open(os.open(path, os.O_RDONLY | os.O_NONBLOCK | os.O_CLOEXEC), "rb", buffering=0) as file:
        for piece in iter(lambda: file.read(PIECE), b""):
            made.update(piece)
    return made.digest()
