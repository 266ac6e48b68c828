"""Makes the values that lack in a table of a store, by workers, and keeps them where the store can be written.

A worker computes them from the list of each page and treated copy: the keys by which almost equal ones are found, or
the hash of a picture.
"""
import os
import sqlite3
import sys
import time
from argparse import Namespace
from typing import Any, Callable, Iterator, List, NamedTuple, Optional, Sequence, Tuple, Union

from naplps.answers import Accepted, Answer, Nonsense, Unanswered
from naplps.client import Client
from naplps.client import find as find_program
from naplps.faults import NotALine
from naplps.limits import MODEST
from naplps.names import shown
from naplps.treating.treatments import find

from .. import messages
from ..console import CHANGED, COMPLETE, tell
from ..source import Page
from . import tables
from .file_reader import Otherwise, read
from .folders import Place, join, reason
from .kept import CanonTable
from .pool import NoWorkers, Pool, processors
from .progress import Progress, Stopping
from .protocol import BlockMaker, Chunk, FolderFiles, Row, RowBlock, WorkerOptions, block_of, serve
from .sources import most_budget
from .store import StoreFailed, checkpoint, keep_log, keep_private, open_to_read, open_to_write, reader, schema_of
from .store_files import Busy, Lock
from .tables import SCHEMA, CanonValues, Count, File, Hash, Name, Path, checked, one

# A worker that is silent for so long, beside the time of two answers, hangs.
PATIENCE = 60.0
WORKER = "naplps_pages.collection.canon_filling"
# The number of files of a chunk, and of rows, or the seconds, with which these are written.
MAX_FILES, STEP, SECONDS = 64, 1000, 2.0
WANTED = "SELECT folder, name FROM wanted ORDER BY folder, name"


class FileWithoutValue(NamedTuple):
    """A file of a page without a value, by its folder's number and its name."""

    folder: Count
    name: Name


class CanonPass:
    """One run over the pages without values in a table, of a store that is open to be written."""

    def __init__(self, table: CanonTable, connection: sqlite3.Connection, store: str, options: WorkerOptions,
                 processes: int) -> None:
        self.table, self.connection, self.store = table, connection, store
        self.pool = Pool(processes, (options, store, table.option), PATIENCE + 2 * options.seconds, WORKER)
        self.total = table.find_wanted(connection)
        self.progress = Progress(sys.stderr, lambda: self.total, what=table.what)
        self.rows: List[Tuple[bytes, CanonValues]] = []
        self.written = time.monotonic()
        self.done = 0
        self.status = COMPLETE

    def run(self, stopping: Stopping) -> int:
        """Makes the values, until a signal stops it; the status. What lacks is answer.

        Raises NoWorkers or sqlite3.Error.
        """
        if not self.total:
            return self.status
        try:
            for block in self.pool.run(self._chunks()):
                if block:
                    self.rows += block.values
                    self._look_at(block)
                if len(self.rows) >= STEP or time.monotonic() - self.written > SECONDS:
                    self._write()
                self.progress.show(self.done)
                if stopping.number is not None:
                    break
        finally:
            self.pool.close()
            self.progress.clear()
        self._write()
        return self.status

    def _chunks(self) -> Iterator[Chunk]:
        """The files that the workers look up in the store, by their folders."""
        held: List[FolderFiles] = []
        names: List[bytes] = []
        count = last = 0
        for folder, name in list(checked(self.connection.execute(WANTED), FileWithoutValue)):
            if names and (folder != last or count >= MAX_FILES):
                held.append(FolderFiles(last, b"", tuple(names)))
                names = []
            if count >= MAX_FILES:
                yield tuple(held)
                held, count = [], 0
            names.append(name)
            last, count = folder, count + 1
        if names:
            yield (*held, FolderFiles(last, b"", tuple(names)))

    def _look_at(self, block: RowBlock) -> None:
        """Counts files, and tells which have no values."""
        self.done += len(block.files)
        for folder, name, why in block.unread:
            path, = self.connection.execute("SELECT path FROM folders WHERE id = ?", (folder,)).fetchone()
            self.progress.tell(f"{shown(os.fsdecode(join(path, name)))}: {why}; {self.table.without}")
            self.status = CHANGED

    def _write(self) -> None:
        if self.rows:
            self.connection.execute("BEGIN IMMEDIATE")
            self.table.write(self.connection, self.rows)
            self.connection.execute("COMMIT")
        self.rows = []
        self.written = time.monotonic()


# How long is waited at the end for who reads the store, in seconds.
READERS = 5.0


class NotWritable(Exception):
    """The store can't be written, with the reason."""


class Filled(NamedTuple):
    """A store to be read that has the table, and what it took: a status."""

    connection: sqlite3.Connection
    status: int


def filling(table: CanonTable, given: Namespace, tool: str) -> "CanonFilling":
    """What fills a table of the store that a command names. `tool` is the path of the tool, beside which naplps may be.
    """
    store = given.stores[0]
    return CanonFilling(table, store, lambda: WorkerOptions(
        find_program(tool), most_budget([store]), given.timeout, 0), given.jobs or processors())


class CanonFilling(NamedTuple):
    """Fills a table of a store, by processes. Their options are asked for where values lack."""

    table: CanonTable
    store: str
    options: Callable[[], WorkerOptions]
    processes: int

    def filled(self) -> Optional[Filled]:
        """The store with all values; None where a signal stopped it. Raises StoreFailed or sqlite3.Error."""
        connection = open_to_read(self.store)
        if not self.table.find_wanted(connection):
            if not self.table.is_there(connection):
                self.table.make_aside(connection)
            return Filled(connection, COMPLETE)
        connection.close()
        try:
            status = self._keep()
            connection = open_to_read(self.store)
        except NotWritable as why:
            tell(messages.VALUES_NOT_KEPT.format(path=shown(self.store), reason=why))
            connection = open_to_read(self.store)
            self.table.make_aside(connection)
            status = self._fill(connection, messages.STOPPED_ALL)
        return None if status is None else Filled(connection, status)

    def _fill(self, connection: sqlite3.Connection, message: str) -> Optional[int]:
        """The status of a pass; None where a signal stopped it, which then acts."""
        try:
            with Stopping() as stopping:
                status = CanonPass(self.table, connection, self.store, self.options(), self.processes).run(stopping)
        except NoWorkers as error:
            raise StoreFailed(self.store, str(error)) from None
        if stopping.number is not None:
            tell(message)
            stopping.act()
            return None
        return status

    def _keep(self) -> Optional[int]:
        """Makes what lacks, and keeps it; the status, or None where it was stopped. Raises NotWritable."""
        try:
            with Lock(self.store):
                connection = self._opened()
                try:
                    return self._fill(connection, messages.STOPPED)
                finally:
                    checkpoint(connection, READERS)
                    connection.close()
        except Busy as busy:
            raise NotWritable(messages.SCAN_AT_WORK.format(reason=busy)) from None
        except OSError as error:
            raise NotWritable(reason(error)) from None

    def _opened(self) -> sqlite3.Connection:
        """The store with the table, to be written. Raises NotWritable or OSError."""
        looked = open_to_read(self.store)
        schema = schema_of(looked)
        looked.close()
        if schema != SCHEMA:
            raise NotWritable(messages.EARLIER_SCHEMA)
        if not os.access(self.store, os.W_OK):
            raise NotWritable(messages.NOT_WRITABLE)
        connection: Optional[sqlite3.Connection] = None
        try:
            connection = open_to_write(self.store)
            if self.table.is_private:
                keep_private(connection)
            self.table.make(connection)
            keep_log(connection)
            return connection
        except (sqlite3.OperationalError, OSError) as error:
            if connection:
                connection.close()
            raise NotWritable(str(error) if isinstance(error, sqlite3.Error) else reason(error)) from None


# The number of pages that are asked about together, and of their entries.
MAX_AHEAD, MAX_ENTRIES = 32, 50_000
FILE = f"""SELECT d.path, f.name, {tables.AT}, p.own, p.place, coalesce(c.entries, p.entries),
    coalesce(p.canon, c.canon), c.copy FROM files f
    CROSS JOIN folders d ON d.id = f.folder CROSS JOIN pages p ON p.id = f.page
    LEFT JOIN cures c ON c.page = p.id AND c.terms = p.terms AND p.canon IS NULL
    WHERE f.folder = ? AND f.name = ? AND f.state = {tables.READ}"""


class Wanted(NamedTuple):
    """A page whose value is wanted: its place and hash; the number of entries and the canonical hash, of its treated
    copy where it is refused; and the place of the refusal and the hash of the copy then."""

    folder: Path
    name: Name
    at: Optional[Count]
    own: Hash
    refused_at: Optional[Count]
    entries: Count
    canon: Hash
    copy: Optional[Hash]

    @property
    def place(self) -> Place:
        """Where it is."""
        return Place(self.folder, self.name, self.at)


class ValueMaker:
    """Makes the values of files that a store has, each of the lines of a list."""

    def __init__(self, options: WorkerOptions, store: str, beat: Callable[[], None],
                 value_of: Callable[[bytes], CanonValues]) -> None:
        self.connection = reader(store)
        self.beat, self.value_of = beat, value_of
        self.program = Client(options.program, options.budget, MODEST._replace(seconds=options.seconds), beat)

    def blocks(self, chunk: Chunk) -> Iterator[RowBlock]:
        """The values of a chunk's files by canonical streams, in their order."""
        for names in chunk:
            window: List[Union[Wanted, File]] = []
            entries = 0
            for name in names.names:
                it = self._looked_up(names.folder, name)
                window.append(it)
                entries += it.entries if isinstance(it, Wanted) else 0
                if len(window) >= MAX_AHEAD or entries >= MAX_ENTRIES:
                    yield self._block(names.folder, window)
                    window, entries = [], 0
            yield self._block(names.folder, window)

    def _looked_up(self, folder: int, name: bytes) -> Union[Wanted, File]:
        try:
            found = one(self.connection.execute(FILE, (folder, name)).fetchone(), Wanted)
        except sqlite3.Error as error:
            return File(folder, name, tables.UNREADABLE, str(error))
        return found or File(folder, name, tables.UNREADABLE, messages.NOT_IN_STORE)

    def _block(self, folder: int, window: Sequence[Union[Wanted, File]]) -> RowBlock:
        """The files of a window, and the values of those of which there are any."""
        self.beat()
        files = [it for it in window if isinstance(it, File)]
        made: List[Tuple[bytes, Row]] = []
        for it, answer in self._answers([it for it in window if isinstance(it, Wanted)]):
            self.beat()
            values = answer if isinstance(answer, str) else self._values(it, answer)
            if isinstance(values, str):
                files.append(File(folder, it.place.name, tables.UNREADABLE, values))
            else:
                files.append(File(folder, it.place.name, tables.READ))
                made.append((it.canon, values))
        return block_of((tuple(files), ()))._replace(values=made)

    def _answers(self, some: Sequence[Wanted]) -> Iterator[Tuple[Wanted, Union[Answer, str]]]:
        """What the program says of each, or why that isn't asked."""
        asked: List[Wanted] = []
        pages: List[bytes] = []
        for it in some:
            try:
                data = self._data(it)
            except Otherwise as otherwise:
                yield it, str(otherwise)
                continue
            if isinstance(data, bytes):
                asked.append(it)
                pages.append(data)
            else:
                yield it, self._ask_of(data)
        yield from zip(asked, self.program.ask_each("list", pages))

    def _data(self, it: Wanted) -> Union[bytes, Page]:
        """The bytes of a page or of its treated copy; the page, where these are too many. Raises Otherwise."""
        page = read(it.place, it.own)
        if page.data is None or it.copy is None:
            return page if page.data is None else page.data
        cure = find(self._ask, page.data, it.refused_at or 0)
        if cure is None or tables.hashed(cure.data) != it.copy:
            raise Otherwise(messages.OTHER_COPY)
        return cure.data

    def _ask_of(self, page: Page) -> Answer:
        try:
            return self.program.ask("list", page)
        finally:
            page.close()

    def _ask(self, call: str, data: bytes) -> Answer:
        self.beat()
        return self.program.ask(call, data)

    def _values(self, it: Wanted, answer: Answer) -> Union[CanonValues, str]:
        """The values that the list of a page has, or why there are none."""
        if isinstance(answer, Accepted) and answer.entries == it.entries:
            try:
                return self.value_of(answer.body)
            except NotALine:
                answer = Nonsense().answer
        return answer.reason if isinstance(answer, Unanswered) else messages.OTHER_ANSWER

    def close(self) -> None:
        """Ends the program."""
        self.program.close()
        self.connection.close()


def _keys(listed: bytes) -> CanonValues:
    from ..nearness import keys_of
    keys = keys_of(listed)
    return (keys.start, *keys)


def _picture(listed: bytes) -> CanonValues:
    """The hash of a picture; none of a page that paints too much."""
    from naplps.dots import raster
    from naplps.entry import lines_in
    from naplps.entry import read as read_lines
    painted = raster(read_lines(lines_in(listed)))
    return (bytes.fromhex(painted.hash()) if painted.drawn == painted.total else None,)


# What makes the values of a table of the lines of a list, by the option of that. (Each imports what takes long.)
VALUES_OF = {"near": _keys, "pictures": _picture}


def main(descriptor: int) -> None:
    """Works until the connection ends."""
    serve(descriptor, _maker)


def _maker(first: Sequence[Any], beat: Callable[[], None]) -> BlockMaker:
    options, store, option = first
    return ValueMaker(options, store, beat, VALUES_OF[option])
