"""The command scan: folders into a store."""
import hashlib
import os
import re
import sqlite3
import stat
import sys
from collections import Counter
from dataclasses import dataclass, replace
from operator import itemgetter
from typing import Dict, FrozenSet, Iterator, List, Optional, Protocol, Sequence, Tuple, Union
from typing import Counter as Counts

from naplps.answers import Unanswered
from naplps.client import Client, version
from naplps.limits import MOST_PAGE, Limits
from naplps.names import shown

from .. import messages
from ..console import COMPLETE, FAILED, Output, tell
from ..packs import NO_FILE, SEVERAL
from ..unexpected import Unexpected
from . import texts
from .folders import absolute, is_gone, join, reason, root_length
from .kept import CANON_TABLES, KEEPS_TO, Part, gets_words, keep, keep_part
from .pool import MAIN, ClusterFailed, NoWorkers, Pool, Workers, WorkersFailed
from .progress import Counting, Progress, Stopping
from .protocol import Chunk, FolderFiles, RowBlock, WorkerOptions
from .search import MAX_BROKEN, Scope, Search, apart, broken, hidden
from .status import counted
from .store import StoreFailed, checkpoint, keep_log, keep_private, open_to_write
from .store_files import LOG, Busy, Lock
from .tables import INDICES, CanonValues, File, Terms
from .writer import Writer

# A worker that is silent for so long, beside the time of two answers, hangs.
PATIENCE = 60.0
FORM = re.compile(r"canonical form ([0-9A-Za-z. ]+)")
# How long is waited at the end for who reads the store, in seconds.
READERS = 5.0
name_of = itemgetter(File._fields.index("name"))
# What may go wrong beside faults of the tool.
EXPECTED = (OSError, sqlite3.Error, WorkersFailed, StoreFailed)


class Beside(Protocol):
    """Keeps more of each page than a store does: by workers of a module of its own, which are told `first` too.

    Of workers that meet copies at the same time one asks about these. `anew` is told to those that go through files
    again, of whose page none did, since its worker ended.
    """

    module: str
    first: Tuple[object, ...]
    anew: Tuple[object, ...]

    def take(self, values: Sequence[Tuple[bytes, CanonValues]]) -> None:
        """Takes what workers found, by the hashes of pages."""

    def write(self) -> None:
        """Keeps what was taken. The rows of these pages are written into the store after that alone."""


@dataclass(frozen=True)
class ScanOptions:
    """What was asked for."""

    folders: List[str]
    store: str
    processes: int
    worker: WorkerOptions
    part: Optional[Part] = None
    on: Optional[str] = None
    beside: Optional[Beside] = None
    # (the options that a new store doesn't get; where nothing is said of that, it gets those alone that are asked for)
    refused: Optional[FrozenSet[str]] = None


def terms_of(options: WorkerOptions) -> Terms:
    """The terms of the program's answers. Raises OSError, or ValueError where it gives none."""
    limits = Limits(seconds=options.seconds)
    with open(options.program, "rb") as file:
        hashed = hashlib.sha256()
        for piece in iter(lambda: file.read(1 << 20), b""):
            hashed.update(piece)
    client = Client(options.program, options.budget, limits)
    try:
        answer = client.hash_canon([b""])[0].answer
    finally:
        client.close()
    if isinstance(answer, Unanswered):
        raise ValueError(answer.reason)
    text = version(options.program, limits)
    form = FORM.search(text)
    return Terms(text, hashed.digest(), form[1] if form else "unknown", options.budget)


def scan(options: ScanOptions) -> int:
    """Scans folders into a store, and prints what that came to; the status."""
    run = scanned(options)
    if isinstance(run, int):
        return run
    output = Output(sys.stdout.buffer)
    output.line(run.line)
    output.flush()
    return run.status


def scanned(options: ScanOptions) -> "Union[ScanRun, int]":
    """Scans folders into a store; what that came to, or a status where it didn't come to its end."""
    try:
        terms = terms_of(options.worker)
    except (OSError, ValueError) as error:
        why = reason(error) if isinstance(error, OSError) else str(error)
        tell(f"{shown(options.worker.program)}: {why}")
        return FAILED
    cluster: Optional[Workers] = None
    try:
        roots = apart(map(absolute, options.folders))
        lacking = missing(roots)
        if len(lacking) == len(roots) and not os.path.lexists(options.store):
            for root, why in lacking:
                tell(f"{shown(os.fsdecode(root))}: {why}")
            return FAILED  # (a store of nothing is of no use)
        if options.on is not None:
            from .cluster import Cluster, alike  # (what few scans need, the others don't wait for)
            cluster = Cluster(options.on, options.worker, alike(terms.program_hash, roots))
        with Stopping() as stopping, Lock(options.store):
            run = _scan_or_stop(options, terms, stopping, roots, cluster)
    except Busy as busy:
        tell(messages.SCAN_AT_WORK_ON.format(path=shown(options.store), reason=busy))
        return FAILED
    except ClusterFailed as failed:
        tell(str(failed))
        return FAILED
    except (OSError, NoWorkers) as error:
        message = reason(error) if isinstance(error, OSError) else str(error)
        tell(f"{shown(options.store)}: {message}")
        return FAILED
    finally:
        if cluster:
            cluster.close()
    stopping.act()
    return FAILED if run is None else run


def missing(roots: List[bytes]) -> List[Tuple[bytes, str]]:
    """The folders and files that aren't there, and why."""
    return [(root, why) for root, why in zip(roots, map(_not_there, roots)) if why]


def _not_there(root: bytes) -> Optional[str]:
    """Why there is neither a folder nor a file of this name; None where there is, or nobody can know."""
    try:
        mode = os.stat(root).st_mode
    except OSError as error:
        return reason(error) if is_gone(error) else None
    return None if stat.S_ISDIR(mode) or stat.S_ISREG(mode) else NO_FILE


def _scan_or_stop(options: ScanOptions, terms: Terms, stopping: Stopping, roots: List[bytes],
                  cluster: Optional[Workers]) -> Optional["ScanRun"]:
    """One scan; nothing where a signal ended what SQLite was at."""
    try:
        return _scan(options, terms, stopping, roots, cluster)
    except sqlite3.OperationalError:
        if stopping.number is None:
            raise
        tell(messages.SCAN_WAS_STOPPED)
        return None


def _scan(options: ScanOptions, terms: Terms, stopping: Stopping, roots: List[bytes],
          cluster: Optional[Workers]) -> "ScanRun":
    connection = open_to_write(options.store, gets_words(options.worker.retry, options.refused))
    try:
        keep_part(connection, options.store, options.part, roots)
        retry = keep(connection, options.worker.retry, options.refused)
        for name in sorted(options.refused or ()):
            if getattr(retry, name):
                tell(f"{shown(options.store)}: {KEEPS_TO[name]}")
        options = replace(options, worker=options.worker._replace(retry=retry))
        if cluster:
            cluster.set_options(options.worker)
        if options.worker.retry.words or options.worker.retry.near:
            keep_private(connection)
        if not keep_log(connection):
            tell(messages.NO_LOG.format(path=shown(options.store)))
        counting = Counting(roots, options.part)
        progress = Progress(sys.stderr, lambda: counting.total)
        if progress.terminal:
            counting.start()
        if options.worker.retry.words:
            with stopping.ends(connection):
                _keep_words(connection, options.store)
        writer = Writer(connection, os.fsencode(options.worker.program), terms, options.beside is not None)
        run = ScanRun(options, writer, progress, stopping, cluster)
        try:
            run.scan(roots)
        except EXPECTED:
            raise
        except Exception as error:  # pylint: disable=broad-except
            raise Unexpected(run.at_work, error) from None
        run.compare()
        return run
    finally:
        if connection.in_transaction:
            connection.execute("ROLLBACK")
        if not checkpoint(connection, READERS, lambda: stopping.number is not None):
            tell(messages.READ_NOW.format(path=shown(options.store), log=shown(os.path.basename(options.store) + LOG)))
        connection.close()


def _keep_words(connection: sqlite3.Connection, store: str) -> None:
    """Makes the index of words, if it isn't there. Raises StoreFailed where it can't be kept as it has to be."""
    if texts.make(connection):
        return
    if texts.is_there(connection):
        raise StoreFailed(store, messages.INDEX_WITHOUT_FTS5)
    tell(messages.NO_FTS5.format(path=shown(store)))


class ScanRun:
    """One run over the roots."""

    def __init__(self, options: ScanOptions, writer: Writer, progress: Progress, stopping: Stopping,
                 workers: Optional[Workers] = None) -> None:
        self.options, self.writer, self.progress, self.stopping = options, writer, progress, stopping
        self.workers = workers or self._pool(options.beside.first if options.beside else ())
        scope = Scope(options.worker.retry, hidden(options.store), min(options.worker.most, MOST_PAGE), options.part,
                      self.workers.max_files, self.workers.max_names)
        self.search = Search(writer, scope, self._complain)
        self.found = 0
        self.broken: Counts[int] = Counter()
        self.status = COMPLETE
        self.line = ""

    def scan(self, roots: List[bytes]) -> None:
        """Scans, on processes of this machine if there are no other workers."""
        beside = self.options.beside
        self._work(self.workers, self.search.chunks(roots))
        if beside and self.stopping.number is None:
            waiting = self._waiting(roots)
            if waiting:
                self._work(self._pool(beside.anew), iter(waiting))
        try:
            with self.stopping.ends(self.writer.connection):
                if self.stopping.number is None:
                    self._finish()
        except sqlite3.OperationalError:
            if self.stopping.number is None:
                raise
        if not self.line:
            tell(messages.SCAN_WAS_STOPPED)

    def _pool(self, more: Tuple[object, ...]) -> Pool:
        """Workers of this machine."""
        first = (self.options.worker, self.options.store, self.writer.terms, self.writer.run, *more)
        module = self.options.beside.module if self.options.beside else MAIN
        return Pool(self.options.processes, first, PATIENCE + 2 * self.options.worker.seconds, module)

    def _work(self, workers: Workers, chunks: Iterator[Chunk]) -> None:
        """Takes what workers find in the files of these chunks, until it is to stop."""
        try:
            for block in workers.run(chunks):
                self._take(block)
                if self.stopping.number is not None:
                    break
        except WorkersFailed as failed:
            self._write()
            raise type(failed)(messages.GOES_ON.format(reason=failed)) from None
        finally:
            workers.close()
            self.progress.clear()
        self._write()

    def _waiting(self, roots: List[bytes]) -> List[Chunk]:
        """The files that still wait for the answer to their page; of a pack all."""
        names: Dict[int, List[bytes]] = {}
        for file in self.writer.files:
            names.setdefault(file.folder, []).append(file.name)
        self.writer.forget()
        chunks: List[Chunk] = []
        for folder, some in names.items():
            path, = self.writer.connection.execute("SELECT path FROM folders WHERE id = ?", (folder,)).fetchone()
            names_in_folder = (b"",) if folder in self.writer.packs else tuple(some)
            chunks.append((FolderFiles(folder, path, names_in_folder, root=root_length(path, roots)),))
        return chunks

    def compare(self) -> None:
        """Makes the values of pages in those tables that are asked for, where the scan came to its end."""
        options, connection = self.options, self.writer.connection
        for table in CANON_TABLES if self.line else ():
            if getattr(options.worker.retry, table.option) and self.stopping.number is None:
                from .canon_filling import CanonPass
                table.make(connection)
                values = CanonPass(table, connection, options.store, options.worker, options.processes)
                self.status = max(self.status, values.run(self.stopping))
                if self.stopping.number is not None:
                    tell(messages.SCAN_WAS_STOPPED)

    @property
    def at_work(self) -> str:
        """The file that was written or searched last."""
        return os.fsdecode(self.writer.at_work or self.search.path or os.fsencode(self.options.store))

    def _take(self, block: Optional[RowBlock]) -> None:
        if block:
            self.found += sum(map(bool, map(name_of, block.files)))
            self.writer.take(block)
            if self.options.beside:
                self.options.beside.take(block.values)
            for folder, name, why in block.unread:
                self._complain_of(folder, name, why)
        if self.writer.is_due:
            self._write()
        self.progress.show(self.search.known + self.found)

    def _write(self) -> None:
        """Writes the step; what is kept beside the store of its pages comes first."""
        if self.options.beside:
            self.options.beside.write()
        self.writer.write()

    def _complain_of(self, folder: int, name: bytes, why: str) -> None:
        """Tells what is wrong with a file; of a pack's members with the first ones."""
        self.status = FAILED
        if name and folder in self.writer.packs:
            self.broken[folder] += 1
            if self.broken[folder] > MAX_BROKEN:
                return
        path, = self.writer.connection.execute("SELECT path FROM folders WHERE id = ?", (folder,)).fetchone()
        self._complain(join(path, name), why)

    def _complain(self, path: bytes, why: str) -> None:
        """Tells what is wrong with a folder or a file."""
        self.progress.tell(f"{shown(os.fsdecode(path))}: {why}")
        self.status = FAILED

    def _finish(self) -> None:
        """Marks what is gone, builds indices, and counts."""
        writer = self.writer
        for folder, name in writer.doubles():
            self._complain_of(folder, name, SEVERAL)
        for folder, number in self.broken.items():
            if number > MAX_BROKEN:
                self._complain(*broken(writer.connection, folder))
        writer.sweep(self.search.whole)
        writer.connection.executescript(INDICES)
        for table in CANON_TABLES:
            table.sweep(writer.connection)
        counts = counted(writer.connection, writer.run)
        writer.finish(counts.met, counts.asked)
        self.line = counts.line(self.search.known)
