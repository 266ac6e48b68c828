"""What a scan and its workers say to each other: chunks of files and blocks of rows; and the process that serves."""
import resource
import signal
import sys
import time
from operator import attrgetter
from types import FrameType
from typing import TYPE_CHECKING, Any, Callable, Iterator, List, NamedTuple, Optional, Protocol, Sequence, Tuple

from .folders import FolderIdentity
from .tables import ACCEPTED, CHANGED, NO_ANSWER, UNREADABLE, Answered, File, listed

if TYPE_CHECKING:
    from multiprocessing.connection import Connection

# The number of requests that a worker writes ahead; and what it sends: rows, the last rows of a chunk, that it is at
# work, or why it ends.
MAX_AHEAD = 64
ROWS, DONE, ALIVE, FAILED = "rows", "done", "alive", "failed"


class Retry(NamedTuple):
    """What of that which is known is asked again all the same."""

    again: bool = False
    cures: bool = False
    words: bool = False
    near: bool = False
    pictures: bool = False


class FolderFiles(NamedTuple):
    """Files of one folder: its number in the store, its path, and their names; which folder it was, as it was met; and
    how many bytes of its path are those of the named folder below which it was met, 0 if it wasn't met so.

    A pack is a folder with one name: nothing, or from where on it is to be read. It has the identity of the folder that
    it is in; a pack that was named by itself has none, so it may be a link.
    """

    folder: int
    path: bytes
    names: Tuple[bytes, ...]
    identity: Optional[FolderIdentity] = None
    root: int = 0


# What a worker is given at a time.
Chunk = Tuple[FolderFiles, ...]
# What it finds, in pieces: how many files these are, and the answers to those of their pages that it asked about.
Piece = Tuple[Tuple[File, ...], Tuple[Answered, ...]]
Row = Tuple[Any, ...]
# What an accepted page has of an answer. To give SQLite a null takes longer than any of these.
OF_ACCEPTED = "own, state, entries, canon, canon_size, kind, several, holds"
answer_values = attrgetter(*listed(Answered).split(", "))
accepted_values = attrgetter(*OF_ACCEPTED.split(", "))


class RowBlock(NamedTuple):
    """What comes of some files as plain rows, which are sent in few bytes and inserted as they are.

    These are files; answers, those of accepted pages apart; treatments, behind which stands the hash of the page; by
    hashes texts, and values that aren't kept in a store; names of refusals; and of which files something isn't known,
    and why.
    """

    files: List[Row]
    accepted: List[Row]
    others: List[Row]
    cures: List[Row]
    texts: List[Tuple[bytes, Row]]
    values: List[Tuple[bytes, Row]]
    faults: List[Tuple[int, str]]
    unread: List[Tuple[int, bytes, str]]

    def add(self, other: "RowBlock") -> None:
        """Adds the rows of another one."""
        mine: Tuple[List[Any], ...] = self
        more: Tuple[List[Any], ...] = other
        for rows, others in zip(mine, more):
            rows += others


def empty() -> RowBlock:
    """A block without rows."""
    return RowBlock([], [], [], [], [], [], [], [])


def block_of(piece: Piece) -> RowBlock:
    """The rows of a piece."""
    files, answers = piece
    return RowBlock(
        [tuple(file) for file in files],
        [accepted_values(each) for each in answers if each.state == ACCEPTED],
        [answer_values(each) for each in answers if each.state != ACCEPTED],
        [(*each.cured, each.own) for each in answers if each.cured],
        [(each.own, tuple(each.text)) for each in answers if each.text],
        [(each.own, each.values) for each in answers if each.values is not None],
        [(each.number, each.fault) for each in answers if each.number is not None and each.fault is not None],
        list(_unread(piece)))


def _unread(piece: Piece) -> Iterator[Tuple[int, bytes, str]]:
    """The files of a piece about which something couldn't be known, and why."""
    files, answers = piece
    reasons = {each.own: each.why for each in answers if each.state == NO_ANSWER and each.why}
    for file in files:
        if file.state in (UNREADABLE, CHANGED):
            yield file.folder, file.name, file.why or ""
        elif reasons and file.own in reasons:
            yield file.folder, file.name, reasons[file.own]


class WorkerOptions(NamedTuple):
    """How pages are asked about."""

    program: str
    budget: int
    seconds: float
    most: int
    retry: Retry = Retry()


# A worker that needs more memory than this is at fault.
MAX_MEMORY = 1 << 30
# It shows that it is at work so often, in seconds, while it has nothing to send; and holds rows no longer.
BEAT = 1.0
# The number of files with which a block is sent.
MAX_ROWS = 256


class BlockMaker(Protocol):
    """What a process does: turns chunks into blocks, until it is closed."""

    def blocks(self, chunk: Chunk) -> Iterator[RowBlock]:
        """What comes of a chunk."""

    def close(self) -> None:
        """Ends what it has started."""


class ScanConnection:
    """The connection to the scan."""

    def __init__(self, connection: "Connection") -> None:
        self.connection = connection
        self.last = 0.0

    def send(self, what: str, value: object = None) -> None:
        """Sends a message."""
        self.connection.send((what, value))
        self.last = time.monotonic()

    def beat(self) -> None:
        """Shows that the worker is at work, now and then."""
        if time.monotonic() - self.last > BEAT:
            self.send(ALIVE)


def serve(descriptor: int, made: Callable[[Sequence[Any], Callable[[], None]], BlockMaker]) -> None:
    """Works until the connection ends, by what is made of the first message."""
    from multiprocessing.connection import Connection  # (what only looks into a store doesn't wait for it)
    signal.signal(signal.SIGTERM, _end)
    limit_memory()
    line = ScanConnection(Connection(descriptor))
    worker: Optional[BlockMaker] = None
    try:
        line.send(ALIVE)
        worker = made(line.connection.recv(), line.beat)
        while True:
            _work(line, worker)
    except (EOFError, ConnectionError):
        pass  # the scan has ended
    except Exception as error:  # pylint: disable=broad-except
        _tell(line, error)
    finally:
        if worker:
            worker.close()


def limit_memory() -> None:
    """Limits the memory of this process."""
    hard = resource.getrlimit(resource.RLIMIT_AS)[1]
    most = MAX_MEMORY if hard == resource.RLIM_INFINITY else min(MAX_MEMORY, hard)
    try:
        resource.setrlimit(resource.RLIMIT_AS, (most, hard))
    except (OSError, ValueError):
        pass  # the system has no such limit


def _work(line: ScanConnection, worker: BlockMaker) -> None:
    """Sends what comes of a chunk, in blocks: as soon as there are many rows, or they are old."""
    chunk = line.connection.recv()
    held, began = empty(), time.monotonic()
    for block in worker.blocks(chunk):
        held.add(block)
        if held.files and (len(held.files) >= MAX_ROWS or time.monotonic() - began > BEAT):
            line.send(ROWS, tuple(held))
            held, began = empty(), time.monotonic()
    line.send(DONE, tuple(held))


def _tell(line: ScanConnection, error: Exception) -> None:
    message = str(error)
    try:
        line.send(FAILED, type(error).__name__ + (": " + message if message else ""))
    except OSError:
        pass
    sys.exit(1)


def _end(number: int, _: Optional[FrameType]) -> None:
    sys.exit(128 + number)
