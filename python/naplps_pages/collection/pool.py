"""Workers, and those of them that are processes of this machine. One that ends or hangs is replaced, and costs one file
its row at most."""
import os
import signal
import socket
import subprocess
import time
from abc import ABC, abstractmethod
from collections import deque
from multiprocessing.connection import Connection, wait
from typing import Deque, FrozenSet, Iterator, List, NamedTuple, Optional, Sequence, Set, Tuple

from .. import interpreter, messages
from ..packs import pack_of
from .protocol import DONE, FAILED, MAX_AHEAD, ROWS, Chunk, Row, RowBlock, WorkerOptions, block_of
from .tables import UNREADABLE, File

MAIN = "naplps_pages.collection.worker"
# The number of chunks of a worker at a time, so that it needn't wait for the next. They fit into its socket's buffer,
# so nobody waits to be read while he waits to be read himself.
MAX_IN_FLIGHT, BUFFER = 3, 1 << 18
# How long one wait for a message takes, and the wait for a worker to end.
POLL_SECONDS, GRACE = 0.25, 2.0
# After so many workers in a row that never answer, the tool itself is at fault.
MAX_FAILED_STARTS = 3
# The greatest number of workers.
MAX_PROCESSES = 512


class WorkersFailed(Exception):
    """No worker works any more, with the reason."""


class NoWorkers(WorkersFailed):
    """Workers can't be started."""


class ClusterFailed(WorkersFailed):
    """A cluster can't be used."""


class Task(NamedTuple):
    """A chunk, which workers of a cluster couldn't read it, and to which alone it is sent; to any without one."""

    chunk: Chunk
    tried: FrozenSet[str] = frozenset()
    workers: FrozenSet[str] = frozenset()


class Workers(ABC):
    """Workers that turn chunks into blocks, on this machine or on others; `retry` are tasks that have to be sent again,
    and `retried` chunks of one file that are so, since their worker failed. A chunk has no more than a number of files,
    and of bytes of names."""

    max_files, max_names = 200, 16 << 10

    def __init__(self) -> None:
        self.retry: Deque[Task] = deque()
        self.retried: Set[Chunk] = set()

    def run(self, chunks: Iterator[Chunk]) -> Iterator[Optional[RowBlock]]:
        """Yields what comes of the chunks, which are taken as needed, and now and then None while nothing comes.

        A chunk of nothing says that the next may take a while to be found. Raises WorkersFailed.
        """
        more = True
        while more or self.retry or self.is_busy():
            chunk: Optional[Chunk] = None
            while (more or self.retry) and chunk != () and self.has_room():
                if self.retry:
                    self.send(self.retry.popleft())
                    continue
                chunk = next(chunks, None)
                if chunk:
                    self.send(Task(chunk))
                more = chunk is not None
            yield from self.receive(POLL_SECONDS if chunk != () else 0)

    @abstractmethod
    def is_busy(self) -> bool:
        """Whether anything that was sent isn't answered yet."""

    @abstractmethod
    def has_room(self) -> bool:
        """Whether some worker should have another chunk."""

    @abstractmethod
    def send(self, task: Task) -> None:
        """Sends a chunk to a worker."""

    @abstractmethod
    def receive(self, seconds: float) -> Iterator[Optional[RowBlock]]:
        """What workers have sent, or nothing where none has in that time. What one had that failed is sent again."""

    @abstractmethod
    def close(self) -> None:
        """Ends the workers, or leaves them."""

    def set_options(self, options: WorkerOptions) -> None:
        """Asks of the workers what the store keeps to."""

    def lost(self, chunk: Chunk, reason: str) -> Iterator[RowBlock]:
        """Tries a chunk of one file once more whose worker failed, which may be by chance; the second time, its row."""
        if chunk in self.retried:
            yield block_of(((File(chunk[0].folder, chunk[0].names[0], UNREADABLE, reason),), ()))
        else:
            self.retried.add(chunk)
            self.retry.appendleft(Task(chunk))


def processors() -> int:
    """How many processors there are to work on, and no more than there may be workers."""
    try:
        number = len(os.sched_getaffinity(0))
    except AttributeError:  # (not all systems have it)
        number = os.cpu_count() or 1
    return min(number, MAX_PROCESSES)


class WorkerHandle:
    """One worker, and the chunks that it has."""

    def __init__(self, first: Sequence[object], module: str, folder: str) -> None:
        ours, theirs = socket.socketpair()
        for each in (ours, theirs):
            each.setsockopt(socket.SOL_SOCKET, socket.SO_SNDBUF, BUFFER)
            each.setsockopt(socket.SOL_SOCKET, socket.SO_RCVBUF, BUFFER)
        with theirs:
            self.process = interpreter.start(module, theirs.fileno(), folder)
        self.connection = Connection(ours.detach())
        self.chunks: Deque[Chunk] = deque()
        self.reported = 0
        self.received_at = time.monotonic()
        self.has_started = False
        self.reason = ""
        try:
            self.connection.send(tuple(first))
        except OSError:
            pass  # it has ended, as is received

    def send(self, chunk: Chunk) -> None:
        """Sends it a chunk."""
        if not self.chunks:
            self.received_at = time.monotonic()
        self.chunks.append(chunk)
        self.connection.send(chunk)

    def receive(self) -> Optional[RowBlock]:
        """The next block that it sends; nothing where it says something else. Raises EOFError where it has ended."""
        what, value = self.connection.recv()
        self.received_at, self.has_started = time.monotonic(), True
        if what == FAILED:
            self.reason = messages.WORKER_FAILED.format(reason=value)
        if what not in (ROWS, DONE):
            return None
        block = RowBlock._make(value)
        if what == DONE:
            self.chunks.popleft()
            self.reported = 0
        else:
            self.reported += _reported(self.chunks[0], block.files)
        return block

    def has_room(self) -> bool:
        """Whether it should have another chunk: not after a pack, which may take long."""
        return len(self.chunks) < (1 if any(map(_is_pack, self.chunks)) else MAX_IN_FLIGHT)

    def left(self) -> Tuple[Chunk, ...]:
        """The chunks without what was reported."""
        chunks = tuple(self.chunks)
        return (_behind(chunks[0], self.reported),) + chunks[1:] if chunks else ()

    def end_reason(self) -> str:
        """Why it ended, which it has."""
        try:
            status = self.process.wait(GRACE)
        except subprocess.TimeoutExpired:
            self.process.kill()
            status = self.process.wait()
        return self.reason or messages.WORKER_ENDED.format(how=ending(status))

    def close(self) -> None:
        """Asks it to end, at once."""
        self.connection.close()
        self.process.terminate()

    def end(self) -> None:
        """Ends it."""
        try:
            self.process.wait(GRACE)
        except subprocess.TimeoutExpired:
            self.process.kill()
            self.process.wait()


class Pool(Workers):
    """Workers as processes of this machine, a number of them. `first` is what each is told, `patience` how long one may
    be silent, `module` its module."""

    def __init__(self, number: int, first: Sequence[object], patience: float, module: str = MAIN,
                 folder: str = interpreter.FOLDER) -> None:
        super().__init__()
        self.number, self.first, self.patience, self.module, self.folder = number, first, patience, module, folder
        self.workers: List[WorkerHandle] = []
        self.failed_starts = 0

    def is_busy(self) -> bool:
        """Whether a worker has a chunk."""
        return any(worker.chunks for worker in self.workers)

    def has_room(self) -> bool:
        """Whether a worker should have another chunk, or there may be another worker."""
        return len(self.workers) < self.number or any(worker.has_room() for worker in self.workers)

    def send(self, task: Task) -> None:
        """Sends a chunk to the worker that has the fewest, of those that have room."""
        least = min(filter(WorkerHandle.has_room, self.workers), key=lambda worker: len(worker.chunks), default=None)
        if least is None or (least.chunks and len(self.workers) < self.number):
            least = WorkerHandle(self.first, self.module, self.folder)
            self.workers.append(least)
        try:
            least.send(task.chunk)
        except OSError:
            pass  # it has ended, as is received

    def receive(self, seconds: float) -> Iterator[Optional[RowBlock]]:
        """What workers have sent, or nothing where none has in that time. One that has ended or hangs is replaced."""
        busy = [worker for worker in self.workers if worker.chunks]
        ready = wait([worker.connection for worker in busy], seconds if busy else 0)
        for worker in busy:
            if worker.connection in ready:
                yield from self._receive(worker)
            elif time.monotonic() - worker.received_at > self.patience:
                worker.process.kill()
                worker.reason = messages.WORKER_HUNG
                yield from self._replace(worker)
        if not ready:
            yield None

    def _receive(self, worker: WorkerHandle) -> Iterator[RowBlock]:
        try:
            block = worker.receive()
        except (EOFError, OSError):
            yield from self._replace(worker)
            return
        if block:
            yield block

    def _replace(self, worker: WorkerHandle) -> Iterator[RowBlock]:
        """Replaces a worker that has ended. The files that it may have been at are tried one by one, and then again."""
        reason = worker.end_reason()
        self.failed_starts = 0 if worker.has_started else self.failed_starts + 1
        if self.failed_starts >= MAX_FAILED_STARTS:
            raise NoWorkers(messages.NO_WORKERS.format(reason=reason))
        worker.connection.close()
        self.workers.remove(worker)
        first, *left = [chunk for chunk in worker.left() if chunk] or [()]
        if count(first) > 1:
            left[:0] = [each for each in (*_singles(first, MAX_AHEAD), _behind(first, MAX_AHEAD)) if each]
        self.retry.extendleft(map(Task, reversed(left)))
        if count(first) == 1:
            yield from self.lost(first, reason)

    def close(self) -> None:
        """Ends all workers."""
        for worker in self.workers:
            worker.close()
        for worker in self.workers:
            worker.end()
        self.workers = []


def ending(status: int) -> str:
    """How a process ended, by its status."""
    if status >= 0:
        return f"with status {status}"
    try:
        return f"by {signal.Signals(-status).name}"
    except ValueError:
        return f"by signal {-status}"


def _is_pack(chunk: Chunk) -> bool:
    return pack_of(chunk[0].path) is not None


def _reported(chunk: Chunk, files: Sequence[Row]) -> int:
    """How many names of the chunk these files tell of: of a pack that is its own row alone."""
    return sum(not File(*file).name for file in files) if _is_pack(chunk) else len(files)


def count(chunk: Chunk) -> int:
    """How many names a chunk has."""
    return sum(len(each.names) for each in chunk)


def _behind(chunk: Chunk, number: int) -> Chunk:
    """The chunk without its first files."""
    rest = []
    for each in chunk:
        if number < len(each.names):
            rest.append(each._replace(names=each.names[number:]))
        number = max(0, number - len(each.names))
    return tuple(rest)


def halves(chunk: Chunk) -> List[Chunk]:
    """The chunk in two; it has two names at least."""
    half = count(chunk) // 2
    return [_before(chunk, half), _behind(chunk, half)]


def _before(chunk: Chunk, number: int) -> Chunk:
    """The first files of the chunk."""
    some = []
    for each in chunk:
        if number > 0:
            some.append(each._replace(names=each.names[:number]))
        number -= len(each.names)
    return tuple(some)


def _singles(chunk: Chunk, number: int) -> List[Chunk]:
    """The first files of the chunk, a number of them, each as a chunk by itself."""
    singles: List[Chunk] = [(each._replace(names=(name,)),) for each in chunk for name in each.names]
    return singles[:number]
