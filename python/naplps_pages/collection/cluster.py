"""Workers of Dask's distributed: each chunk is a task, which starts a process on the machine where it runs.

The process, of which this module is the main one too, gets what to do by standard input, and its rows go out again.
"""
import hashlib
import importlib
import json
import logging
import math
import os
import pickle
import site
import subprocess
import sys
import threading
import time
from queue import Empty, SimpleQueue
from typing import AbstractSet, Any, Callable, Dict, FrozenSet, Iterator, List, NamedTuple, Optional, Set, Tuple, cast

from naplps.names import shown

from .. import messages
from ..console import tell
from ..interpreter import FOLDER, interpreter
from ..packs import pack_of
from .folders import OpenFolders, Replaced, join, reason
from .pool import ClusterFailed, Task, Workers, count, ending, halves
from .protocol import Chunk, FolderFiles, Piece, RowBlock, WorkerOptions, block_of, limit_memory
from .tables import UNREADABLE, VANISHED, File
from .worker import Worker

# So often it is looked which workers have been silent, and one that is for so long gets nothing any more, in seconds.
LOOK, SILENT = 5.0, 60.0


class Watch:
    """Which workers there are, as the scheduler says, and which have been silent for long."""

    def __init__(self, client: Any) -> None:
        self.client = client
        self.live: FrozenSet[str] = frozenset()
        self.silent: Set[str] = set()
        self.found: List[str] = []
        self.seen: Dict[str, Tuple[object, float]] = {}
        self.looked = 0.0

    def look(self) -> bool:
        """Looks now and then; whether it did. `found` has the workers that have become silent, until they are named."""
        now = time.monotonic()
        if now - self.looked < LOOK:
            return False
        self.looked = now
        try:
            workers = self.client.scheduler_info()["workers"]
        except Exception:  # pylint: disable=broad-except
            return False  # the scheduler is about to go
        for worker, it in workers.items():
            last, since = self.seen.get(worker, (None, now))
            if last != it.get("last_seen"):
                self.seen[worker] = it.get("last_seen"), now
                self.silent.discard(worker)
            elif now - since > SILENT and worker not in self.silent:
                self.found.append(worker)
                self.silent.add(worker)
        self.live = frozenset(workers) - self.silent
        return True

    def now(self) -> FrozenSet[str]:
        """The workers that there are now."""
        self.looked = 0.0
        self.look()
        return self.live

    def keys_of(self, worker: str) -> Set[str]:
        """The keys of the tasks that a worker has."""
        try:
            return set(self.client.processing([worker]).get(worker, ()))
        except Exception:  # pylint: disable=broad-except
            return set()

    def worker_of(self, future: Any) -> str:
        """Which worker has the result of a task; nothing where that isn't known."""
        try:
            return next((str(each) for some in self.client.who_has([future]).values() for each in some), "")
        except Exception:  # pylint: disable=broad-except
            return ""


# How long is waited at once, and before one that couldn't be reached is asked again, in seconds.
POLL_SECONDS, PAUSE = 0.25, 2.0


def answers(watch: Watch, words: List[str], given: Dict[str, Any], look: Callable[[], None]) -> Dict[str, Any]:
    """What a process of these words said on each worker, by its address, or how it failed.

    `look` is called now and then, and has `watch` look. One that becomes silent is asked no more, and isn't among the
    answers. One that can't be reached is asked again until it is known to be silent, or for twice that time.
    """
    result: Dict[str, Any] = {}
    end = time.monotonic() + 2 * SILENT
    while True:
        expected = watch.now() - set(result)
        if not expected:
            return {worker: each for worker, each in result.items() if worker not in watch.silent}
        for worker, each in _asked(watch, words, given, look, expected).items():
            if not _is_unreached(each) or time.monotonic() > end:
                result[worker] = each
        _pause(PAUSE if expected - set(result) else 0.0, look)


def _is_unreached(result: object) -> bool:
    """Whether an answer is that there was no connection. (What the system says of a program has a number.)"""
    return isinstance(result, OSError) and result.errno is None


def _pause(seconds: float, look: Callable[[], None]) -> None:
    end = time.monotonic() + seconds
    while time.monotonic() < end:
        look()
        time.sleep(POLL_SECONDS)


def _asked(watch: Watch, words: List[str], given: Dict[str, Any], look: Callable[[], None],
           workers: AbstractSet[str]) -> Dict[str, Any]:
    """What these workers say; nothing as soon as one of them is silent. Raises what the client does."""
    done: "SimpleQueue[Any]" = SimpleQueue()

    def asks() -> None:
        try:
            done.put(watch.client.run(subprocess.run, words, workers=sorted(workers), on_error="return", **given))
        except BaseException as error:  # pylint: disable=broad-except
            done.put(error)
    # (a call that waits for a silent worker has no end of its own)
    threading.Thread(target=asks, daemon=True).start()
    while True:
        try:
            result = done.get(timeout=POLL_SECONDS)
        except Empty:
            look()
            if workers & watch.silent:
                return {}
            continue
        if isinstance(result, BaseException):
            raise result
        return dict(result)


NOT_THERE = "it isn't there on the workers"


def is_here(names: FolderFiles) -> bool:
    """Whether a folder is here what it was when the scan met it, so that it is another one elsewhere."""
    pack = pack_of(names.path)
    try:
        with OpenFolders() as folders:
            path = names.path if pack is None else os.path.dirname(pack)
            folders.opened_again(path, names.root, names.identity)
    except (OSError, Replaced):
        return False
    return True


class UnreadFiles:
    """The files of a chunk that a worker couldn't read: true if there are any."""

    def __init__(self, chunk: Chunk, pieces: List[Piece]) -> None:
        self.folders: Dict[int, FolderFiles] = {names.folder: names for names in chunk}
        self.pieces = pieces
        self.found: Set[Tuple[int, bytes]] = {
            (file.folder, file.name) for files, _ in pieces for file in files if self._is_unread(file)}

    def __bool__(self) -> bool:
        return bool(self.found)

    def _is_unread(self, file: File) -> bool:
        """Whether it is a file, or a pack as a whole, that couldn't be opened. (A member that is damaged was read.)"""
        is_pack = pack_of(self.folders[file.folder].path) is not None
        return file.state in (UNREADABLE, VANISHED) and file.mtime_ns is None and is_pack == (not file.name)

    def _key(self, names: FolderFiles, name: bytes) -> Tuple[int, bytes]:
        """What the row of a name in a chunk is known by: that of a pack has none."""
        return names.folder, name if pack_of(names.path) is None else b""

    @property
    def chunk(self) -> Chunk:
        """These files."""
        some = (names._replace(names=tuple(
            name for name in names.names if self._key(names, name) in self.found))
            for names in self.folders.values())
        return tuple(names for names in some if names.names)

    @property
    def others(self) -> List[Piece]:
        """The rows of the other files."""
        return [(tuple(file for file in files if (file.folder, file.name) not in self.found), answers)
                for files, answers in self.pieces]

    @property
    def final(self) -> List[Piece]:
        """All rows, where nobody else can be asked: a file that is here hasn't vanished."""
        return [(tuple(map(self._final, files)), answers) for files, answers in self.pieces]

    def _final(self, file: File) -> File:
        names = self.folders[file.folder]
        if file.state == VANISHED and is_here(names) and os.path.lexists(join(names.path, file.name)):
            return file._replace(state=UNREADABLE, why=NOT_THERE)
        return file


# The module and the tool, which stand in one folder.
PACKAGES = ("naplps", "naplps_pages")
# The number of members of a pack that are read at a time, since their rows are held until all are there.
MAX_MEMBERS = 20_000
PIECE = 1 << 20


class Alike(NamedTuple):
    """What has to be the same on all machines: hashes of the program and of this package, and numbers of folders."""

    program: bytes
    package: bytes
    roots: Tuple[Tuple[bytes, int], ...]


class Given(NamedTuple):
    """What is to be done; an empty chunk asks only whether all is the same."""

    options: WorkerOptions
    alike: Alike
    chunk: Chunk


class Done(NamedTuple):
    """What came of it: what differs here, or the rows, what is left of a pack, and which folders are others here."""

    differs: Optional[str]
    pieces: List[Piece]
    left: Chunk
    others: Chunk = ()


def main() -> None:
    """Does what is given, once."""
    limit_memory()
    given = pickle.load(sys.stdin.buffer)
    differs = difference(given.options.program, given.alike)
    done = Done(differs, [], ()) if differs else _worked(given)
    sys.stdout.buffer.write(pickle.dumps(done))


def _worked(given: Given) -> Done:
    parent = os.getppid()

    def beat() -> None:
        if os.getppid() != parent:
            sys.exit(1)  # nobody waits for it any more
    worker = Worker(given.options, lambda hashes: set(), beat, MAX_MEMBERS, elsewhere=True)
    try:
        pieces = [piece for piece in worker.pieces(given.chunk) if piece[0]]
        return Done(None, pieces, worker.left, tuple(worker.others))
    finally:
        worker.close()


def alike(program_hash: bytes, roots: List[bytes]) -> Alike:
    """What has to be the same, as it is here. Folders that aren't here are left out."""
    return Alike(program_hash, _hash_of_package(), tuple(_numbered(roots)))


def _numbered(roots: List[bytes]) -> Iterator[Tuple[bytes, int]]:
    for root in roots:
        try:
            yield root, os.stat(root).st_ino
        except OSError:
            continue


def difference(program: str, expected: Alike) -> Optional[str]:
    """What is another thing here, or isn't here; None where all is the same."""
    try:
        if _hash_of_file(program) != expected.program:
            return f"{program} is another program there"
    except OSError as error:
        return f"{program}: {reason(error)}"
    if _hash_of_package() != expected.package:
        return f"{os.path.join(FOLDER, PACKAGES[-1])} is another version there"
    for root, number in expected.roots:
        try:
            if os.stat(root).st_ino != number:
                return f"{os.fsdecode(root)} is another folder there"
        except OSError as error:
            return f"{os.fsdecode(root)}: {reason(error)}"
    return None


def _hash_of_file(path: str) -> bytes:
    hashed = hashlib.sha256()
    with open(path, "rb") as file:
        for piece in iter(lambda: file.read(PIECE), b""):
            hashed.update(piece)
    return hashed.digest()


def _hash_of_package() -> bytes:
    """The hash of all sources of the tool and of the module, by their names."""
    hashed = hashlib.sha256()
    for package in PACKAGES:
        for folder, below, names in os.walk(os.path.join(FOLDER, package)):
            below.sort()
            for name in sorted(names):
                if name.endswith(".py"):
                    path = os.path.join(folder, name)
                    hashed.update(os.fsencode(os.path.relpath(path, FOLDER)) + b"\0" + _hash_of_file(path))
    return hashed.digest()


WORDS = interpreter("naplps_pages.collection.cluster")
# The number of chunks that are out at a time.
MAX_IN_FLIGHT = 64
# How long is waited for the scheduler; for a first worker; for a result; and for the end, in seconds.
CONNECT, JOIN, FETCH, END = 10, 30, 5, 3
# After so long without a result it is looked whether there are workers.
SILENCE = 20.0


class ClusterLost(ClusterFailed):
    """The scheduler isn't there any more."""


def address_of(where: str) -> str:
    """The address of a scheduler, that is given as such or by the file that it wrote. Raises ClusterFailed."""
    if not os.path.lexists(where) and ":" in where:
        return where
    try:
        with open(where, "rb") as file:
            return str(json.load(file)["address"])
    except OSError as error:
        raise ClusterFailed(f"{shown(where)}: {reason(error)}") from None
    except (ValueError, KeyError, TypeError):
        raise ClusterFailed(messages.NO_SCHEDULER_FILE.format(path=shown(where))) from None


def _distributed() -> Any:
    """The library, which nothing else of this tool needs. Raises ClusterFailed."""
    if sys.flags.no_site:  # as the launcher begins
        site.main()
    try:
        library = importlib.import_module("distributed")
    except ImportError:
        raise ClusterFailed(messages.NO_DISTRIBUTED.format(python=sys.executable)) from None
    logging.disable(logging.CRITICAL)  # (what matters is told here)
    return library


class Cluster(Workers):
    """The workers of a scheduler. Raises ClusterFailed, also where a worker has another program or package."""

    # (each task costs its scheduler time)
    max_files, max_names = 2000, 256 << 10

    def __init__(self, where: str, options: WorkerOptions, alike: Alike) -> None:
        super().__init__()
        library = _distributed()
        self.options, self.alike = options, alike
        self.address = address_of(where)
        try:
            self.client = library.Client(self.address, timeout=CONNECT, set_as_default=False, name="naplps-pages")
        except (OSError, ValueError, TypeError) as error:
            raise ClusterFailed(messages.NO_SCHEDULER.format(address=self.address, reason=_first_line(error))) from None
        self.sent: Dict[Any, Task] = {}
        self.done: "SimpleQueue[Any]" = SimpleQueue()
        self.watch = Watch(self.client)
        self.named: Set[str] = set()
        self.received_at = time.monotonic()
        try:
            self._check()
        except BaseException:
            self.close()
            raise

    def _check(self) -> None:
        """Compares what has to be the same, on each worker. Raises ClusterFailed."""
        try:
            self.client.wait_for_workers(1, timeout=JOIN)
            result = answers(self.watch, WORDS, self._input(()), self._look_before)
        except ClusterFailed:
            raise
        except Exception as error:  # pylint: disable=broad-except
            raise ClusterFailed(messages.WORKERS_FAILED.format(
                address=self.address, reason=_first_line(error))) from None
        if not result:
            raise ClusterFailed(messages.NO_WORKER_ANSWERS.format(address=self.address))
        faults = [f"{worker}: {fault}" for worker, fault in sorted(
            (worker, _fault(each)) for worker, each in result.items()) if fault]
        if faults:
            raise ClusterFailed("; ".join(faults))

    def _input(self, chunk: Chunk) -> Dict[str, Any]:
        return {"input": pickle.dumps(Given(self.options, self.alike, chunk)), "capture_output": True,
                "start_new_session": True}

    def set_options(self, options: WorkerOptions) -> None:
        """Asks of the workers what the store keeps to."""
        self.options = options

    def is_busy(self) -> bool:
        """Whether a task is out."""
        return bool(self.sent)

    def has_room(self) -> bool:
        """Whether another task should be out."""
        return len(self.sent) < MAX_IN_FLIGHT

    def receive(self, seconds: float) -> Iterator[Optional[RowBlock]]:
        """What came of a task, or nothing where none is done in that time. What a silent worker has is sent to others.
        """
        self._look_after()
        try:
            future = self.done.get(timeout=seconds if self.sent and seconds else 0.001)
        except Empty:
            self._wait()
            yield None
        else:
            yield from self._take(future)

    def _look(self) -> None:
        """Raises ClusterLost where the scheduler has gone."""
        if self.client.status != "running":
            raise ClusterLost(messages.SCHEDULER_GONE.format(address=self.address))

    def _wait(self) -> None:
        """Tells, once, that nothing comes since there are no workers."""
        self._look()
        if time.monotonic() - self.received_at < SILENCE:
            return
        self.received_at = time.monotonic()
        try:
            workers = self.client.scheduler_info()["workers"]
        except Exception:  # pylint: disable=broad-except
            return  # it is about to go
        if not workers:
            tell(messages.NO_WORKERS_LEFT.format(address=self.address))
            self.received_at = math.inf

    def _look_before(self) -> None:
        """Names the workers that are silent before anything is given out. Raises ClusterLost."""
        self._look()
        self.watch.look()
        self._name_silent(messages.GETS_NOTHING)

    def _name_silent(self, what: str) -> None:
        while self.watch.found:
            worker = self.watch.found.pop()
            tell(messages.SILENT_WORKER.format(worker=worker, seconds=SILENT, what=what))

    def send(self, task: Task) -> None:
        """Sends a chunk to one of its workers, or to any that isn't silent."""
        workers = task.workers or (self.watch.live if self.watch.silent else frozenset())
        only = {"workers": sorted(workers)} if workers else {}
        future = self.client.submit(subprocess.run, WORDS, **self._input(task.chunk), pure=False, **only)
        self.sent[future] = task._replace(workers=workers)
        future.add_done_callback(self.done.put)

    def _look_after(self) -> None:
        """Gives what a worker has that is silent, or has gone, to others. It is named."""
        if not self.watch.look():
            return
        self._name_silent(messages.GIVEN_TO_OTHERS)
        for worker in self.watch.silent:  # (the scheduler may still give it what it took from another)
            self._send_again(self.watch.keys_of(worker))
        gone = [future for future, task in self.sent.items() if task.workers and not task.workers & self.watch.live]
        self._send_again({future.key for future in gone})

    def _send_again(self, keys: Set[str]) -> None:
        for future in [each for each in self.sent if each.key in keys]:
            self.retry.append(self.sent.pop(future)._replace(workers=frozenset()))
            future.cancel()

    def _take(self, future: Any) -> Iterator[RowBlock]:
        """What came of a task."""
        self._look()
        if future not in self.sent:
            return  # it was given to another
        self.received_at = time.monotonic()
        if future.status not in ("finished", "error"):
            future.add_done_callback(self.done.put)  # its worker ended; the scheduler gives it to another
            return
        try:
            result = future.exception(FETCH) if future.status == "error" else future.result(FETCH)
        except Exception:  # pylint: disable=broad-except
            self._look()
            future.add_done_callback(self.done.put)
            return
        task = self.sent.pop(future)
        done = _done(result)
        if done is None:
            future.release()
            yield from self._lose(task.chunk, f"the process that looked at it {_failure(result)}")
            return
        yield from map(block_of, self._read(future, task, done))
        future.release()

    def _read(self, future: Any, task: Task, done: Done) -> Iterator[Piece]:
        """What a worker has read. What it couldn't read another is asked for, if there is one."""
        others = next(filter(is_here, done.others), None)
        if done.differs or others:
            worker = self.watch.worker_of(future) or messages.A_WORKER.format(address=self.address)
            differs = done.differs or messages.OTHER_FOLDER.format(path=shown(os.fsdecode(cast(Any, others).path)))
            raise ClusterFailed(f"{worker}: {differs}")
        if done.left:
            self.retry.append(Task(done.left))
        unread = UnreadFiles(task.chunk, done.pieces)
        if not unread:
            yield from done.pieces
            return
        worker = self.watch.worker_of(future)
        tried = task.tried | {worker}
        left = self.watch.now() - tried
        if worker and worker not in self.named:
            self.named.add(worker)
            tell(messages.UNREAD_BUT_ASKED.format(worker=worker) if left else messages.UNREAD_BY.format(worker=worker))
        if left and worker:
            self.retry.append(Task(unread.chunk, tried, left))
            yield from unread.others
        else:
            yield from unread.final

    def _lose(self, chunk: Chunk, why: str) -> Iterator[RowBlock]:
        """Asks again for a chunk that ended its process, in halves."""
        if count(chunk) > 1:
            self.retry.extend(map(Task, halves(chunk)))
        else:
            yield from self.lost(chunk, why)

    def close(self) -> None:
        """Leaves the cluster. What its workers are at is forgotten."""
        self.sent.clear()
        try:
            self.client.close(timeout=END)
        except Exception:  # pylint: disable=broad-except
            pass  # nobody is there any more


def _done(result: Any) -> Optional[Done]:
    """What a process gave back; None where it failed."""
    if not isinstance(result, subprocess.CompletedProcess) or result.returncode:
        return None
    return cast(Done, pickle.loads(result.stdout))


def _fault(result: Any) -> Optional[str]:
    """Why a worker can't be used."""
    done = _done(result)
    return done.differs if done else f"naplps-pages {_failure(result)}"


def _failure(result: Any) -> str:
    """How a process failed."""
    if isinstance(result, subprocess.CompletedProcess):
        lines: List[str] = result.stderr.decode("utf-8", "replace").strip().split("\n")
        return "ended %s%s" % (ending(result.returncode), ": " + lines[-1] if lines[-1] else "")
    return f"failed: {_first_line(result)}"


def _first_line(error: object) -> str:
    line = str(error).strip().split("\n")[0]
    return f"{type(error).__name__}: {line}" if line else type(error).__name__
