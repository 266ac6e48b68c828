"""What answers: the library where it is, else the program."""
import atexit
import ctypes
import os
import sys
import tempfile
import threading
import weakref
from contextlib import contextmanager
from typing import Any, Callable, Iterator, List, NamedTuple, Optional, Protocol, Tuple, Union

from . import faults
from .answers import MEMORY, Accepted, Answer, Finds, NotAnswered, Refusal, Unanswered, WrongLine, read_finds
from .client import Client, find, library
from .faults import NoMemory, NoProgram, NotMade, Refused, Unavailable, WrongLibrary
from .limits import MOST_PAGE, Limits

Data = Union[bytes, bytearray, memoryview]
WHOLE = slice(None)


class Backend(NamedTuple):
    """What answers: its kind, "library" or "program", and its path."""

    kind: str
    path: str


class Reply(NamedTuple):
    """What came of a page: the number of its entries, where that was asked; the text; and the refusal, if it is one."""

    entries: int
    text: bytes
    refused: Optional[Refused] = None


class Pieces(Protocol):
    """A page that comes in pieces."""

    def feed(self, piece: Data) -> Reply:
        """Takes the next piece; a refusal that is reported is that of the whole page. Raises NoMemory."""
        ...

    def finish(self) -> Reply:
        """What comes of all pieces. Raises NoMemory, NoAnswer."""
        ...


class Answerer(Protocol):
    """What is asked. Its calls are check, list, canon, canon_form1 and places. It may be asked by several threads."""

    backend: Backend

    def answer(self, call: str, page: Data, budget: int) -> Reply:
        """What comes of a page. Raises NoMemory, NoAnswer, NeedsLibrary."""
        ...

    def is_plain(self, page: Data) -> bool:
        """Whether a page is plain. Raises NeedsLibrary."""
        ...

    def make(self, lines: bytes) -> bytes:
        """The page that lines make, each of which has its end. Raises NotMade, NoMemory, NoAnswer."""
        ...

    def find(self, data: Data, least: int) -> Finds:
        """The pages among at most 16 MiB of bytes. Raises NoMemory, NoAnswer."""
        ...

    def begin(self, budget: int, lock: threading.Lock) -> Pieces:
        """A page that comes in pieces, and is checked. Whoever calls its methods holds the lock. Raises NoMemory."""
        ...


def taken(data: Data) -> Data:
    """The data, without what a class of the caller's own says of their length or their bytes. Raises TypeError for what
    is no bytes, bytearray or memoryview.
    """
    if type(data) in (bytes, bytearray, memoryview):
        return data
    if isinstance(data, bytes):
        return bytes.__getitem__(data, WHOLE)
    if isinstance(data, bytearray):
        return bytearray.__getitem__(data, WHOLE)
    raise TypeError(f"a page is bytes, bytearray or memoryview, not {type(data).__name__}")


SONAME = "libnaplps.so.0"
ACCEPTED, REFUSED, SMALL_ROOM, NO_BUDGET = range(4)
# Why lines make no page, by the numbers of naplps.h, as the program tells it.
LINE_FAULTS = {1: "no line of a list", 2: "can't come here", 3: "the definition of line {opening} isn't ended"}
WANT_OF_MEMORY = 4
TEXTS = ("list", "canon", "canon_form1", "places")
# The room that most texts find place in; it is asked again with what another one needs.
FIRST = 1 << 16
_First = ctypes.c_char * FIRST


class AnswerStruct(ctypes.Structure):
    """struct naplps_answer of naplps.h."""

    _fields_ = [("status", ctypes.c_uint32), ("number", ctypes.c_uint32), ("place", ctypes.c_uint64),
                ("length", ctypes.c_uint64), ("name", ctypes.c_char * 32)]


class MadeStruct(ctypes.Structure):
    """struct naplps_made of naplps.h."""

    _fields_ = [("status", ctypes.c_uint32), ("fault", ctypes.c_uint32), ("line", ctypes.c_uint64),
                ("column", ctypes.c_uint64), ("opening", ctypes.c_uint64), ("length", ctypes.c_uint64),
                ("count", ctypes.c_uint64)]


class CheckingStruct(ctypes.Structure):
    """struct naplps_checking of naplps.h."""

    _fields_ = [("at", ctypes.c_void_p)]


PAGE = ROOM = (ctypes.c_void_p, ctypes.c_size_t)
BEGUN = ctypes.POINTER(CheckingStruct)


def _lent(page: Data) -> Tuple[object, int]:
    """A pointer to the bytes and their number. Only what can't be written, or isn't in one piece, is copied for it."""
    if isinstance(page, memoryview) and (page.readonly or not page.c_contiguous):
        page = page.tobytes()
    if isinstance(page, bytes):
        return page, bytes.__len__(page)
    view = memoryview(page)  # (while there is one, no thread can make a bytearray shorter)
    return ctypes.byref(ctypes.c_char.from_buffer(view)) if view.nbytes else None, view.nbytes


class LibraryBackend:
    """The library at a path. Raises OSError and WrongLibrary."""

    def __init__(self, path: str) -> None:
        self.backend = Backend("library", path)
        self._library = ctypes.CDLL(path)
        self._is_plain = self._function("is_plain", ctypes.c_bool, *PAGE)
        self._check = self._function("check", AnswerStruct, ctypes.c_uint32, *PAGE)
        self._texts = {name: self._function(name, AnswerStruct, ctypes.c_uint32, *PAGE, *ROOM) for name in TEXTS}
        # (a library before 0.3 has no make, one before 0.5 no find; it answers all else)
        self._make: Optional[Callable[..., Any]] = None
        self._find: Optional[Callable[..., Any]] = None
        self._begin = self._function("check_begin", AnswerStruct, BEGUN, ctypes.c_uint32)
        self._feed = self._function("check_feed", AnswerStruct, BEGUN, *PAGE)
        self._finish = self._function("check_finish", AnswerStruct, BEGUN)
        self._drop = self._function("check_drop", None, BEGUN)

    def _function(self, name: str, answer: Optional[type], *arguments: type) -> Callable[..., Any]:
        """A function of the library. Raises WrongLibrary where it isn't there."""
        try:
            function = getattr(self._library, "naplps_" + name)
        except AttributeError as error:
            raise self._wrong(str(error)) from None
        function.restype, function.argtypes = answer, arguments
        called: Callable[..., Any] = function
        return called

    def answer(self, call: str, page: Data, budget: int) -> Reply:
        """What comes of a page. Raises NoMemory."""
        if call == "check":
            answer: AnswerStruct = self._check(budget, *_lent(page))
            return self._reply(answer, answer.length, b"")
        return self._text(self._texts[call], page, budget)

    def _text(self, function: Callable[..., Any], page: Data, budget: int) -> Reply:
        """The text that a function gives of a page. Raises NoMemory."""
        lent, length = _lent(page)
        room, size = _First(), FIRST
        answer: AnswerStruct = function(budget, lent, length, room, size)
        while answer.status == SMALL_ROOM:
            size = answer.length
            room = self._room(size)
            answer = function(budget, lent, length, room, size)
        if answer.length > size:
            raise self._wrong("its answer is longer than its room")
        return self._reply(answer, 0, ctypes.string_at(room, answer.length))

    def find(self, data: Data, least: int) -> Finds:
        """The pages among some bytes. Raises NoMemory."""
        if self._find is None:
            self._find = self._function("find", AnswerStruct, ctypes.c_uint32, *PAGE, *ROOM)
        text = self._text(self._find, data, least).text
        try:
            return read_finds(text, memoryview(data).nbytes)
        except NotAnswered:
            raise self._wrong("its finds are none") from None

    def is_plain(self, page: Data) -> bool:
        """Whether a page is plain."""
        lent, length = _lent(page)
        return bool(self._is_plain(lent, length))

    def make(self, lines: bytes) -> bytes:
        """The page that lines make. Raises NotMade, NoMemory."""
        if self._make is None:
            self._make = self._function("make", MadeStruct, *PAGE, *ROOM)
        room, size = self._room(len(lines) + FIRST), len(lines) + FIRST
        made: MadeStruct = self._make(lines, len(lines), room, size)
        if made.status == SMALL_ROOM:
            size = made.length
            room = self._room(size)
            made = self._make(lines, len(lines), room, size)
        if made.status == ACCEPTED and made.length <= size:
            return ctypes.string_at(room, made.length)
        if made.status != REFUSED:
            raise self._wrong("its answer has the status %d" % made.status)
        if made.fault == WANT_OF_MEMORY:
            raise NoMemory("the library had no memory for it")
        reason = LINE_FAULTS.get(made.fault)
        if reason is None:
            raise self._wrong("its answer has the fault %d" % made.fault)
        raise NotMade(made.line, made.column or None, reason.replace("{opening}", str(made.opening)))

    def begin(self, budget: int, lock: threading.Lock) -> "LibraryPieces":
        """A page that comes in pieces, whose methods are called with the lock held. Raises NoMemory."""
        return LibraryPieces(self, budget, lock)

    def _reply(self, answer: AnswerStruct, entries: int, text: bytes) -> Reply:
        if answer.status == ACCEPTED:
            return Reply(entries, text)
        if answer.status != REFUSED:
            raise self._wrong("its answer has the status %d" % answer.status)
        refused = Refused(answer.number, answer.name.decode("ascii", "replace"), answer.place)
        if refused.number == MEMORY:
            raise NoMemory(f"the library had no memory for it ({refused})")
        return Reply(0, text, refused)

    @staticmethod
    def _room(size: int) -> "ctypes.Array[ctypes.c_char]":
        try:
            return ctypes.create_string_buffer(size)
        except (MemoryError, OverflowError, ValueError):
            raise NoMemory(f"there is no memory for an answer of {size} bytes") from None

    def _wrong(self, reason: str) -> WrongLibrary:
        return WrongLibrary(f"{self.backend.path} isn't the library of this version: {reason}")


class LibraryPieces:
    """A page that comes in pieces, of which the library keeps what it needs. It is given up where nothing names it.

    It isn't at the end of the process, when a thread may be in it yet.
    """

    def __init__(self, library: LibraryBackend, budget: int, lock: threading.Lock) -> None:
        self._library, self._checking = library, CheckingStruct()
        library._reply(library._begin(self._checking, budget), 0, b"")
        weakref.finalize(self, _drop, library._drop, self._checking, lock).atexit = False

    def feed(self, piece: Data) -> Reply:
        """Takes the next piece, and tells whether the page is refused so far. Raises NoMemory."""
        return self._library._reply(self._library._feed(self._checking, *_lent(piece)), 0, b"")

    def finish(self) -> Reply:
        """What comes of all pieces. Raises NoMemory."""
        answer: AnswerStruct = self._library._finish(self._checking)
        return self._library._reply(answer, answer.length, b"")


def _drop(drop: Callable[[CheckingStruct], None], checking: CheckingStruct, lock: threading.Lock) -> None:
    """Gives a page up. One that another thread was in when this process was forked is no whole one, and stays."""
    if lock.acquire(blocking=False):
        drop(checking)
        lock.release()


# The library has no such limits; a process that answers nothing for a day is ended.
UNLIMITED = Limits(seconds=86400.0, memory=sys.maxsize, answer=sys.maxsize)
CALLS = ("check", "list", "canon", "places")


class ProgramBackend:
    """The program at a path."""

    def __init__(self, path: str) -> None:
        self.backend = Backend("program", path)
        self._forget()
        atexit.register(self.close)
        os.register_at_fork(after_in_child=self._forget)

    def _forget(self) -> None:
        """Begins with no process: those that were started are another process's."""
        self._lock = threading.Lock()
        self._idle: List[Client] = []

    def answer(self, call: str, page: Data, budget: int) -> Reply:
        """What comes of a page. Raises NoMemory, NoAnswer, NeedsLibrary."""
        if call not in CALLS:
            raise self._needs_library(call)
        data = bytes(page)
        if len(data) > MOST_PAGE and call == "places":
            raise faults.NeedsLibrary("a page above 16 MiB has no places without the library")
        with self._client() as client:
            client.budget = budget
            return _reply(client.ask(call, data) if len(data) <= MOST_PAGE else _ask_file(client, call, data))

    def make(self, lines: bytes) -> bytes:
        """The page that lines make. Raises NotMade, NoMemory, NoAnswer."""
        with self._client() as client:
            answer = client.make(lines)
        if isinstance(answer, WrongLine):
            raise faults.NotMade(answer.number, answer.column, answer.reason)
        return _reply(answer).text

    def find(self, data: Data, least: int) -> Finds:
        """The pages among at most 16 MiB of bytes. Raises NoMemory, NoAnswer."""
        with self._client() as client:
            answer = client.find(bytes(data), least)
        if isinstance(answer, Unanswered):
            raise error_of(answer)
        return answer

    @contextmanager
    def _client(self) -> Iterator[Client]:
        """A client that answers nobody else meanwhile."""
        with self._lock:
            client = self._idle.pop() if self._idle else Client(self.backend.path, limits=UNLIMITED)
        try:
            yield client
        finally:
            with self._lock:
                self._idle.append(client)

    def is_plain(self, page: Data) -> bool:
        """Raises NeedsLibrary."""
        raise self._needs_library("is_plain")

    def begin(self, budget: int, lock: threading.Lock) -> "ProgramPieces":
        """A page that comes in pieces."""
        return ProgramPieces(self, budget)

    def _needs_library(self, call: str) -> faults.NeedsLibrary:
        return faults.NeedsLibrary(f"{call} is no request of {self.backend.path}: it takes the library {SONAME}")

    def close(self) -> None:
        """Ends the processes that answer nothing at the moment."""
        with self._lock:
            for client in self._idle:
                client.close()


def _ask_file(client: Client, call: str, data: bytes) -> Answer:
    """The answer for a page that is no request of `batch`."""
    with tempfile.TemporaryFile() as file:
        file.write(data)
        file.flush()
        return client.ask_file(call, file)


def _reply(answer: Answer) -> Reply:
    if isinstance(answer, Accepted):
        return Reply(answer.entries, answer.body)
    if isinstance(answer, Refusal):
        return Reply(0, answer.body, faults.Refused(answer.number, answer.name, answer.place))
    raise error_of(answer)


def error_of(answer: Unanswered) -> faults.Error:
    """What is raised where the program gave no answer."""
    return faults.NoMemory(answer.reason) if answer.too_much else faults.NoAnswer(answer.reason)


class ProgramPieces:
    """A page that comes in pieces, which are kept until its end, since `batch` takes it whole."""

    def __init__(self, program: ProgramBackend, budget: int) -> None:
        self._program, self._budget, self._bytes = program, budget, bytearray()

    def feed(self, piece: Data) -> Reply:
        """Takes the next piece, and tells nothing of it. Raises NoMemory."""
        try:
            self._bytes += bytes(piece)
        except MemoryError:
            raise faults.NoMemory("there is no memory for a piece of a page") from None
        return Reply(0, b"")

    def finish(self) -> Reply:
        """What comes of all pieces. Raises NoMemory and NoAnswer."""
        return self._program.answer("check", self._bytes, self._budget)


# The folder in which this package stands.
FOLDER = os.path.dirname(os.path.dirname(os.path.realpath(__file__)))
_found: Optional[Answerer] = None


def found() -> Answerer:
    """What answers. Raises Unavailable, and then looks again the next time."""
    global _found
    answers = _found
    if answers is None:
        answers = _found = look()  # (of two threads that look at once, each finds one that answers)
    return answers


def look() -> Answerer:
    """Looks for the library, and then for the program. Raises Unavailable."""
    named = os.environ.get("NAPLPS_LIBRARY")
    if named:
        path = os.path.abspath(os.path.join(named, SONAME) if os.path.isdir(named) else named)
        if not os.path.isfile(path):
            raise Unavailable(f"NAPLPS_LIBRARY names no library, nor a folder with {SONAME}: {named}")
        return _loaded(path)
    found_library = _library() if named is None else None
    if found_library is not None:
        return found_library
    try:
        return ProgramBackend(find(_command()))
    except NoProgram as error:
        missing = f"{SONAME} isn't there" if named is None else "NAPLPS_LIBRARY is empty"
        raise Unavailable(f"there is neither the library nor the program: {missing}, and {error}") from None


def _library() -> Optional[LibraryBackend]:
    """The library: under the same prefix, that of the sources, or the system's. The loader isn't asked for it, since
    LD_LIBRARY_PATH may name any folder."""
    top = os.path.dirname(FOLDER)
    for path in (os.path.join(top, SONAME), os.path.join(top, "out", SONAME)):
        if os.path.isfile(path):
            return _loaded(path)
    found = library(SONAME)
    return None if found is None else _loaded(found)


def _loaded(path: str) -> LibraryBackend:
    try:
        return LibraryBackend(path)
    except OSError as error:
        raise WrongLibrary(f"the library can't be loaded: {error}") from None


def _command() -> str:
    """Where naplps-pages is, beside which the program may be: in the sources, or under a prefix."""
    inner = os.path.join(os.path.dirname(FOLDER), "pages", "naplps-pages")
    installed = os.path.join(os.path.dirname(os.path.dirname(FOLDER)), "bin", "naplps-pages")
    return installed if os.path.isfile(installed) and not os.path.isfile(inner) else inner
