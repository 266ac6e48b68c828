"""Tells a terminal how far a scan is, in a line that is written over; and keeps the signal that asks it to stop, until
it can stop in order.
"""
import os
import signal
import sqlite3
import threading
import time
from contextlib import contextmanager
from types import FrameType, TracebackType
from typing import Any, Callable, Dict, Iterable, Iterator, Optional, TextIO, Type, TypeVar

from ..console import tell
from ..packs import is_pack
from .kept import Part, below
from .query_bounds import STEPS_BETWEEN, watch

SIGNALS = (signal.SIGINT, signal.SIGTERM, signal.SIGHUP)


class Stopping:
    """Keeps the first signal; a second one acts at once. At the end the first acts, as it would have before."""

    def __init__(self) -> None:
        self.number: Optional[int] = None
        self.before: Dict[signal.Signals, Any] = {}

    def __enter__(self) -> "Stopping":
        for each in SIGNALS:
            handler = signal.getsignal(each)
            if handler not in (signal.SIG_IGN, None):  # (as under nohup)
                self.before[each] = handler
                signal.signal(each, self._keep)
        return self

    def _keep(self, number: int, _: Optional[FrameType]) -> None:
        self.number = number
        self._restore()

    def _restore(self) -> None:
        for each, handler in self.before.items():
            signal.signal(each, handler)

    def __exit__(self, kind: Optional[Type[BaseException]], error: Optional[BaseException],
                 trace: Optional[TracebackType]) -> None:
        self._restore()

    @contextmanager
    def ends(self, connection: sqlite3.Connection) -> Iterator[None]:
        """Lets a signal end what SQLite does inside, with sqlite3.OperationalError."""
        connection.set_progress_handler(lambda: self.number is not None, STEPS_BETWEEN)
        try:
            yield
        finally:
            watch(connection)

    def act(self) -> None:
        """Lets the signal act that was kept, if one was."""
        if self.number is not None:
            os.kill(os.getpid(), self.number)


# Between two lines, in seconds.
OFTEN = 0.25
# The rate is that of about this number of seconds.
SPAN = 10.0
# Between two looks at the clock, in rows.
PASSED = 4096
CLEAR = "\r\x1b[K"
Row = TypeVar("Row")


class Counting(threading.Thread):
    """Counts the files of folders beside a scan, so that the time that is left can be told."""

    def __init__(self, roots: Iterable[bytes], part: Optional[Part] = None) -> None:
        super().__init__(daemon=True)
        self.roots, self.part = list(roots), part
        self.total: Optional[int] = None

    def run(self) -> None:
        """Counts, if there are no packs: nobody knows how many files these have."""
        numbers = [_count(root, self.part) for root in self.roots]
        self.total = None if None in numbers else sum(number or 0 for number in numbers)


def _count(root: bytes, part: Optional[Part]) -> Optional[int]:
    from .search import NOTHING, walk  # (only a scan counts)
    files = 0
    if is_pack(root) and not os.path.isdir(root):
        return None
    if os.path.isfile(root):
        return 1
    for listing in walk(root, NOTHING):
        if listing.packs:
            return None
        files += len(part.names(below(root, listing.path), listing.names) if part else listing.names)
    return files


class Progress:
    """Tells a terminal of files that are done, or of others. `total` gives how many there are, once that is known."""

    def __init__(self, stream: Optional[TextIO], total: Callable[[], Optional[int]] = lambda: None,
                 clock: Callable[[], float] = time.monotonic, what: str = "files") -> None:
        self.stream, self.total, self.clock, self.what = stream, total, clock, what
        self.terminal = stream is not None and stream.isatty()
        self.last = self.began = clock()
        self.done = self.passed = 0
        self.rate = 0.0
        self.shown = False

    def show(self, done: int) -> None:
        """Tells that a number of files are done, if it is time to."""
        now = self.clock()
        past = now - self.last
        if self.stream is None or not self.terminal or past < OFTEN:
            return
        weight = min(1.0, max(past / SPAN, past / (now - self.began)))
        self.rate += ((done - self.done) / past - self.rate) * weight
        self.last, self.done = now, done
        self._write(CLEAR + self._line()[:_width(self.stream) - 1])
        self.shown = True

    def _line(self) -> str:
        total = self.total()
        line = "{:,}{} {}, {:,} a second".format(
            self.done, " of {:,}".format(total) if total else "", self.what, round(self.rate))
        if total and self.rate > 0 and total >= self.done:
            line += f", {duration((total - self.done) / self.rate)} left"
        return line

    def _write(self, text: str) -> None:
        assert self.stream
        try:
            self.stream.write(text)
            self.stream.flush()
        except OSError:
            self.stream = None  # there is nobody left to tell

    def through(self, rows: Iterable[Row]) -> Iterator[Row]:
        """The rows, each of which is done once the next is asked for; after those that came through before."""
        for row in rows:
            yield row
            self.passed += 1
            if self.passed % PASSED == 0:
                self.show(self.passed)

    def clear(self) -> None:
        """Takes the line away, so that others can be written."""
        if self.shown and self.stream is not None:
            self._write(CLEAR)
            self.shown = False

    def tell(self, text: str) -> None:
        """A line that stays."""
        self.clear()
        tell(text)


def _width(stream: TextIO) -> int:
    try:
        return os.get_terminal_size(stream.fileno()).columns or 80
    except (OSError, ValueError):
        return 80


def duration(seconds: float) -> str:
    """A time for people."""
    whole = int(seconds + 0.5)
    if whole < 60:
        return f"{whole} s"
    if whole < 3600:
        return "%d min %02d s" % divmod(whole, 60)
    return "%d h %02d min" % divmod(whole // 60, 60)
