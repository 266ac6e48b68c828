"""Signals that end the tool: they end its processes too, those too that have only just begun."""
import signal
import sys
from contextlib import contextmanager
from types import FrameType
from typing import TYPE_CHECKING, Iterator, Optional, Protocol, Set

if TYPE_CHECKING:
    from sys import UnraisableHookArgs

SIGNALS = (signal.SIGINT, signal.SIGTERM, signal.SIGHUP)


class Ends(Protocol):
    """A running process."""

    def end(self) -> None:
        """Ends it."""


class Stopped(BaseException):
    """A signal, by its number, asks the tool to end."""


class Ending:
    """The running processes, where signals are watched. A signal that comes while one starts waits for that."""

    def __init__(self) -> None:
        self.processes: Set[Ends] = set()
        self.is_watched = self.is_starting = False
        self.late: Optional[int] = None
        self.number: Optional[int] = None

    def watch(self) -> None:
        """Has signals raise Stopped in the main thread, but for those that are ignored, as under nohup."""
        self.is_watched = True
        sys.unraisablehook = self._take_ignored
        for number in SIGNALS:
            if signal.getsignal(number) is not signal.SIG_IGN:
                signal.signal(number, self._stop)

    def forget(self) -> None:
        """Has signals do what they do by default again, since Python's own end is no place for an exception."""
        for number in SIGNALS:
            if signal.getsignal(number) == self._stop:
                signal.signal(number, signal.SIG_DFL)

    def _take_ignored(self, ignored: "UnraisableHookArgs") -> None:
        """Has a signal come again that came amid a callback, as of an object that goes: Python ignores it there."""
        if isinstance(ignored.exc_value, Stopped):
            number = ignored.exc_value.args[0]
            signal.signal(signal.SIGALRM, lambda *_: self._stop(number, None))
            signal.setitimer(signal.ITIMER_REAL, 0.001)
        elif not issubclass(ignored.exc_type, MemoryError):  # (whoever lacks memory next says so)
            sys.__unraisablehook__(ignored)

    def is_asked_for(self) -> bool:
        """Whether a signal has come, also one that came amid a callback of a library, in which Stopped is lost."""
        return self.number is not None

    def act(self) -> None:
        """Raises Stopped where a signal has come."""
        if self.number is not None:
            raise Stopped(self.number)

    def _stop(self, number: int, _: Optional[FrameType]) -> None:
        self.number = number
        if not self.is_starting:
            raise Stopped(number)
        self.late = number

    @contextmanager
    def starting(self, process: Ends) -> Iterator[None]:
        """Starts a process inside, and keeps it where signals are watched. Raises Stopped where one came meanwhile."""
        import threading  # (which commands that start no process needn't wait for)
        is_held = self.is_watched and threading.current_thread() is threading.main_thread()
        if is_held:
            self.is_starting = True
        try:
            yield
            if self.is_watched:
                self.processes.add(process)
        finally:
            if is_held:
                self.is_starting = False
                number, self.late = self.late, None
                if number is not None:
                    raise Stopped(number)

    def end_all(self) -> None:
        """Ends all running processes; no other signal comes between."""
        for number in SIGNALS:
            signal.signal(number, signal.SIG_IGN)
        for process in tuple(self.processes):
            process.end()


ENDING = Ending()
