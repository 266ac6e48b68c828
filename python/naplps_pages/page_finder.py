"""Pages inside bytes of any kind, as the program finds them; and how much of the bytes around each may be its text."""
import re
from typing import TYPE_CHECKING, Callable, Iterator, NamedTuple, Union

from naplps.answers import Answer, FindAnswer, Finds
from naplps.finds import LEAST_ENTRIES, finds_in
from naplps.treating import LEADING_ON

if TYPE_CHECKING:
    from naplps.client import Client
    from .box.box_worker import AskedOnce

# So many bytes before a page may be text of it; and a page that isn't told yet begins at most so many before the last
# byte that was read.
MOST_BEFORE, MOST_OPEN = 4096, 1 << 20
PRINTED = re.compile(rb"[\x21-\x7e]")


class CarvedPage(NamedTuple):
    """A page in a source: its bytes, where they are, at least and at most how many of them it has, and its answer."""

    offset: int
    data: bytes
    least_end: int
    most_begin: int
    answer: Answer

    @property
    def end(self) -> int:
        """Where it ends at most."""
        return self.offset + len(self.data)


class _Stopped(Exception):
    """The search was stopped."""


class PageFinder:
    """Goes through a source. `at` is how far it has come, `skipped` how many beginnings of pages weren't tried; `beat`
    may stop it."""

    def __init__(self, program: "Union[Client, AskedOnce]", least: int = LEAST_ENTRIES,
                 beat: Callable[[int], bool] = lambda at: False) -> None:
        self.program, self.least, self.beat = program, least, beat
        self.at = self.skipped = 0
        self.stopped = False
        # (the last bytes that were read, and the offset of the first of them)
        self._held, self._base = b"", 0
        # (from which offset on later bytes may change what is found)
        self._open = 0

    def find(self, read: Callable[[int], bytes], begin: int = 0) -> Iterator[CarvedPage]:
        """The pages of what is read, from an offset on. Raises NoAnswer, NoMemory."""
        self.at = self._base = self._open = begin

        def piece(number: int) -> bytes:
            self._go_to(self._open)
            left = max(0, len(self._held) - MOST_OPEN - MOST_BEFORE)
            more = read(number)
            self._base, self._held = self._base + left, self._held[left:] + more
            return more
        finds = finds_in(piece, self.least, begin, self._ask)
        end = begin
        try:
            while True:
                found = next(finds)
                yield self._page(found.begin, found.end, end)
                end = found.end
                self._go_to(end)
        except _Stopped:
            self.stopped = True
        except StopIteration as ended:
            self.skipped = ended.value.passed

    def _go_to(self, at: int) -> None:
        """Tells how far it has come. Raises _Stopped."""
        self.at = max(self.at, at)
        if self.beat(self.at):
            raise _Stopped

    def _ask(self, data: bytes, least: int) -> FindAnswer:
        """What is found in the last bytes of those that are held."""
        answer = self.program.find(data, least)
        if isinstance(answer, Finds):
            self._open = self._base + len(self._held) - len(data) + answer.open
        return answer

    def _page(self, begin: int, end: int, before: int) -> CarvedPage:
        """The page from an offset to another; the one before it ends at a third."""
        data = self._held[begin - self._base:end - self._base]
        first = max(before, begin - MOST_BEFORE, self._base)
        most_begin = begin - _text_at_end(self._held[first - self._base:begin - self._base])
        return CarvedPage(begin, data, begin + _least_length(data), most_begin, self.program.ask("check", data))


def _least_length(data: bytes) -> int:
    """How many bytes are the page's at least: the text at its end may be something else's."""
    last = max(data.rfind(code) for code in LEADING_ON)
    shift = data.find(b"\x0f", last + 1)
    return shift + 1 if shift >= 0 and PRINTED.search(data, shift + 1) else len(data)


def _text_at_end(data: bytes) -> int:
    """How many bytes at the end of these are text, if some are printed."""
    at = len(data)
    while at > 0 and (0x07 <= data[at - 1] <= 0x0F or 0x20 <= data[at - 1] < 0x80):
        at -= 1
    return len(data) - at if PRINTED.search(data, at) else 0
