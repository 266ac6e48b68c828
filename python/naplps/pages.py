"""The functions on a page, and a page that comes in pieces."""
import contextlib
import threading
from typing import Iterable, Iterator, List, NamedTuple, Optional, Tuple, Union, get_args

from . import drawing
from .answers import Accepted, Answer, Refusal
from .backends import Backend, Data, Pieces, Reply, found, taken
from .entry import Entry, placed, read_line
from .faults import NoAnswer, NotALine, Refused
from .limits import MOST_LISTED, USUAL_BUDGET, budget_of
from .screen_text import text_lines
from .treating.treatments import Cure, find


class Checker:
    """Counts the entries of a page that comes in pieces, which may be of any lengths.

        checker = naplps.Checker()
        for piece in pieces:
            checker.feed(piece)
        print(checker.finish())

    Over the library none of the bytes is kept; over the program all are, until `finish`. Threads may use it one after
    another: a call raises RuntimeError, and does nothing else, while another thread is in one.
    """

    def __init__(self, budget: int = USUAL_BUDGET) -> None:
        self._lock = threading.Lock()
        self._pieces: Optional[Pieces] = found().begin(budget_of(budget), self._lock)

    def feed(self, data: Data) -> None:
        """Takes the next piece. Raises Refused as soon as the page is refused; over the program, only `finish` does.

        After a refusal it raises it again. Raises ValueError after the end.
        """
        piece = taken(data)
        with self._alone():
            _entries_of(self._begun().feed(piece))

    def finish(self) -> int:
        """How many entries the page has: what `check` answers to all pieces joined. Raises Refused.

        Raises ValueError after the end.
        """
        with self._alone():
            pieces, self._pieces = self._begun(), None
            return _entries_of(pieces.finish())

    @contextlib.contextmanager
    def _alone(self) -> Iterator[None]:
        """Keeps other threads out. Raises RuntimeError where one is in already: its piece has no place in an order."""
        if not self._lock.acquire(blocking=False):
            raise RuntimeError("another thread is in this Checker")
        try:
            yield
        finally:
            self._lock.release()

    def _begun(self) -> Pieces:
        if self._pieces is None:
            raise ValueError("the page has ended")
        return self._pieces


def _entries_of(reply: Reply) -> int:
    refused: Optional[Refused] = reply.refused
    if refused is not None:
        raise refused
    return reply.entries


LF = "\n"
ENTRY_CLASSES: Tuple[type, ...] = get_args(Entry)


def make(lines: Iterable[Union[str, Entry]]) -> bytes:
    """The canonical stream of these entries: each is one, or its line as `naplps list` prints it, without its end.

    Raises NotMade for lines that make none; TypeError for one text in place of its lines, which `splitlines` gives, and
    for a line that is neither a str nor an entry; and ValueError for a line with a line end in it.
    """
    if isinstance(lines, (str, bytes, bytearray, memoryview)):
        raise TypeError("the lines of a page are one by one, as text.splitlines() gives them")
    whole: List[str] = []
    for number, line in enumerate(lines, 1):
        if not isinstance(line, (str, *ENTRY_CLASSES)):
            raise TypeError(f"line {number} is no str and no entry, but {type(line).__name__}")
        text = str(line)
        if LF in text:
            raise ValueError(f"line {number} has a line end in it")
        whole.append(text + LF)
    # (a lone surrogate is no character of a line, whatever its bytes)
    return found().make("".join(whole).encode("utf-8", "surrogatepass"))


class Places(NamedTuple):
    """The entries of a page, each after its place, and why the page is refused, or None."""

    entries: List[Tuple[int, Entry]]
    refused: Optional[Refused]


def check(data: Data, budget: int = USUAL_BUDGET) -> int:
    """How many entries a page has. Raises Refused."""
    return _accepted("check", data, budget).entries


def entries(data: Data, budget: int = USUAL_BUDGET) -> List[Entry]:
    """The entries of a page, in their order. Raises Refused.

    A page of some bytes may have millions, which `check` tells.
    """
    try:
        return [read_line(line) for line in lines(data, budget)]
    except NotALine as error:
        raise _no_line(error) from None


def lines(data: Data, budget: int = USUAL_BUDGET) -> List[str]:
    """The lines of a page's entries, as `naplps list` prints them, without their ends. Raises Refused."""
    return _accepted("list", data, budget).text.decode("ascii").splitlines()


def canon(data: Data, budget: int = USUAL_BUDGET) -> bytes:
    """The canonical stream of a page: two pages have the same exactly if their entries are the same. Raises Refused."""
    return _accepted("canon", data, budget).text


def canon_form1(data: Data, budget: int = USUAL_BUDGET) -> bytes:
    """The text of a page's entries in form 1, which canonical streams had before. Raises Refused, NeedsLibrary."""
    return _accepted("canon_form1", data, budget).text


def is_plain(data: Data) -> bool:
    """Whether a page is plain, as each canonical stream is: with no part in macros, no displacement from the pen, and
    operands of eight and four words. Raises NeedsLibrary."""
    return found().is_plain(taken(data))


def places(data: Data, budget: int = USUAL_BUDGET) -> Places:
    """The entries of a page with their places; of one that is refused, those before the refusal, which isn't raised.

    A place is the offset of the byte that added the entry, often the first one of the next code; or the length of the
    page for an entry that came at its end. Raises NeedsLibrary for a page above 16 MiB.
    """
    reply = _reply("places", data, budget)
    try:
        return Places([(place, read_line(line)) for place, line in placed(reply.text)], reply.refused)
    except NotALine as error:
        raise _no_line(error) from None


def svg(data: Data, budget: int = USUAL_BUDGET) -> str:
    """A sketch of a page as SVG, as `naplps-pages look` makes it; docs/SKETCH.md says what is exact. Raises Refused."""
    count = check(data, budget)
    if count > MOST_LISTED:
        return drawing.empty(f"No sketch: the page has {count} entries").svg
    try:
        return drawing.draw(lines(data, budget)).svg
    except NotALine as error:
        raise _no_line(error) from None


def text(data: Data, budget: int = USUAL_BUDGET) -> str:
    """The text of a page: its lines, with a line end between them. Raises Refused."""
    return "\n".join(text_lines(entries(data, budget)))


def treatments(data: Data, budget: int = USUAL_BUDGET) -> Optional[Cure]:
    """The treatments that make a refused page readable: the least change by one, two or three together.

    None for a page that is accepted, and for one that no treatment makes readable. A treated copy is another page: that
    it is equal to the original, or draws what was meant there, isn't claimed.
    """
    def ask(call: str, treated: bytes) -> Answer:
        reply = _reply(call, treated, budget)
        if reply.refused is None:
            return Accepted(reply.entries, reply.text)
        return Refusal(reply.refused.number, reply.refused.name, None, reply.refused.place, reply.text)
    page = bytes(taken(data))
    answer = ask("check", page)
    return find(ask, page, answer.place) if isinstance(answer, Refusal) else None


def backend() -> Backend:
    """What answers. Raises Unavailable."""
    return found().backend


def _reply(call: str, data: Data, budget: int) -> Reply:
    page, number = taken(data), budget_of(budget)
    return found().answer(call, page, number)


def _accepted(call: str, data: Data, budget: int) -> Reply:
    reply = _reply(call, data, budget)
    if reply.refused is not None:
        raise reply.refused
    return reply


def _no_line(error: NotALine) -> NoAnswer:
    return NoAnswer(f"{found().backend.path} told of an entry that isn't one: {error}")
