"""The pages among other bytes, as docs/FINDING.md has them."""
import io
from typing import Callable, Generator, List, NamedTuple, Optional

from .answers import Find, FindAnswer, Finds, Unanswered
from .backends import Data, error_of, found, taken
from .limits import MOST_PAGE, budget_of

# The number of entries that a find has at least.
LEAST_ENTRIES = 12
# So many bytes are read at a time. With what is kept of those before they are no more than a request may have.
PIECE = 4 << 20


class Ended(NamedTuple):
    """The end of what was read: the offset of the row that is open there, or of the end; and how many beginnings were
    passed over."""

    open: int
    passed: int


def find(data: Data, least: int = LEAST_ENTRIES) -> Finds:
    """The pages among other bytes, such as those of a disk image. Each has at least this number of entries, twice as
    many bytes, and one shape; offsets are of its first byte and after its last byte.

    Bytes that follow may change the finds from `open` on. `passed` is how many beginnings were passed over.
    """
    source, entries = taken(data), budget_of(least)
    if memoryview(source).nbytes <= MOST_PAGE:
        return found().find(source, entries)
    finds: List[Find] = []
    pages = finds_in(io.BytesIO(source).read, entries)
    while True:
        try:
            finds.append(next(pages))
        except StopIteration as end:
            return Finds(finds, *end.value)


def finds_in(read: Callable[[int], bytes], least: int = LEAST_ENTRIES, begin: int = 0,
             ask: Optional[Callable[[bytes, int], FindAnswer]] = None) -> Generator[Find, None, Ended]:
    """The finds of all that is read, each as soon as the bytes that follow can't change it. Its value is Ended.

    `read` is given how many bytes it may give, and gives none at the end. The first byte has the offset `begin`. `ask`
    answers in place of what `find` asks.
    """
    answers = found().find if ask is None else ask
    row, open_finds, passed, open_passed = b"", [], 0, 0
    piece = read(PIECE)
    while piece:
        row += piece
        answer = _answered(answers(row, least))
        finds = [Find(begin + page.begin, begin + page.end) for page in answer.finds]
        begin, row = begin + answer.open, row[answer.open:]
        yield from (page for page in finds if page.begin < begin)
        open_finds = [page for page in finds if page.begin >= begin]
        # (what the open row has is found and counted again with the next piece)
        open_passed = _answered(answers(row, least)).passed if row and answer.passed else 0
        passed += answer.passed - open_passed
        piece = read(PIECE)
    yield from open_finds
    return Ended(begin, passed + open_passed)


def _answered(answer: FindAnswer) -> Finds:
    """The finds. Raises NoMemory, NoAnswer."""
    if isinstance(answer, Unanswered):
        raise error_of(answer)
    return answer
