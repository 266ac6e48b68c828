"""What the program says of a page, and the one reader of what `naplps batch` prints."""
import io
import re
from typing import TYPE_CHECKING, Callable, List, NamedTuple, Optional, Sequence, Union

if TYPE_CHECKING:
    import hashlib

# Patterns, each of which is compiled when it is first used. (Numbers of 18 digits are kept in a store.)
ACCEPTED = rb"accepted (0|[1-9][0-9]{0,17}) entries"
REFUSED = rb"refused ([1-9][0-9]?) ([A-Za-z]+)(?: ([A-Z0-9-]+))? at (0|[1-9][0-9]{0,17})"
WRONG_LINE = (rb"line ([1-9][0-9]{0,17}): (?:no line of a list, at column ([1-9][0-9]{0,17})|can't come here|"
              rb"the definition of line ([1-9][0-9]{0,17}) isn't ended)")
FOUND = rb"found (0|[1-9][0-9]{0,17}) pages"
FIND = rb"(0|[1-9][0-9]{0,17}) ([1-9][0-9]{0,17})"
OPEN = rb"open (0|[1-9][0-9]{0,17}) passed (0|[1-9][0-9]{0,19})"
# The calls whose answers aren't about one page.
OF_OTHERS = ("make", "find")
NO_MEMORY = "the program had no memory for it"
NONSENSE = "the program answered something that is no answer"
# Refusals that say nothing of the page.
MEMORY = 21
OF_THE_MACHINE = {MEMORY: NO_MEMORY, 22: "a device of the program failed"}
# The greatest number of bytes of a line before an answer's body, and of digits of its length.
MOST_LINE, MOST_DIGITS = 128, 18


class Accepted(NamedTuple):
    """The page is accepted: the number of its entries, and what the command asked for."""

    entries: int
    body: bytes = b""

    @property
    def line(self) -> str:
        """The answer as `naplps check` prints it."""
        return f"accepted {self.entries} entries"


class Refusal(NamedTuple):
    """The page is refused: number and name of the fault, the code that is left out, and the place of the byte."""

    number: int
    fault: str
    code: Optional[str]
    place: int
    body: bytes = b""

    @property
    def name(self) -> str:
        """The name of the fault, with the code that is left out."""
        return self.fault if self.code is None else f"{self.fault} {self.code}"

    @property
    def line(self) -> str:
        """The refusal as `naplps check` prints it."""
        return f"refused {self.number} {self.name} at {self.place}"


class Unanswered(NamedTuple):
    """The program gave no answer, which says nothing of the page."""

    reason: str
    # Whether it would have been too much, for the program's memory or for the tool's.
    too_much: bool = False

    @property
    def line(self) -> str:
        """The reason, which stands in place of a line."""
        return self.reason


class WrongLine(NamedTuple):
    """Lines make no page: the first one that is wrong, from 1, and the reason as the program tells it.

    `column`, from 1, is that of a line that is no entry's: before it the line could be one's. `opening` is the line of
    the definition that isn't ended at the last line.
    """

    number: int
    reason: str
    column: Optional[int] = None
    opening: Optional[int] = None

    @property
    def line(self) -> str:
        """The answer as `naplps make` prints it."""
        behind = "" if self.column is None else f", at column {self.column}"
        return f"line {self.number}: {self.reason}{behind}"


class Find(NamedTuple):
    """A page among other bytes: the offset of its first byte, and the offset after its last byte."""

    begin: int
    end: int


class Finds(NamedTuple):
    """The pages among some bytes, in order; the offset from which on bytes that follow may change them; and how many
    beginnings were passed over."""

    finds: List[Find]
    open: int
    passed: int


Answer = Union[Accepted, Refusal, Unanswered]
MakeAnswer = Union[Accepted, WrongLine, Unanswered]
FindAnswer = Union[Finds, Unanswered]


class HashedAnswer(NamedTuple):
    """An answer; and where its body was hashed, that hash, and how many bytes the body had."""

    answer: Answer
    canon: Optional[bytes] = None
    length: Optional[int] = None


class NotAnswered(Exception):
    """There is no answer, with the reason."""

    @property
    def answer(self) -> Unanswered:
        """This as the answer to a page."""
        return Unanswered(str(self), isinstance(self, AnswerTooLong))


class Nonsense(NotAnswered):
    """What came from the program isn't an answer."""

    def __init__(self) -> None:
        super().__init__(NONSENSE)


class AnswerTooLong(NotAnswered):
    """The answer is longer than what is held."""

    def __init__(self, length: int) -> None:
        super().__init__(f"its answer is too long to be held: {length} bytes")


def read_line(line: bytes, length: Optional[int]) -> Answer:
    """The answer that a line states, for a page of this length (None where it isn't known). Raises Nonsense."""
    found = re.fullmatch(ACCEPTED, line)
    if found:
        return Accepted(int(found[1]))
    if line == b"no memory":
        return Unanswered(NO_MEMORY, too_much=True)
    found = re.fullmatch(REFUSED, line)
    if not found:
        raise Nonsense
    number, place = int(found[1]), int(found[4])
    if number > 22 or (length is not None and place > length):
        raise Nonsense
    code = found[3].decode("ascii") if found[3] else None
    refusal = Refusal(number, found[2].decode("ascii"), code, place)
    if number in OF_THE_MACHINE:
        return Unanswered(f"{OF_THE_MACHINE[number]} ({refusal.line})", too_much=number == MEMORY)
    return refusal


def read_wrong_line(line: bytes) -> Optional[WrongLine]:
    """The wrong line that the answer to `make` tells of, if it tells of one."""
    found = re.fullmatch(WRONG_LINE, line)
    if not found:
        return None
    number, reason = int(found[1]), line.decode("ascii").partition(": ")[2].partition(",")[0]
    return WrongLine(number, reason, *(None if each is None else int(each) for each in (found[2], found[3])))


def read_finds(text: bytes, length: int) -> Finds:
    """The finds that an answer states, for this number of bytes. Raises Nonsense."""
    *lines, tail = text.split(b"\n")[:-1] or [b""]
    matches = [re.fullmatch(FIND, line) for line in lines]
    finds = [Find(int(match[1]), int(match[2])) for match in matches if match]
    places = [place for find in finds for place in find]
    match = re.fullmatch(OPEN, tail)
    if match is None or not text.endswith(b"\n") or len(finds) != len(lines) or places != sorted(places):
        raise Nonsense
    if max([int(match[1]), *places[-1:]]) > length:
        raise Nonsense
    return Finds(finds, int(match[1]), int(match[2]))


def with_body(call: str, answer: Answer, body: bytes) -> Answer:
    """The answer with the body that the call gives with it. Raises Nonsense for another body."""
    if isinstance(answer, Unanswered) or call == "check" or (isinstance(answer, Refusal) and call != "places"):
        if body:
            raise Nonsense
        return answer
    if call in ("canon", "make"):
        fits = bool(body)
    elif call == "find":
        fits = isinstance(answer, Accepted) and body.count(b"\n") == answer.entries + 1
    else:
        fits = body.isascii() and (isinstance(answer, Refusal) or body.count(b"\n") == answer.entries)
    if not fits:
        raise Nonsense
    return answer._replace(body=body)


def new_hash() -> "hashlib._Hash":
    """A SHA-256 of no bytes yet."""
    import hashlib  # (which takes long to be imported, and which a check needs nothing of)
    return hashlib.sha256()


class AnswerParser:
    """Takes the answers to a call on some pages as `naplps batch` prints them, in pieces of any lengths.

    A body is held, if it has no more than `most` bytes. Where `most` is None bodies are hashed, and those of accepted
    pages are held too that have no more than `keeps` bytes. `goes_on` is called after a piece that ended an answer,
    where more answers are to come.
    """

    # What came of a head that isn't whole yet; the answer of a head, the length of its body, and what lacks of that.
    _rest: bytes = b""
    _answer: Optional[Answer] = None
    _length: int = 0
    _lacks: int = 0
    _hash: "hashlib._Hash"

    def __init__(self, call: str, pages: Sequence[bytes], most: Optional[int],
                 goes_on: Callable[[], None] = lambda: None, keeps: int = 0) -> None:
        self.call, self.pages, self.most, self.goes_on, self.keeps = call, pages, most, goes_on, keeps
        self.answers: List[HashedAnswer] = []
        # Of `make`, the line that is wrong, where one is; no page is answered then.
        self.wrong_line: Optional[WrongLine] = None
        # (its bytes are handed out without another copy)
        self._body = io.BytesIO()

    def take(self, piece: bytes) -> bool:
        """Takes a piece; whether all answers are there. Raises Nonsense, AnswerTooLong."""
        come = self._rest + piece
        at, before = 0, len(self.answers)
        while at < len(come):
            if len(self.answers) == len(self.pages):
                self.answers.pop()  # there is more after the last answer, which is none then
                raise Nonsense
            if self._answer is None:
                behind = self._head(come, at)
                if behind is None:
                    break
                at = behind
            part = come[at:at + self._lacks]
            at += len(part)
            self._lacks -= len(part)
            if self.most is None:
                self._hash.update(part)
            if self.most is not None or self._length <= self.keeps:
                self._body.write(part)
            if not self._lacks:
                assert self._answer is not None
                if self.most is not None:
                    self.answers.append(HashedAnswer(with_body(self.call, self._answer, self._body.getvalue())))
                    self._body = io.BytesIO()
                else:
                    canon = self._hash.digest() if self._length else None
                    self.answers.append(HashedAnswer(self._kept(self._answer), canon, self._length or None))
                self._answer = None
        self._rest = come[at:]
        whole = len(self.answers) == len(self.pages)
        if not whole and len(self.answers) > before:
            self.goes_on()
        return whole

    def _kept(self, answer: Answer) -> Answer:
        """The answer whose body was hashed, with the body where that is held too."""
        if not self.keeps:
            return answer
        body, self._body = self._body.getvalue(), io.BytesIO()
        return answer._replace(body=body) if isinstance(answer, Accepted) else answer

    def _head(self, come: bytes, at: int) -> Optional[int]:
        """Takes the two lines before a body; where they end, or None where they aren't whole yet."""
        first = come.find(b"\n", at)
        second = come.find(b"\n", first + 1) if first >= 0 else -1
        if second < 0:
            if len(come) - at > MOST_LINE:
                raise Nonsense
            return None
        number = come[first + 1:second]
        if first - at > MOST_LINE or not number.isdigit() or len(number) > MOST_DIGITS:
            raise Nonsense
        self._length = self._lacks = int(number)
        if self.most is not None and self._length > self.most:
            raise AnswerTooLong(self._length)
        page, line = self.pages[len(self.answers)], come[at:first]
        self._answer = self._read_other(line, page) if self.call in OF_OTHERS else read_line(line, len(page))
        if self.most is None:
            self._hash = new_hash()
            if isinstance(self._answer, Accepted) != bool(self._length):
                raise Nonsense
        return second + 1

    def _read_other(self, line: bytes, page: bytes) -> Answer:
        """The answer that a line states about lines, or about bytes among which pages are: its entries are these.
        Raises Nonsense."""
        if self.call == "make":
            return self._read_made(line, page)
        match = re.fullmatch(FOUND, line)
        answer = Accepted(int(match[1])) if match else read_line(line, None)
        if isinstance(answer, Refusal) or (isinstance(answer, Accepted) and not match):
            raise Nonsense
        return answer

    def _read_made(self, line: bytes, page: bytes) -> Answer:
        """The answer to `make`: that the lines are entries, or that one of them is wrong. Raises Nonsense."""
        count = page.count(b"\n")
        self.wrong_line = read_wrong_line(line)
        if self.wrong_line:
            if self.wrong_line.number > count or (self.wrong_line.opening or 0) > count:
                raise Nonsense
            return Unanswered(self.wrong_line.line)
        answer = read_line(line, None)
        if isinstance(answer, Refusal) or (isinstance(answer, Accepted) and answer.entries != count):
            raise Nonsense
        return answer
