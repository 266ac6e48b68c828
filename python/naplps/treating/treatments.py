"""The treatments, and the search for the least that makes refused bytes readable."""
import re
from dataclasses import dataclass, field
from itertools import islice
from typing import Callable, Dict, Iterable, Iterator, List, NamedTuple, Optional, Set, Tuple

from ..answers import Accepted, Answer, Refusal
from . import LEADING_ON, eight_bit
from .borders import (
    BEGINS, CLEAR, END_OF_BODY, content, draws, is_read, is_uniform, outside, pieces, text_length, tokens,
)
from .changes import AROUND, EIGHTH, ODD, PLAIN, WITHIN, Change, Edit, NotSure, Treated, digest
from .grading import GUESSES, regrade
from .sauce import find_sauce

# How many bytes after a refusal may belong to a header, and how many starts of a page are tried among them.
MOST_HEADER = 4096
# The number of bytes that may come before the refusal.
MOST_BEFORE = 1 << 16
MOST_STARTS = 8
# How many codes at the front are cut, and among how many bytes.
MOST_CODES = 16
MOST_FRONT = 1024
# The number of bytes that may follow the mark of the end of a file: the rest of a record of CP/M or MS-DOS.
MOST_BEHIND_END = 1023
# A page with more codes that a treatment would take isn't treated by it.
MOST_EDITS = 4096
# Nor is a longer one treated by those that take codes out of its midst.
MOST_WITHIN = 1 << 18
# Codes that are taken out of the midst of a page.
IN_THE_MIDDLE: Dict[str, "re.Pattern[bytes]"] = {name: tokens(code) for name, code in (
    ("can", rb"\x18"), ("nsr", rb"\x1f(?:[\x40-\x7f]{2})?"),
    ("designations", rb"\x1b(?:[\x20-\x27][\x20-\x2f]*[\x30-\x7e]|"
                     rb"[\x28-\x2f]\x20?(?![\x42\x57\x7a-\x7d])[\x30-\x7e])"))}
END_OR_BODY = re.compile(rb"\x1a|" + END_OF_BODY.pattern)
DEFINITIONS = (b"\x1b\x40", b"\x1b\x41")
# A picture code with an operand, after SO.
PICTURE = re.compile(rb"\x0e[\x20-\x3f][\x40-\x7f]")
# After such a code text begins at a place of the page's own: CS, APS or APH.
PLACED = (b"\x0c", b"\x1c", b"\x1e")


def parity(data: bytes, place: int) -> Iterator[Change]:
    """Takes the eighth bit off, where all bytes have one parity and some have that bit."""
    bits = data.translate(EIGHTH).count(1)
    odd = data.translate(ODD).count(1)
    if bits and odd in (0, len(data)):
        name = "odd" if odd else "even"
        what = "%s parity bits, set in %d of %d bytes" % (name, bits, len(data))
        yield Change("parity", AROUND, what, bits=bits, parity=name)


def mark(data: bytes, place: int) -> Iterator[Change]:
    """Takes the eighth bit off, where every byte has it.

    Bytes that may as well be picture codes of the eight-bit form aren't treated: those that without these bits have no
    code that leads on from text, and whose first character would be an opcode.
    """
    if not data or data.translate(EIGHTH).count(1) != len(data):
        return
    plain = data.translate(PLAIN)
    first = next((byte for byte in plain if byte >= 0x20), 0x40)
    if first >= 0x40 or any(code in plain for code in LEADING_ON):
        yield Change("mark", AROUND, f"the eighth bit of all {len(data)} bytes", bits=len(data), parity="mark")


def tail(data: bytes, place: int) -> Iterator[Change]:
    """Cuts a run of 1A, of 00 or of line ends off the end; or all from the mark of the end of a file on.

    What comes after the mark has to be bytes that don't draw.
    """
    for run, name in ((b"\x1a", "1A"), (b"\x00", "00"), (b"\r\n", "line ends")):
        length = len(data) - len(data.rstrip(run))
        if length:
            yield _cut("tail", len(data) - length, length, f"{length} bytes at the end: {name}")
    begin = None if is_uniform(data) else _end_mark(data)
    if begin is not None and data[begin:].strip(b"\x1a") and not draws(content(data[begin:])):
        length, text = len(data) - begin, text_length(data[begin:])
        rest = f"{text} bytes of text" if text else "what is behind it"
        yield _cut("tail", begin, length, f"{length} bytes at the end: 1A, which ends a file, and {rest}")


def _end_mark(data: bytes) -> Optional[int]:
    """Where the first 1A stands with at most `most` bytes after it, if it is in no macro's body."""
    least = max(0, len(data) - MOST_BEHIND_END - 1)
    in_body = _is_in_body(data, least)
    for found in END_OR_BODY.finditer(data, least):
        if found[0] != b"\x1a":
            in_body = found[0] in DEFINITIONS
        elif not in_body:
            return found.start()
    return None


def _is_in_body(data: bytes, at: int) -> bool:
    """Whether the body of a macro continues there: the last of the codes that end a body begins one."""
    last = max(data.rfind(bytes((0x1B, code)), 0, at) for code in range(0x40, 0x46))
    return last >= 0 and data[last:last + 2] in DEFINITIONS


def _cut(name: str, offset: int, length: int, what: str, grade: str = AROUND) -> Change:
    return Change(name, grade, what, (Edit(offset, length),))


def front(data: bytes, place: int) -> Iterator[Change]:
    """Cuts NSR, CAN and announcers off the front.

    NSR has a place after it, two bytes from 40 to 7F as APS has, where such bytes stand there. It is cut only where
    the page says itself where its text begins.
    """
    if is_uniform(data):
        return  # (parity bits and marks come off first: in odd parity NSR has none, and its place may have them)
    at = 0
    names: List[str] = []
    some = data[:MOST_FRONT]
    while len(names) < MOST_CODES:
        found = leading(some, at)
        if found is None:
            break
        names.append(found[0])
        at += found[1]
    if names and not ("NSR with its place" in names and not some.startswith(PLACED, at)):
        yield _cut("front", 0, at, f"{at} bytes at the front: {', '.join(names)}")


def leading(data: bytes, at: int) -> Optional[Tuple[str, int]]:
    """The name and length of NSR, CAN or an escape sequence from 1B 20 to 1B 27 that stands there."""
    if data[at:at + 1] == b"\x18":
        return "CAN", 1
    if data[at:at + 1] == b"\x1f":
        place = data[at + 1:at + 3]
        has_place = len(place) == 2 and all(0x40 <= each < 0x80 for each in place)
        return ("NSR with its place", 3) if has_place else ("NSR", 1)
    if data[at:at + 1] != b"\x1b" or not 0x20 <= (data[at + 1:at + 2] or b"\0")[0] <= 0x27:
        return None
    end = at + 2
    while end < len(data) and 0x20 <= data[end] <= 0x2F:
        end += 1
    if end >= len(data) or not 0x30 <= data[end] <= 0x7E:
        return None
    return data[at:end + 1].hex(" ").upper(), end + 1 - at


def header(data: bytes, place: int) -> Iterator[Change]:
    """Cuts off what stands before the first code of a page, after the place: CS, or SO with an opcode.

    What is left has to have a picture code with an operand, else the end of any file may look like a page. What is cut
    has no bytes that draw: a header of a record, of any bytes, or text.
    """
    if place > MOST_BEFORE or is_uniform(data):
        return  # (parity bits and marks come off first)
    plain = data.translate(PLAIN)
    for at in islice(_starts(data, place + 1), MOST_STARTS):
        if not PICTURE.search(plain, at) or draws(content(data[:at])):
            return
        text = text_length(data[:at])
        yield _cut("header", 0, at, f"{at} bytes before the first code{f': {text} bytes of text' if text else ''}")


def _starts(data: bytes, begin: int) -> Iterator[int]:
    """Where a page may begin, from an offset on, but for codes of a page that begins before."""
    last = -1
    for found in BEGINS.finditer(data, begin, begin + MOST_HEADER + 2):
        at = found.start()
        if last < 0 or not is_read(data[last:at]):
            last = at
            yield at


def record(data: bytes, place: int) -> Iterator[Change]:
    """Cuts a SAUCE record off the end, with its comments and the 1A before it, and tells what it says."""
    found = find_sauce(data)
    if found and not any(map(draws, found.texts)):
        fields = ", ".join("%s %r" % each for each in found.fields.items())
        yield Change("sauce", AROUND, "%d bytes at the end: SAUCE%s" % (found.length, fields and ", " + fields),
                     (Edit(len(data) - found.length, found.length),), record=found.fields)


def can(data: bytes, place: int) -> Iterator[Change]:
    """Takes each CAN out of the page."""
    yield from _without("can", data, "CAN")


def nsr(data: bytes, place: int) -> Iterator[Change]:
    """Takes each NSR out of the page, with its place where it has one."""
    yield from _without("nsr", data, "NSR")


def designations(data: bytes, place: int) -> Iterator[Change]:
    """Takes announcers, and designations of sets that aren't known here, out of the page."""
    yield from _without("designations", data, "announcers and designations")


def _without(name: str, data: bytes, what: str) -> Iterator[Change]:
    """Takes codes out of the page, but not out of the bodies of its macros."""
    if len(data) > MOST_WITHIN:
        raise NotSure(f"the page is longer than {MOST_WITHIN} bytes")
    another = next((each.offset for each in pieces(data)[1:] if each.draws and BEGINS.match(data, each.offset)), None)
    edits: List[Edit] = []
    for found in outside(data, IN_THE_MIDDLE[name]):
        if len(edits) == MOST_EDITS:
            raise NotSure(f"there are more than {MOST_EDITS} codes to be taken out")
        if found.start() and data.startswith(CLEAR, found.end()):
            raise NotSure(f"another page seems to begin at {found.start()}")
        edits.append(Edit(found.start(), found.end() - found.start()))
    if edits and another is not None:
        raise NotSure(f"another page seems to begin at {another}")
    if edits:
        length = sum(edit.length for edit in edits)
        yield Change(name, WITHIN, f"{length} bytes of the page: {what}", tuple(edits))


def seven_bit(data: bytes, place: int) -> Iterator[Change]:
    """Writes a page of the eight-bit form in the seven-bit one."""
    if data.translate(EIGHTH).count(1):
        edits = eight_bit.edits(data)
        what = "the eight-bit form in seven bits: %d bytes taken, %d put" % (
            sum(each.length for each in edits), sum(len(each.put) for each in edits))
        yield Change("eight-bit", WITHIN, what, tuple(edits))


class Treatment(NamedTuple):
    """A treatment: its grade, and what it makes of bytes that are refused at a place."""

    grade: str
    changes: Callable[[bytes, int], Iterator[Change]]


TREATMENTS: Dict[str, Treatment] = {
    "parity": Treatment(AROUND, parity), "mark": Treatment(AROUND, mark), "sauce": Treatment(AROUND, record),
    "tail": Treatment(AROUND, tail), "front": Treatment(AROUND, front), "header": Treatment(AROUND, header),
    "can": Treatment(WITHIN, can), "nsr": Treatment(WITHIN, nsr), "designations": Treatment(WITHIN, designations),
    "eight-bit": Treatment(WITHIN, seven_bit)}
GRADES = {**{name: each.grade for name, each in TREATMENTS.items()}, **dict.fromkeys(GUESSES, WITHIN)}


def untreated(source: bytes) -> Treated:
    """The source as it is."""
    return Treated(source)


def treated(it: Treated, place: int, names: Tuple[str, ...] = tuple(TREATMENTS),
            unsure: Optional[Dict[str, str]] = None) -> List[Treated]:
    """What the treatments make of bytes that are refused at this place, least change first.

    Why a treatment isn't sure is put into `unsure`.
    """
    data = it.data
    made: List[Treated] = []
    for name in names:
        try:
            made += [it.also(change) for change in TREATMENTS[name].changes(data, place)]
        except NotSure as error:
            if unsure is not None:
                unsure.setdefault(name, str(error))
    return sorted(made, key=lambda each: each.cost)


def grade_of(names: str) -> str:
    """The grade of treatments that are joined by +."""
    return WITHIN if any(GRADES.get(name) == WITHIN for name in names.split("+")) else AROUND


def graded(names: str) -> str:
    """Treatments that are joined by +, for people, with their grade."""
    return "%s (%s)" % (names, "within, a guess" if grade_of(names) == WITHIN else AROUND)


# The number of treatments that are tried together, and of questions to the program in each of the two rounds.
MOST_TOGETHER = 3
MOST_ASKED = 100
# The number of those looked at in each round, and of those, least changed first, to which a treatment is added.
MOST_LOOKED_AT = 400
MOST_EXPANDED = 32
# The number of questions about what is taken away from around one page.
MOST_ASKED_AROUND = 25
Ask = Callable[[str, bytes], Answer]
# Bytes that are refused, and the place.
Sick = Tuple[Treated, int]


@dataclass(frozen=True)
class Cure:
    """Treated bytes that are accepted."""

    treated: Treated
    entries: int

    @property
    def data(self) -> bytes:
        """The bytes after the treatments."""
        return self.treated.data

    @property
    def changes(self) -> Tuple[Change, ...]:
        """What the treatments did."""
        return self.treated.changes

    @property
    def is_cut(self) -> bool:
        """Whether nothing within the page was taken or rewritten, as far as the treatments know its bounds."""
        return all(each.grade == AROUND or each.treatment in GUESSES for each in self.changes)


@dataclass
class TreatmentSearch:
    """One search: what was tried, and why some treatments weren't.

    `took_a_page` says that a treatment wasn't taken since what it takes away from around a page is a page too.
    """

    ask: Ask
    beat: Callable[[], None] = lambda: None
    most_asked: int = MOST_ASKED
    took_a_page: bool = False
    tried: Set[bytes] = field(default_factory=set)
    unsure: Dict[str, str] = field(default_factory=dict)
    asked: int = 0
    asked_in_all: int = 0
    looked_at: int = 0

    def find(self, source: bytes, place: int) -> Optional[Cure]:
        """The least change with which bytes that are refused at a place are accepted.

        First come treatments around the page, one, two and three together; then those with treatments within it.
        """
        start = untreated(source)
        self.tried.add(digest(source))
        around = tuple(name for name, each in TREATMENTS.items() if each.grade == AROUND)
        sick: List[Sick] = [(start, place)]
        cure = self._round(sick, around)
        if cure is None:
            self.asked_in_all, self.asked, self.looked_at = self.asked, 0, 0
            within = tuple(name for name, each in TREATMENTS.items() if each.grade != AROUND)
            cure = self._round(sick, within)
        self.asked_in_all += self.asked
        return cure

    def _round(self, sick: List[Sick], names: Tuple[str, ...]) -> Optional[Cure]:
        """Tries one more of these treatments on what is refused, again and again; what stays refused is added."""
        level = sick
        for _ in range(MOST_TOGETHER):
            some: List[Treated] = []
            for it, place in [each for each in level if len(each[0].changes) < MOST_TOGETHER][:MOST_EXPANDED]:
                self.beat()
                some += treated(it, place, _left(it, names), self.unsure)
            cure, level = self._first(sorted(some, key=lambda each: each.cost))
            if cure:
                return cure
            sick.extend(level)
        return None

    def _first(self, some: Iterable[Treated]) -> Tuple[Optional[Cure], List[Sick]]:
        """The first that is accepted; else those that are refused, with the places of their refusals."""
        refused: List[Sick] = []
        for each in some:
            answer = self._answer(each)
            if isinstance(answer, Accepted) and _is_enough(each, answer) and not self._takes_a_page(each):
                return Cure(regrade(each), answer.entries), refused
            if isinstance(answer, Refusal):
                refused.append((each, answer.place))
        return None, refused

    def _answer(self, it: Treated) -> Optional[Answer]:
        """The answer to bytes that weren't tried before."""
        if self.asked >= self.most_asked or self.looked_at >= MOST_LOOKED_AT:
            return None
        self.looked_at += 1
        data = it.data
        key = digest(data)
        if not data or key in self.tried:
            return None
        self.tried.add(key)
        self.asked += 1
        return self.ask("check", data)

    def _takes_a_page(self, it: Treated) -> bool:
        """Whether bytes that are taken away from around the page are a page, alone or with treatments of their own."""
        for change, data in it.steps():
            taken = (content(each) for each in change.taken(data)) if change.grade == AROUND else ()
            for some in taken:
                if some and not text_length(some) and self._is_a_page(some):
                    self.took_a_page = True
                    return True
        return False

    def _is_a_page(self, data: bytes) -> bool:
        """Whether bytes are a page, or it can't be known any more."""
        if self.asked >= self.most_asked:
            return True
        self.asked += 1
        answer = self.ask("check", data)
        if not isinstance(answer, Refusal):
            return not isinstance(answer, Accepted) or _draws_as_a_page(data, answer.entries)
        inner = TreatmentSearch(self.ask, self.beat, min(MOST_ASKED_AROUND, self.most_asked - self.asked) // 2)
        cure = inner.find(data, answer.place)
        self.asked += inner.asked_in_all
        return cure is not None and _draws_as_a_page(cure.data, cure.entries)


def _draws_as_a_page(data: bytes, entries: int) -> bool:
    """Whether accepted bytes with these entries are of the kind page."""
    return entries > 0 and any(code in data for code in LEADING_ON)


def find(ask: Ask, source: bytes, place: int, beat: Callable[[], None] = lambda: None) -> Optional[Cure]:
    """The least change with which bytes that are refused at a place are accepted; `beat` is called now and then."""
    return TreatmentSearch(ask, beat).find(source, place)


def _left(it: Treated, names: Tuple[str, ...]) -> Tuple[str, ...]:
    """The treatments that may come next: each once, but for ends."""
    done = {change.treatment for change in it.changes} - {"tail"}
    return tuple(name for name in names if name not in done)


def _is_enough(it: Treated, answer: Accepted) -> bool:
    """Whether what is left is a page, or text that is most of the source: a few bytes of any file are text."""
    data = it.data
    return 2 * len(data) >= len(it.source) or _draws_as_a_page(data, answer.entries)
