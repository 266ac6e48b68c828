"""Which bytes draw, and where one page ends and another begins."""
import re
from itertools import islice
from typing import Iterator, List, NamedTuple, Optional

from . import LEADING_ON, eight_bit
from .changes import EIGHTH, ODD, PLAIN, NotSure, edited

SHAPE, MOSAIC, GLYPH, DEFINED, TEXT = "shape", "mosaic", "DRCS", "definition", "text"
CLEARING, LEADING, SEPARATING, UNREAD, OTHER = "clear", "leading", "separator", "unread", "other"
PRIMARY, PDI, SUPPLEMENTARY, MOSAICS, MACROS, GLYPHS = 0x42, 0x57, 0x7C, 0x7D, 0x7A, 0x7B
KINDS = {PRIMARY: TEXT, SUPPLEMENTARY: TEXT, MOSAICS: MOSAIC, GLYPHS: GLYPH, MACROS: OTHER}
AT_START = (PRIMARY, PDI, SUPPLEMENTARY, MOSAICS)
TYPED, WORDS, HIGH = (re.compile(each) for each in (rb"[\x20-\x7f]+", rb"[\x40-\x7f]*", rb"[\x80-\xff]+"))
# Controls of one byte that shift and separate nothing, of which several are read as one; and CS.
IDLE = frozenset((*range(0x0E), *range(0x10, 0x18), 0x1E))
IDLING, CLEARS_AGAIN = re.compile(rb"[\x00-\x0b\x0d\x10-\x17\x1e]+"), re.compile(rb"\x0c+")
PLACE = re.compile(rb"\x1f(?:[\x40-\x7f]{2})?")
ANNOUNCER = re.compile(rb"\x1b[\x20-\x27][\x20-\x2f]*[\x30-\x7e]")
DESIGNATION = re.compile(rb"\x1b([\x28-\x2f])\x20?([\x42\x57\x7a-\x7d])")
# What ends the body of a macro.
END_OF_BODY = re.compile(rb"\x1b[\x40-\x45]")
# Controls with an argument, by the values that it may have; and those that begin a definition.
ARGUMENTS = {0x40: range(0x20, 0x80), 0x41: range(0x20, 0x80), 0x43: range(0x20, 0x80), 0x44: range(0x41, 0x45),
             0x46: range(0x40, 0x80)}
DEFINITIONS, BODIES = (0x40, 0x41, 0x43, 0x44), (0x40, 0x41)
# RESET's codes for the screen with which it is cleared; and bytes that each page has which clears it.
CLEARS = (1, 2, 5, 6, 7)
CLEARED = re.compile(rb"\x0c|\x0e[^\x0e\x0f]*?\x20[\x48-\x57\x68-\x7f]")
# The kinds that draw in any bytes; text does in those of a page alone.
DRAWING = frozenset((SHAPE, MOSAIC, GLYPH, DEFINED))


class PageCode(NamedTuple):
    """A code, or several of one kind that follow each other; `leads` where it is one that leads on from text."""

    kind: str
    start: int
    end: int
    leads: bool = False


class PageCodes:
    """Goes over bytes code by code."""

    def __init__(self, data: bytes) -> None:
        self.data, self.at = data, 0
        self.sets: List[int] = list(AT_START)
        self.left = 0

    def next(self) -> PageCode:
        """The code at the front, which is passed."""
        start, byte = self.at, self.data[self.at]
        if byte >= 0x80:
            return self._through(UNREAD, HIGH)
        if byte >= 0x20:
            return self._graphic(byte)
        if byte in IDLE:
            return self._through(CLEARING if byte == 0x0C else OTHER, CLEARS_AGAIN if byte == 0x0C else IDLING)
        self.at += 1
        if byte in (0x0E, 0x0F):
            self.left = 1 if byte == 0x0E else 0
            return PageCode(LEADING if self.left else OTHER, start, self.at)
        if byte in (0x19, 0x1D):
            return self._single_shift(start, 2 if byte == 0x19 else 3)
        if byte == 0x1B:
            return self._escape(start)
        if byte == 0x1F:
            self.at = start
            return self._through(SEPARATING, PLACE)
        if byte == 0x1C:
            self.at += sum(0x20 <= each < 0x80 for each in self.data[self.at:self.at + 2])
        return PageCode(SEPARATING if byte in (0x18, 0x1A) else OTHER, start, self.at)

    def _through(self, kind: str, pattern: "re.Pattern[bytes]", leads: bool = False) -> PageCode:
        """All that a pattern takes at the front."""
        found = pattern.match(self.data, self.at)
        assert found
        self.at = found.end()
        return PageCode(kind, *found.span(), leads)

    def _graphic(self, byte: int) -> PageCode:
        if self.sets[self.left] != PDI:
            return self._through(KINDS[self.sets[self.left]], TYPED)
        start = self.at
        if byte >= 0x40:
            return self._through(UNREAD, WORDS)
        self.at += 1
        words = self._through(OTHER, WORDS)
        kind = OTHER
        if 0x26 <= byte <= 0x37:
            kind = SHAPE if words.end > words.start else UNREAD
        elif byte == 0x20 and words.end > words.start and self.data[words.start] >> 3 & 7 in CLEARS:
            kind = CLEARING
        return PageCode(kind, start, self.at)

    def _single_shift(self, start: int, register: int) -> PageCode:
        code = self._byte()
        if code is None or not 0x20 <= code < 0x80:
            return PageCode(UNREAD, start, self.at)
        self.at += 1
        if self.sets[register] == PDI:
            return PageCode(UNREAD, start, self.at)
        return PageCode(KINDS[self.sets[register]], start, self.at, leads=True)

    def _escape(self, start: int) -> PageCode:
        code = self._byte()
        if code in (0x6E, 0x6F):
            self.at += 1
            self.left = 2 if code == 0x6E else 3
            return PageCode(LEADING, start, self.at)
        if code is not None and 0x40 <= code <= 0x5F:
            self.at += 1
            return self._control(start, code)
        self.at = start
        designated = DESIGNATION.match(self.data, start)
        if designated:
            self.sets[(designated[1][0] - 0x28) % 4] = designated[2][0]
            self.at = designated.end()
            return PageCode(LEADING, start, self.at)
        if ANNOUNCER.match(self.data, start):
            return self._through(SEPARATING, ANNOUNCER)
        self.at = start + 1
        return PageCode(UNREAD, start, self.at)

    def _control(self, start: int, code: int) -> PageCode:
        """A control of the C1 set, with its argument, and with the body of a macro."""
        if code in ARGUMENTS:
            argument = self._byte()
            if argument is None or argument not in ARGUMENTS[code]:
                return PageCode(UNREAD, start, self.at)
            self.at += 1
        if code in BODIES:
            end = END_OF_BODY.search(self.data, self.at)
            self.at = end.start() if end else len(self.data)
        return PageCode(DEFINED if code in DEFINITIONS else LEADING, start, self.at)

    def _byte(self) -> Optional[int]:
        return self.data[self.at] if self.at < len(self.data) else None


def codes(data: bytes) -> Iterator[PageCode]:
    """The codes of bytes, in their order."""
    reader = PageCodes(data)
    while reader.at < len(data):
        yield reader.next()


# The beginning of a macro's definition with its name, and what ends its body; nothing between them is a code.
DEFINITION = rb"(?P<definition>\x1b[\x40\x41][^\x1b])"
# NSR with its place where it has one, CAN, 1A, announcers; and what may fill the room between two pages.
NSR, ANNOUNCER_PATTERN = rb"\x1f(?:[\x40-\x7f]{2})?", rb"\x1b[\x20-\x27][\x20-\x2f]*[\x30-\x7e]"
SEPARATOR = rb"\x18|\x1a|" + NSR + rb"|" + ANNOUNCER_PATTERN
FILLS = b"\x00\xe5\xf6\xff"
CLEAR = b"\x0c"
# What begins a page at its first byte or at a border: CS, SO with an opcode, or a definition.
BEGINS = re.compile(rb"\x0c|\x0e[\x20-\x3f]|\x1b[\x40\x41\x43\x44]")
# Among bytes above 7F a row of fewer bytes is no text, and so few are no page with parity or in eight bits. But a shape
# after SO is one in the shortest row.
LEAST_ROW = 16
ROWS = re.compile(rb"[\x00-\x7f]{%d,}|\x0e[\x26-\x37][\x40-\x7f]" % LEAST_ROW)
# So many more segments that can't be read than such that draw are noise, which is no capture.
MOST_UNREAD = 8
# The number of separators of a file in which borders are looked for.
MOST_SEPARATORS = 1_000_000


def tokens(code: bytes) -> "re.Pattern[bytes]":
    """The pattern of a code, for `outside`."""
    return re.compile(DEFINITION + b"|" + code, re.DOTALL)


# Separators that follow each other, with fills and line ends between them.
RUNS = tokens(rb"(?:%b)(?:%b|[\x00\xe5\xf6\xff\r\n])*" % (SEPARATOR, SEPARATOR))
AROUND_PAGE = re.compile(rb"(?:%b|[%b\r\n])*" % (SEPARATOR, re.escape(FILLS)))
PRINTED = re.compile(rb"[^\x00-\x20\x7f]")


class Piece(NamedTuple):
    """A part of a capture: where it is, how many bytes stand between it and the part before it, and why it was cut.

    Those bytes are the separators, or for the first part what comes before its page. A part that doesn't draw is text.
    """

    offset: int
    length: int
    before: int
    cut_at: str
    draws: bool

    @property
    def end(self) -> int:
        """Where it ends."""
        return self.offset + self.length


def outside(data: bytes, pattern: "re.Pattern[bytes]") -> Iterator["re.Match[bytes]"]:
    """The codes of a pattern that stand in no macro's body."""
    found = pattern.search(data)
    while found:
        at = found.end()
        if found["definition"] is None:
            yield found
        else:
            end = END_OF_BODY.search(data, at)
            at = end.start() if end else len(data)
        found = pattern.search(data, at)


def draws(data: bytes) -> bool:
    """Whether bytes draw that are read as from the beginning of a page, in seven bits, with parity or in eight bits."""
    if not data.translate(EIGHTH).count(1):
        return _draws(data)
    if any(len(found[0]) < LEAST_ROW or _draws(found[0]) for found in ROWS.finditer(data)):
        return True
    if len(data) < LEAST_ROW:
        return False
    return is_uniform(data) and _draws_without_a_fault(data.translate(PLAIN)) or _draws_in_eight_bits(data)


def content(data: bytes) -> bytes:
    """The bytes without the separators, fills and line ends at both ends."""
    found = AROUND_PAGE.match(data)
    assert found
    return data[found.end():].rstrip(b"\x18\x1a\x1f\r\n" + FILLS)


def text_length(data: bytes) -> int:
    """How many bytes of text these are, where they are text and nothing else; otherwise 0."""
    some = content(data)
    is_text = some and not some.translate(EIGHTH).count(1) and not any(code in some for code in LEADING_ON)
    return len(some) if is_text and PRINTED.search(some) else 0


def pieces(data: bytes) -> List[Piece]:
    """The parts of a capture, in their order, cut at each border; none where the bytes are no capture."""
    plain = data.translate(PLAIN) if is_uniform(data) else data
    found = list(_segments(plain))
    beside = {number + step for number, each in enumerate(found) if each.is_unread for step in (-1, 1)}
    found = [each._replace(draws=each.draws and (each.length >= LEAST_ROW or number not in beside))
             for number, each in enumerate(found)]
    drawn = [number for number, each in enumerate(found) if each.draws]
    if len(drawn) < max(2, sum(each.is_unread for each in found)):
        return []
    made: List[Piece] = []
    end = 0
    for number in range(drawn[0], drawn[-1] + 1):
        each = found[number]
        if made and not PRINTED.search(plain, each.start, each.end):
            continue
        made.append(Piece(each.start, each.length, each.start - end, each.cut_at if made else "the beginning",
                          each.draws))
        end = each.end
    return made


def pages_in(data: bytes) -> int:
    """How many pages a capture holds; 0 where the bytes are no capture."""
    return sum(each.draws for each in pieces(data))


def is_uniform(data: bytes) -> bool:
    """Whether the eighth bits are those of one parity or of a mark, and some byte has one."""
    bits = data.translate(EIGHTH).count(1)
    return bits > 0 and (bits == len(data) or data.translate(ODD).count(1) in (0, len(data)))


def clears_again(data: bytes) -> bool:
    """Whether CS, or RESET that clears the screen, comes behind something drawn in bytes without separators."""
    last = max((found.end() for found in CLEARED.finditer(data)), default=0)
    if not _draws(data[:last]):
        return False
    has_drawn = False
    for each in codes(data):
        if each.kind == CLEARING and has_drawn:
            return True
        has_drawn = has_drawn or each.kind in DRAWING or each.kind == TEXT
    return False


class _Segment(NamedTuple):
    """Bytes between two runs of separators, without the fills at their ends, and the separator before them.

    Where they don't draw, and bytes above 7F are among them, they can't be read.
    """

    start: int
    end: int
    cut_at: str
    draws: bool
    is_unread: bool

    @property
    def length(self) -> int:
        """How many bytes they are."""
        return self.end - self.start


def _segments(data: bytes) -> Iterator[_Segment]:
    """What stands between the separators. It ends where most of it can't be read."""
    runs = [found.span() for found in islice(outside(data, RUNS), MOST_SEPARATORS)]
    if not runs or len(runs) == MOST_SEPARATORS:
        return
    unread = 0
    for (begin, start), (end, _) in zip([(0, 0), *runs], [*runs, (len(data), 0)]):
        length = len(data[start:end].rstrip(FILLS))
        some = data[start:start + length]
        does = draws(some)
        is_unread = not does and some.translate(EIGHTH).count(1) > 0
        unread += is_unread - does
        if unread >= MOST_UNREAD:
            return
        yield _Segment(start, start + length, _named(data[begin:start]), does, is_unread)


def _named(run: bytes) -> str:
    """The separator that a run is told as: NSR, an announcer, CAN or 1A."""
    announcer = re.search(ANNOUNCER_PATTERN, run, re.DOTALL)
    if b"\x1f" in run:
        return "NSR"
    if announcer:
        return announcer[0][:2].hex(" ").upper()
    return "CAN" if b"\x18" in run else "1A"


def _draws_in_eight_bits(data: bytes) -> bool:
    """Whether bytes draw that are read in the eight-bit form without a fault."""
    try:
        plain = edited(data, eight_bit.edits(data))
    except NotSure:
        return False
    return _draws_without_a_fault(plain)


def _draws_without_a_fault(data: bytes) -> bool:
    """Whether bytes of seven bits draw, and each code of them can be read: bytes of something else rarely can."""
    return _draws(data) and is_read(data)


def is_read(data: bytes) -> bool:
    """Whether each code of bytes of seven bits can be read, as from the beginning of a page."""
    return all(each.kind != UNREAD for each in codes(data))


def _draws(data: bytes) -> bool:
    """Whether bytes of seven bits draw: bytes above 7F among them are passed over."""
    if not any(code in data for code in LEADING_ON):
        return False
    has_text = has_leading = False
    for each in codes(data):
        if each.kind in DRAWING:
            return True
        has_text = has_text or each.kind == TEXT
        has_leading = has_leading or each.kind == LEADING or each.leads
        if has_text and has_leading:
            return True
    return False
