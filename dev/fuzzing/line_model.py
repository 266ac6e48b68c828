"""What `make` answers to lines by docs/PROFILE.md: a model that shares nothing with the sources.

`fault_of` gives what is wrong with lines, or None where they make a page.
"""
import re
from typing import Callable, Dict, List, NamedTuple, Optional, Tuple

# The numbers of enum naplps_line_fault.
NO_LINE, MISFIT, UNCLOSED = 1, 2, 3
NUMBER = re.compile(rb"0|-?[1-9][0-9]{0,8}")
MOST_POINTS = 2001
MOST_KNOWN = 16

# Whether a text is a field of one sort.
Sort = Callable[[bytes], bool]


class LineFault(NamedTuple):
    """Why lines make no page: the kind, the line, its column, and the line of an opening."""

    kind: int
    line: int
    column: int = 0
    opening: int = 0


def numbers(count: int, least: int, most: int) -> Sort:
    """So many numbers of a range, with commas between them."""
    def fits(text: bytes) -> bool:
        parts = text.split(b",")
        return len(parts) == count and all(NUMBER.fullmatch(part) and least <= int(part) <= most for part in parts)
    return fits


def one_of(*names: str) -> Sort:
    """One of some names."""
    every = frozenset(name.encode() for name in names)
    return lambda text: text in every


def after(key: str, sort: Sort) -> Sort:
    """A field of a sort behind its key."""
    begin = key.encode() + b"="
    return lambda text: text.startswith(begin) and sort(text[len(begin):])


def either(*sorts: Sort) -> Sort:
    """A field of one sort or another."""
    return lambda text: any(sort(text) for sort in sorts)


WORD, ADDRESS, POINT = numbers(1, 0, 63), numbers(1, 0, 2**24 - 1), numbers(2, 0, 2**23 - 1)
DISPLACEMENT, VALUE, TIMES = numbers(2, -2**23, 2**23 - 1), numbers(3, 0, 65535), numbers(3, 0, 63)
COLOURS: Dict[bytes, Sort] = {b"direct": VALUE, b"front": ADDRESS, b"pair": numbers(2, 0, 2**24 - 1)}
SIZE = either(one_of("small", "medium", "normal", "tall", "double"), DISPLACEMENT)
WORDS = numbers(2, 0, 63)
FLAGS = re.compile(rb"[r-][u-][w-][s-]")


def is_code(text: bytes) -> bool:
    """A code from 20 to 7f."""
    return re.fullmatch(rb"[2-7][0-9a-f]", text) is not None


def is_colour(text: bytes) -> bool:
    """A colour."""
    name, colon, rest = text.partition(b":")
    if colon:
        return name in COLOURS and COLOURS[name](rest)
    return text in (b"own-start", b"own-reset", b"reset-2", b"reset-3")


def is_texture(text: bytes) -> bool:
    """A texture word and a mask size."""
    word, slash, size = text.partition(b"/")
    return bool(slash) and WORD(word) and (size == b"none" or DISPLACEMENT(size))


def is_look(text: bytes) -> bool:
    """Text attributes."""
    parts = text.split(b"/")
    return len(parts) == 3 and WORDS(parts[0]) and SIZE(parts[1]) and FLAGS.fullmatch(parts[2]) is not None


PEN, COLOUR = after("pen", either(one_of("start", "after"), POINT)), after("colour", is_colour)
INK = (after("pel", DISPLACEMENT), COLOUR, after("texture", is_texture))
HAND = (PEN, COLOUR, after("text", is_look))
SET = one_of("primary", "supplementary", "mosaic", "drcs")
STEP = one_of("APB", "APF", "APD", "APU", "APR", "APH")

# The fields behind a name.
FIELDS: Dict[bytes, Tuple[Sort, ...]] = {
    b"POINT": (POINT, *INK[:2]), b"LINE": (POINT, POINT, *INK), b"CHAR": (SET, is_code, *HAND), b"TO-EOL": HAND,
    b"RECT-OUTLINED": (POINT, POINT, *INK), b"RECT-FILLED": (POINT, POINT, *INK), b"MOVE": (STEP, *HAND),
    b"MAP": (ADDRESS, VALUE), b"BLINK": (ADDRESS, TIMES, COLOUR), b"BLINK-END": (COLOUR,), b"BLINK-START": (COLOUR,),
    b"BLINK-STOP": (COLOUR,), b"WAIT": (WORD,), b"BELL": (), b"CURSOR": (one_of("flash", "steady", "off"),),
    b"FIELD": (POINT, POINT, PEN), b"RESET": (WORD, WORD, PEN), b"CLEAR": (PEN,), b"GLYPH": (is_code,),
    b"MASK": (one_of("A", "B", "C", "D"),), b"END": (),
}
# What another first field makes of the fields.
SECOND: Dict[bytes, Tuple[bytes, Tuple[Sort, ...]]] = {
    b"MOVE": (b"APS", (one_of("APS"), is_code, is_code, *HAND)), b"FIELD": (b"whole", (one_of("whole"), PEN)),
}
LEAST_POINTS = {b"ARC-OUTLINED": 3, b"ARC-FILLED": 3, b"POLY-OUTLINED": 2, b"POLY-FILLED": 2}


def fields_of(words: List[bytes]) -> Optional[Tuple[Sort, ...]]:
    """The fields behind the name of a line, or None where it is none."""
    name = words[0]
    if name in LEAST_POINTS:
        count = 0
        while count < MOST_POINTS and count + 1 < len(words) and POINT(words[count + 1]):
            count += 1
        return (POINT,) * max(count, LEAST_POINTS[name]) + INK
    if name in SECOND and words[1:2] == [SECOND[name][0]]:
        return SECOND[name][1]
    return FIELDS.get(name)


def column_of(line: bytes, ended: bool) -> Optional[int]:
    """The column at which a line goes wrong, or None where it is one. `ended` tells whether LF is behind it."""
    words = line.split(b" ")
    fields = fields_of(words)
    if fields is None:
        return 1
    if not fields and len(words) > 1:
        return len(words[0]) + 1
    column = 1
    for at, word in enumerate(words):
        is_last = at == len(fields)
        if (at == len(words) - 1) != is_last or (at > 0 and not fields[at - 1](word)):
            return column
        column += len(word) + 1
    return None if ended else len(line) + 1


def held_by(words: List[bytes]) -> Dict[bytes, bytes]:
    """The attributes that the entry of a line holds."""
    parts = (word.partition(b"=") for word in words)
    return {key: value for key, equals, value in parts if equals}


class State:
    """What the fit of an entry depends on: where the pen is, base, colour, whether the texture has a mask size, the
    known colours of the map, the last entry, and what a definition has saved."""

    def __init__(self) -> None:
        self.pen, self.base, self.colour, self.is_masked = b"start", b"own-start", b"own-start", False
        self.known: List[Tuple[bytes, bytes]] = []
        self.last = b""
        self.saved: Optional[Tuple[bytes, bytes, bytes, bool]] = None

    def fits(self, words: List[bytes]) -> bool:
        """Whether the entry of a line fits."""
        held = held_by(words)
        pen, colour = held.get(b"pen", b""), held.get(b"colour", b"")
        if pen in (b"start", b"after") and pen != self.pen:
            return False
        if colour.startswith(b"own-") and colour != self.base:
            return False
        if colour.startswith(b"reset-") and colour != self.colour:
            return False
        if held.get(b"texture", b"").endswith(b"/none") and self.is_masked:
            return False
        return self._comes(words)

    def _comes(self, words: List[bytes]) -> bool:
        """Whether an entry of this kind may come."""
        name = words[0]
        if name == b"TO-EOL":
            return self.last == b"CHAR"
        if name in (b"GLYPH", b"MASK", b"END"):
            return (self.saved is not None) == (name == b"END")
        return name != b"MAP" or (words[1], words[2]) not in self.known

    def add(self, words: List[bytes]) -> None:
        """What an entry that fits leaves."""
        held = held_by(words)
        self.colour = held.get(b"colour", self.colour)
        if self.colour.startswith(b"direct:"):
            self.base = self.colour
        if b"texture" in held:
            self.is_masked = not held[b"texture"].endswith(b"/none")
        self.last = words[0]
        kind = words[0].partition(b"-")[0]
        if kind in (b"POINT", b"LINE", b"ARC", b"RECT", b"POLY"):
            self.pen = b"point"
        elif kind in (b"CHAR", b"MOVE", b"TO", b"CLEAR", b"FIELD", b"RESET"):
            self.pen = b"after"
        self._act(words)

    def _act(self, words: List[bytes]) -> None:
        """The effect of RESET, of a colour of the map, and of the ends of a definition."""
        name = words[0]
        if name == b"RESET":
            self._reset(int(words[1]), int(words[2]))
        elif name == b"MAP":
            self.colour = b"front:" + words[1]
            others = [pair for pair in self.known if pair[0] != words[1]]
            self.known = [(words[1], words[2]), *others][:MOST_KNOWN]
        elif name in (b"GLYPH", b"MASK"):
            self.saved = self.pen, self.base, self.colour, self.is_masked
            self.pen = b"start"
        elif name == b"END":
            assert self.saved is not None
            self.pen, self.base, self.colour, self.is_masked = self.saved
            self.saved = None

    def _reset(self, first: int, second: int) -> None:
        """The effect of RESET's words."""
        code = first >> 1 & 3
        if code:
            self.known = []
            self.colour = (b"own-reset", b"reset-2", b"reset-3")[code - 1]
        if code == 1:
            self.base = self.colour
        if second >> 3 & 1:
            self.is_masked = False


def fault_of(text: bytes) -> Optional[LineFault]:
    """What is wrong with lines: the first wrong line, or the opening of a definition that isn't ended."""
    state, opening, number = State(), 0, 0
    lines = text.split(b"\n")
    for number, line in enumerate(lines[:-1], 1):
        column = column_of(line, True)
        if column is not None:
            return LineFault(NO_LINE, number, column)
        words = line.split(b" ")
        if not state.fits(words):
            return LineFault(MISFIT, number)
        state.add(words)
        if words[0] in (b"GLYPH", b"MASK"):
            opening = number
    if lines[-1]:
        return LineFault(NO_LINE, number + 1, column_of(lines[-1], False) or 0)
    return LineFault(UNCLOSED, number, 0, opening) if state.saved is not None else None
