"""The source of a page, with the letters of its texts."""
from itertools import groupby
from typing import Any, Dict, Iterable, Iterator, List, NamedTuple, Optional, Sequence, Tuple, Union

from naplps import letters
from naplps.entry import (
    HELD, ONE, Arc, Blink, Char, Colour, Entry, Field, GlyphStart, Line, Look, Map, MaskStart, Pen, Point, Poly,
    Position, Rect, Reset, TextMove, Texture, ToEol,
)
from naplps.writer import Attributes

from .translating import Translator
from .values import ADDRESSES, EDGE_BIT, FILL_BITS, LINE_BITS, NAMED, TEXTURES, TOP, TOP_NAME

# The most digits of a fraction that is the shortest one for a number of units, and of one that is equal to it.
MOST_SHORT, MOST_EXACT = 5, 8
# The greatest map whose colours are written as 1/16.
MOST_OF_MAP = 256
# The parts of a colour of 16 bits that #rrggbb can write are multiples of this.
OF_TWO_DIGITS = 257
FLAGS = ("r", "u", "w", "s")
_NAMES: Dict[Tuple[int, ...], str] = {
    (green * OF_TWO_DIGITS, red * OF_TWO_DIGITS, blue * OF_TWO_DIGITS): name
    for name, (red, green, blue) in NAMED.items() if name != "gray"}
_TEXTURE_NAMES = {word: name for name, word in TEXTURES.items()}


def fraction(units: int) -> Optional[str]:
    """A number of units as the shortest fraction that means it; None where that is long. Zero is `0`."""
    if units == 0:
        return "0"
    size = abs(units)
    if units in (ONE - 1, -ONE):
        return "1.0" if units > 0 else "-1.0"
    for digits in range(1, MOST_EXACT + 1):
        base = int(10 ** digits)
        number = (2 * size * base + ONE) // (2 * ONE)
        read_back = (2 * number * ONE + base) // (2 * base)
        is_exact = number * ONE == size * base
        if read_back == size and (digits <= MOST_SHORT or is_exact) and number < base:
            return f"{'-' if units < 0 else ''}0.{number:0{digits}}"
    return None


def position(place: Position) -> str:
    """A position or a size: both numbers as fractions where that is possible, else both as units."""
    x, y = fraction(place[0]), TOP_NAME if place[1] == TOP else fraction(place[1])
    return f"{place[0]},{place[1]}" if x is None or y is None else f"{x},{y}"


def pen(place: Pen) -> str:
    """A pen."""
    return place if isinstance(place, str) else position(place)


def size_of_map(entries: Iterable[Entry]) -> int:
    """How many colours a map has in which these entries name colours: a power of two; 1 where they need too many."""
    used = 0
    for entry in entries:
        if isinstance(entry, (Map, Blink)):
            used |= entry.address
        colour: Optional[Colour] = getattr(entry, "colour", None)
        if colour is not None and colour.kind in ("front", "pair"):
            for each in colour.parts:
                used |= each
    lowest = used & -used
    size = ADDRESSES // lowest if lowest else 1
    return size if size <= MOST_OF_MAP else 1


def address(number: int, size: int) -> str:
    """An address of a map of so many colours."""
    return str(number) if size == 1 else f"{number // (ADDRESSES // size)}/{size}"


def parts(value: Tuple[int, ...]) -> Optional[str]:
    """Green, red and blue by the name of the colour, or as #rrggbb; None for others."""
    if value in _NAMES:
        return _NAMES[value]
    if any(part % OF_TWO_DIGITS for part in value):
        return None
    green, red, blue = (part // OF_TWO_DIGITS for part in value)
    return f"#{red:02x}{green:02x}{blue:02x}"


def map_value(value: Tuple[int, ...]) -> str:
    """The value of a colour of the map."""
    return parts(value) or ",".join(map(str, value))


def colour(value: Colour, size: int) -> str:
    """A colour, of which addresses are those of a map of so many colours."""
    if value.kind in ("front", "pair"):
        return f"{value.kind}:{','.join(address(each, size) for each in value.parts)}"
    return value.kind == "direct" and parts(value.parts) or str(value)


def texture(value: Texture, left_out: Texture) -> str:
    """A texture, with its mask where that isn't the one that is left out."""
    line, edge, fill = (_TEXTURE_NAMES[value.word & bits] for bits in (LINE_BITS, EDGE_BIT, FILL_BITS))
    names = [name for name in (line, edge, fill) if name != _TEXTURE_NAMES[0]]
    word = "+".join(names) or _TEXTURE_NAMES[0]
    if value.mask == left_out.mask:
        return word
    return f"{word}/{'none' if value.mask is None else position(value.mask)}"


def look(value: Look, left_out: Look) -> str:
    """The look of text: its size; its flags and its words too where they aren't those that are left out."""
    size = value.size if isinstance(value.size, str) else position(value.size)
    given = (value.reverse, value.underline, value.wrap, value.scroll)
    flags = "".join(letter if flag else "-" for letter, flag in zip(FLAGS, given))
    if (value.first, value.second) != (left_out.first, left_out.second):
        return f"{value.first},{value.second}/{size}/{flags}"
    same = given == (left_out.reverse, left_out.underline, left_out.wrap, left_out.scroll)
    return size if same else f"{size}/{flags}"


def circle(entry: Arc) -> Optional[str]:
    """The middle and the radius of an arc that CIRCLE draws; None for others."""
    points = entry.points
    if len(points) != 3 or points[2] != points[0] or points[0][1] != points[1][1]:
        return None
    wide = points[1][0] - points[0][0]
    if wide <= 0 or wide % 2:
        return None
    radius = wide // 2
    return f"{position((points[0][0] + radius, points[0][1]))} {fraction(radius) or radius}"


# The most letters of a TEXT, and the fewest lines of one sort before which a comment says what they are.
MOST_LETTERS, LEAST_OF_GROUP = 80, 3
ACCENTED = 2
_SORTS: Tuple[Tuple[str, Tuple[type, ...]], ...] = (
    ("colours of the map", (Map,)), ("drawing", (Point, Line, Arc, Rect, Poly)), ("text", (Char, TextMove, ToEol)))


class _Run(NamedTuple):
    """Characters of one look that a TEXT writes."""

    entries: Tuple[Char, ...]
    text: str


class _SourcePiece(NamedTuple):
    """What one line of the source writes, and its sort; None for what has none."""

    written: Union[_Run, Entry]
    sort: Optional[str]


def source_lines(entries: Sequence[Entry]) -> Iterator[str]:
    """The lines of a source that makes these entries, which are those of a page."""
    writer = _Writer(size_of_map(entries))
    shown: Optional[str] = None
    for sort, group in groupby(_pieces(entries), lambda piece: piece.sort):
        pieces = list(group)
        if sort is not None and sort != shown and len(pieces) >= LEAST_OF_GROUP:
            yield f"# {sort}"
            shown = sort
        for piece in pieces:
            if isinstance(piece.written, (GlyphStart, MaskStart)):
                yield f"# {_definition(piece.written)}"
                shown = None
            yield writer.line(piece.written)


def _definition(entry: Union[GlyphStart, MaskStart]) -> str:
    return f"the character {entry.code:02x} of the set drcs" if isinstance(entry, GlyphStart) else (
        f"the mask {entry.mask} of textures")


def _pieces(entries: Sequence[Entry]) -> Iterator[_SourcePiece]:
    """What the lines of the source write, in order."""
    at = 0
    while at < len(entries):
        run = _run(entries, at)
        written: Union[_Run, Entry] = run if run.entries else entries[at]
        at += len(run.entries) or 1
        yield _SourcePiece(written, _sort(written))


def _sort(written: Union[_Run, Entry]) -> Optional[str]:
    first = written.entries[0] if isinstance(written, _Run) else written
    return next((sort for sort, kinds in _SORTS if isinstance(first, kinds)), None)


def _run(entries: Sequence[Entry], start: int) -> _Run:
    """The characters from there on that one TEXT writes; none where the first has no letter."""
    taken: List[Char] = []
    signs: List[str] = []
    while len(signs) < MOST_LETTERS:
        ahead = _continued(entries, start + len(taken), taken)
        sign = _sign(ahead)
        if not sign:
            break
        signs.append(sign)
        taken += ahead[:len(letters.codes(sign))]
    return _Run(tuple(taken), "".join(signs))


def _continued(entries: Sequence[Entry], at: int, taken: List[Char]) -> List[Char]:
    """The next characters, two at most, if they continue those that were taken, or the first of themselves."""
    ahead: List[Char] = []
    for entry in entries[at:at + ACCENTED]:
        if not isinstance(entry, Char):
            break
        first = taken[0] if taken else ahead[0] if ahead else None
        if first and (entry.pen != "after" or (entry.colour, entry.text) != (first.colour, first.text)):
            break
        ahead.append(entry)
    return ahead


def _sign(ahead: List[Char]) -> str:
    """The letter that the first characters write, of which TEXT makes the same; empty where there is none."""
    if not ahead or ahead[0].set not in ("primary", "supplementary"):
        return ""
    first = ahead[0]
    if letters.is_accent(first.set, first.code):
        if len(ahead) < ACCENTED or ahead[1].set not in ("primary", "supplementary"):
            return ""
        base = letters.letter(ahead[1].set, ahead[1].code)
        sign, wanted = letters.composed(first.code, base), tuple((each.set, each.code) for each in ahead)
    else:
        sign, wanted = letters.letter(first.set, first.code), ((first.set, first.code),)
    return sign if letters.codes(sign) == wanted else ""


class _Writer:
    """Writes lines, of which each leaves out what those before it set."""

    def __init__(self, map_size: int) -> None:
        self.map_size = map_size
        self.translator = Translator()

    def line(self, written: Union[_Run, Entry]) -> str:
        """The line of these characters, or of this entry."""
        entry = written.entries[0] if isinstance(written, _Run) else written
        fields = self._fields(entry, self.translator.left_out())
        for each in written.entries if isinstance(written, _Run) else (written,):
            self.translator.take(each)
        if isinstance(written, _Run):
            quoted = written.text.replace("\\", "\\\\").replace('"', '\\"')
            return " ".join(["TEXT", *fields, f'"{quoted}"'])
        return " ".join([*self._words(written), *fields])

    def _words(self, entry: Entry) -> List[str]:
        """The name of a line and its operands."""
        if isinstance(entry, Arc):
            middle = circle(entry)
            if middle:
                return ["CIRCLE-FILLED" if entry.filled else "CIRCLE", middle]
        if isinstance(entry, Map):
            return ["MAP", address(entry.address, self.map_size), map_value(entry.value)]
        if isinstance(entry, Blink):
            return ["BLINK", address(entry.address, self.map_size), f"{entry.on},{entry.off},{entry.delay}"]
        if isinstance(entry, (Point, Line, Arc, Rect, Poly)) or isinstance(entry, Field) and entry.corners:
            return [entry.kind, *map(position, entry.points)]
        if isinstance(entry, Reset):
            return ["RESET", str(entry.first), str(entry.second)]
        return [word for word in str(entry).split(" ") if "=" not in word]

    def _fields(self, entry: Entry, left_out: Attributes) -> List[str]:
        """The fields that aren't left out."""
        given: Dict[str, str] = {}
        for name in HELD.get(type(entry), ()):
            value, other = getattr(entry, name), getattr(left_out, name)
            if value != other:
                given[name] = self._value(name, value, other)
        return [f"{name}={value}" for name, value in given.items()]

    def _value(self, name: str, value: Any, left_out: Any) -> str:
        if name == "colour":
            return colour(value, self.map_size)
        if name == "texture":
            return texture(value, left_out)
        return look(value, left_out) if name == "text" else pen(value)
