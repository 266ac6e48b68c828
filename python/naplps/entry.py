"""A class for each kind of entry, its JSON, and what reads entries from the lines that `naplps list` prints, as
docs/PROFILE.md has them."""
import io
import re
from dataclasses import dataclass
from functools import lru_cache, partial
from typing import (
    Any, Callable, ClassVar, Dict, Iterable, Iterator, NamedTuple, Optional, Pattern, Sequence, Tuple, Union, get_args,
)

from .answers import MOST_DIGITS
from .faults import NotALine
from .kinds import CHOICES, KEYS, KINDS, MORE, SIZES
from .names import Members

Position = Tuple[int, int]
# "start", where nothing has set it yet; "after", where nobody knows, as after text; or a position.
Pen = Union[str, Position]
# The side of the unit screen, in steps.
ONE = 1 << 23


def _pair(it: Position) -> str:
    return f"{it[0]},{it[1]}"


def _code(it: int) -> str:
    return f"{it:02x}"


def _joined(numbers: Iterable[int]) -> str:
    return ",".join(map(str, numbers))


def _pen(it: Pen) -> str:
    return it if isinstance(it, str) else _pair(it)


@dataclass(frozen=True)
class Colour:
    """A colour by its kind, with the parts green, red and blue, or the addresses."""

    kind: str
    parts: Tuple[int, ...] = ()

    def __str__(self) -> str:
        return f"{self.kind}:{_joined(self.parts)}" if self.parts else self.kind


@dataclass(frozen=True)
class Texture:
    """The texture word, and the size of the mask where one was given."""

    word: int
    mask: Optional[Position]

    def __str__(self) -> str:
        return f"{self.word}/{'none' if self.mask is None else _pair(self.mask)}"


@dataclass(frozen=True)
class Look:
    """How characters look: the two words of TEXT, the size by name or given, and the flags."""

    first: int
    second: int
    size: Union[str, Position]
    reverse: bool
    underline: bool
    wrap: bool
    scroll: bool

    def __str__(self) -> str:
        on = zip("ruws", (self.reverse, self.underline, self.wrap, self.scroll))
        flags = "".join(letter if is_on else "-" for letter, is_on in on)
        return f"{self.first},{self.second}/{_pen(self.size)}/{flags}"


class _Written:
    """What each entry is: its line has the words of its kind, and its values as the table of kinds has them."""

    @property
    def kind(self) -> str:
        """The first word of its line."""
        raise NotImplementedError

    def _values(self) -> Sequence[Any]:
        """The values after the first word."""
        return tuple(vars(self).values())

    def __str__(self) -> str:
        fields = zip(_fields(self.kind), self._values())
        return " ".join([self.kind, *(sort.key + sort.write(value) for sort, value in fields)])


@dataclass(frozen=True)
class _Shape(_Written):
    """A shape that is filled, or its outline alone."""

    _name: ClassVar[str]

    filled: bool

    @property
    def kind(self) -> str:
        """The first word of its line."""
        return f"{self._name}-{'FILLED' if self.filled else 'OUTLINED'}"

    def _values(self) -> Sequence[Any]:
        return super()._values()[1:]


@dataclass(frozen=True)
class Point(_Written):
    """A point, with the pel and the colour that it is drawn with."""

    kind: ClassVar[str] = "POINT"

    at: Position
    pel: Position
    colour: Colour

    @property
    def points(self) -> Tuple[Position, ...]:
        """The point."""
        return (self.at,)


@dataclass(frozen=True)
class Line(_Written):
    """A line between two points."""

    kind: ClassVar[str] = "LINE"

    start: Position
    end: Position
    pel: Position
    colour: Colour
    texture: Texture

    @property
    def points(self) -> Tuple[Position, ...]:
        """Its ends."""
        return (self.start, self.end)


@dataclass(frozen=True)
class Arc(_Shape):
    """An arc through three points, or a curve through more; filled or its outline alone."""

    _name: ClassVar[str] = "ARC"

    points: Tuple[Position, ...]
    pel: Position
    colour: Colour
    texture: Texture


@dataclass(frozen=True)
class Rect(_Shape):
    """A rectangle between two opposite corners; filled or its outline alone."""

    _name: ClassVar[str] = "RECT"

    start: Position
    end: Position
    pel: Position
    colour: Colour
    texture: Texture

    @property
    def points(self) -> Tuple[Position, ...]:
        """The corners."""
        return (self.start, self.end)


@dataclass(frozen=True)
class Poly(_Shape):
    """A polygon; filled or its outline alone."""

    _name: ClassVar[str] = "POLY"

    points: Tuple[Position, ...]
    pel: Position
    colour: Colour
    texture: Texture


@dataclass(frozen=True)
class Char(_Written):
    """A character: its set, "primary", "supplementary", "mosaic" or "drcs", and its code in that.

    `pen` is a position; or "start", where nothing has set it yet, or "after", where nobody knows, as after text.
    """

    kind: ClassVar[str] = "CHAR"

    set: str
    code: int
    pen: Pen
    colour: Colour
    text: Look


@dataclass(frozen=True)
class TextMove(_Written):
    """A move of the cursor: "APB", "APF", "APD", "APU", "APR", "APH", or "APS" with its two bytes."""

    kind: ClassVar[str] = "MOVE"

    move: str
    bytes: Tuple[int, ...]
    pen: Pen
    colour: Colour
    text: Look

    def _values(self) -> Sequence[Any]:
        move = " ".join([self.move, *map(_code, self.bytes)])
        return move, self.pen, self.colour, self.text


@dataclass(frozen=True)
class ToEol(_Written):
    """REPEAT TO EOL: the last character again, to the end of the line."""

    kind: ClassVar[str] = "TO-EOL"

    pen: Pen
    colour: Colour
    text: Look


@dataclass(frozen=True)
class Map(_Written):
    """An address of the colour map gets a value: green, red and blue."""

    kind: ClassVar[str] = "MAP"

    address: int
    value: Tuple[int, ...]


@dataclass(frozen=True)
class Blink(_Written):
    """A blink to the colour of an address: how long on, how long off, and the delay, as the code has them."""

    kind: ClassVar[str] = "BLINK"

    address: int
    on: int
    off: int
    delay: int
    colour: Colour

    def _values(self) -> Sequence[Any]:
        return self.address, (self.on, self.off, self.delay), self.colour


@dataclass(frozen=True)
class BlinkEnd(_Written):
    """The blink of a colour ends."""

    kind: ClassVar[str] = "BLINK-END"

    colour: Colour


@dataclass(frozen=True)
class BlinkMark(_Written):
    """What is drawn from here on blinks, or doesn't."""

    on: bool
    colour: Colour

    @property
    def kind(self) -> str:
        """The first word of its line."""
        return "BLINK-START" if self.on else "BLINK-STOP"

    def _values(self) -> Sequence[Any]:
        return (self.colour,)


@dataclass(frozen=True)
class Wait(_Written):
    """A wait, in tenths of a second."""

    kind: ClassVar[str] = "WAIT"

    tenths: int


@dataclass(frozen=True)
class Bell(_Written):
    """The bell."""

    kind: ClassVar[str] = "BELL"


@dataclass(frozen=True)
class Cursor(_Written):
    """The cursor is "flash", "steady" or "off" from here on."""

    kind: ClassVar[str] = "CURSOR"

    state: str


@dataclass(frozen=True)
class Field(_Written):
    """The field: its two opposite corners, or None for the whole screen."""

    kind: ClassVar[str] = "FIELD"

    corners: Optional[Tuple[Position, Position]]
    pen: Pen

    @property
    def points(self) -> Tuple[Position, ...]:
        """The corners, or none."""
        return self.corners or ()

    def __str__(self) -> str:
        return f"FIELD whole pen={_pen(self.pen)}" if self.corners is None else super().__str__()

    def _values(self) -> Sequence[Any]:
        return (*self.points, self.pen)


@dataclass(frozen=True)
class Reset(_Written):
    """RESET, with its two words."""

    kind: ClassVar[str] = "RESET"

    first: int
    second: int
    pen: Pen


@dataclass(frozen=True)
class Clear(_Written):
    """CS: the screen is cleared."""

    kind: ClassVar[str] = "CLEAR"

    pen: Pen


@dataclass(frozen=True)
class GlyphStart(_Written):
    """The glyph of a code of the DRCS set begins; what draws it stands before the next DefEnd."""

    kind: ClassVar[str] = "GLYPH"

    code: int


@dataclass(frozen=True)
class MaskStart(_Written):
    """A mask begins, "A", "B", "C" or "D"; what draws it stands before the next DefEnd."""

    kind: ClassVar[str] = "MASK"

    mask: str


@dataclass(frozen=True)
class DefEnd(_Written):
    """A glyph or a mask ends."""

    kind: ClassVar[str] = "END"


Entry = Union[Point, Line, Arc, Rect, Poly, Char, TextMove, ToEol, Map, Blink, BlinkEnd, BlinkMark, Wait, Bell, Cursor,
              Field, Reset, Clear, GlyphStart, MaskStart, DefEnd]
# What entries hold, by their classes.
HELD: Dict[type, Tuple[str, ...]] = {
    each: tuple(name for name in each.__dataclass_fields__ if name in KEYS.values()) for each in get_args(Entry)}
# What makes an entry of the values of a line, by the words that this begins with.
MAKERS: Dict[str, Callable[..., Entry]] = {
    "POINT": Point, "LINE": Line, "ARC-OUTLINED": partial(Arc, False), "ARC-FILLED": partial(Arc, True),
    "RECT-OUTLINED": partial(Rect, False), "RECT-FILLED": partial(Rect, True),
    "POLY-OUTLINED": partial(Poly, False), "POLY-FILLED": partial(Poly, True), "CHAR": Char,
    "MOVE": lambda move, *hand: TextMove(move, (), *hand),
    "MOVE APS": lambda row, column, *hand: TextMove("APS", (row, column), *hand), "TO-EOL": ToEol, "MAP": Map,
    "BLINK": lambda address, times, colour: Blink(address, times[0], times[1], times[2], colour), "BLINK-END": BlinkEnd,
    "BLINK-START": partial(BlinkMark, True), "BLINK-STOP": partial(BlinkMark, False), "WAIT": Wait, "BELL": Bell,
    "CURSOR": Cursor, "FIELD whole": partial(Field, None),
    "FIELD": lambda start, end, pen: Field((start, end), pen), "RESET": Reset, "CLEAR": Clear, "GLYPH": GlyphStart,
    "MASK": MaskStart, "END": DefEnd}


def members_of(it: Entry, place: Optional[int]) -> Members:
    """The members of an entry: kind and place, its own parts, and what it holds."""
    members: Members = {"kind": it.kind, "place": place, **_own_members(it)}
    for name, write in _ATTRIBUTES.items():
        if hasattr(it, name):
            members[name] = write(getattr(it, name))
    return members


def _own_members(it: Entry) -> Members:
    """The parts of its own."""
    if hasattr(it, "points"):
        return {"points": [list(each) for each in it.points]}
    if isinstance(it, Reset):
        return {"words": [it.first, it.second]}
    own = {} if isinstance(it, BlinkMark) else vars(it)
    return {_MEMBERS.get(name, name): list(value) if isinstance(value, tuple) else value
            for name, value in own.items() if name not in _ATTRIBUTES}


def _pen_members(pen: Pen) -> Members:
    return {"at": pen, "point": None} if isinstance(pen, str) else {"at": "point", "point": list(pen)}


def _colour_members(colour: Colour) -> Members:
    direct = colour.kind == "direct"
    return {"kind": colour.kind, "value": list(colour.parts) if direct else None,
            "addresses": [] if direct else list(colour.parts)}


def _texture_members(texture: Texture) -> Members:
    return {"word": texture.word, "mask": list(texture.mask) if texture.mask else None}


def _look_members(look: Look) -> Members:
    named = isinstance(look.size, str)
    return {"words": [look.first, look.second], "size": look.size if named else "given",
            "given": None if named else list(look.size), "reverse": look.reverse, "underline": look.underline,
            "wrap": look.wrap, "scroll": look.scroll}


# Members that have other names than the parts.
_MEMBERS = {"code": "character", "state": "cursor"}
# What entries hold, in the order of JSON.
_ATTRIBUTES: Dict[str, Callable[..., object]] = {
    "pel": list, "colour": _colour_members, "texture": _texture_members, "pen": _pen_members, "text": _look_members}


_NUMBER = "[0-9]{1,10}"
_POINT = f"-?{_NUMBER},-?{_NUMBER}"
_TWO, _THREE = f"{_NUMBER},{_NUMBER}", f"{_NUMBER},{_NUMBER},{_NUMBER}"
# What the lines of characters begin with.
OFTEN = "CHAR "


def _position(text: str) -> Position:
    x, y = text.split(",")
    return int(x), int(y)


def _positions(text: str) -> Tuple[Position, ...]:
    numbers = map(int, text.replace(",", " ").split())
    return tuple(zip(numbers, numbers))


def _numbers(text: str) -> Tuple[int, ...]:
    return tuple(map(int, text.split(",")))


def _read_pen(text: str) -> Pen:
    return _position(text) if "," in text else text


@lru_cache(maxsize=4096)
def _colour(text: str) -> Colour:
    kind, _, rest = text.partition(":")
    return Colour(kind, _numbers(rest) if rest else ())


# (many entries of a page have the same pel)
_pel = lru_cache(maxsize=1024)(_position)


@lru_cache(maxsize=4096)
def _texture(text: str) -> Texture:
    word, mask = text.split("/")
    return Texture(int(word), None if mask == "none" else _position(mask))


@lru_cache(maxsize=4096)
def _look(text: str) -> Look:
    words, size, flags = text.split("/")
    first, second = _numbers(words)
    reverse, underline, wrap, scroll = (flag != "-" for flag in flags)
    return Look(first, second, _position(size) if "," in size else size, reverse, underline, wrap, scroll)


class _Sort(NamedTuple):
    """A sort of fields: the pattern of its text, what reads the value of that and what writes it, and its name."""

    pattern: str
    read: Callable[[str], Any] = str
    write: Callable[[Any], str] = str
    key: str = ""


_SORTS: Dict[str, _Sort] = {
    **{sort: _Sort("|".join(names)) for sort, names in CHOICES.items()},
    "Addr": _Sort(_NUMBER, int), "Word": _Sort(_NUMBER, int),
    "Code": _Sort("[0-9a-f]{2}", lambda text: int(text, 16), _code),
    "Parts": _Sort(_THREE, _numbers, _joined), "Times": _Sort(_THREE, _numbers, _joined),
    "Point": _Sort(_POINT, _position, _pair), "Pel": _Sort(_POINT, _pel, _pair),
    "Colour": _Sort(f"own-start|own-reset|reset-2|reset-3|direct:{_THREE}|front:{_NUMBER}|pair:{_TWO}", _colour),
    "Texture": _Sort(f"{_NUMBER}/(?:none|{_POINT})", _texture), "Pen": _Sort(f"start|after|{_POINT}", _read_pen, _pen),
    "Look": _Sort(f"{_TWO}/(?:{'|'.join(SIZES)}|{_POINT})/[r-][u-][w-][s-]", _look)}


@lru_cache(maxsize=None)
def _fields(words: str) -> Tuple[_Sort, ...]:
    """The fields after these words; the points of a shape are one."""
    points, more, rest = KINDS[words].rpartition(MORE)
    repeated = f"{_POINT}(?: {_POINT}){{{len(points.split()) - 1},}}"
    shape = [_Sort(repeated, _positions, lambda it: " ".join(map(_pair, it)))] if more else []
    return (*shape, *(_SORTS[sort]._replace(key=f"{KEYS[sort]}=" if sort in KEYS else "") for sort in rest.split()))


@lru_cache(maxsize=64)
def _readers(first: str) -> Tuple[Tuple[Pattern[str], Tuple[Callable[[str], Any], ...], Callable[..., Entry]], ...]:
    """What reads the lines with this first word. The patterns are compiled when the first such line comes."""
    kinds = [(words, _fields(words)) for words in KINDS if words.partition(" ")[0] == first]
    return tuple((re.compile(" ".join([words, *(f"{each.key}({each.pattern})" for each in fields)])),
                  tuple(each.read for each in fields), MAKERS[words]) for words, fields in kinds)


def read_line(line: str) -> Entry:
    """The entry of a line, without its end. Raises NotALine."""
    # (a page has the same letter in the same look again and again)
    return _read_again(line) if line.startswith(OFTEN) else _read_line(line)


def _read_line(line: str) -> Entry:
    for pattern, reads, make in _readers(line.partition(" ")[0]):
        found = pattern.fullmatch(line)
        if found:
            return make(*[read(text) for read, text in zip(reads, found.groups())])
    raise NotALine(line[:200])


_read_again = lru_cache(maxsize=4096)(_read_line)


def read(lines: Iterable[str]) -> Iterator[Entry]:
    """The entries of these lines."""
    return map(read_line, lines)


class Entries:
    """The entries of lines, each read where it is asked for first; those that were asked for by number are kept."""

    def __init__(self, lines: Sequence[str]) -> None:
        self.lines = lines
        self._kept: Dict[int, Entry] = {}

    def __len__(self) -> int:
        return len(self.lines)

    def __getitem__(self, number: int) -> Entry:
        kept = self._kept.get(number)
        if kept is None:
            kept = self._kept[number] = read_line(self.lines[number])
        return kept

    def __iter__(self) -> Iterator[Entry]:
        kept = self._kept
        for number, line in enumerate(self.lines):
            yield kept.get(number) or read_line(line)


def placed(body: bytes) -> Iterator[Tuple[int, str]]:
    """The lines in the body of `places`, each after its place, one after another. Raises NotALine."""
    for row in lines_in(body):
        place, _, line = row.partition(" ")
        if not place.isdigit() or len(place) > MOST_DIGITS:
            raise NotALine(row[:200])
        yield int(place), line


def lines_in(body: bytes) -> Iterator[str]:
    """The lines in the body of `list`, one after another: of millions no more than one is held beside the body."""
    return (line.decode("ascii").removesuffix("\n") for line in io.BytesIO(body))
