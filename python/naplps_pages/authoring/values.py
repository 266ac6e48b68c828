"""Values as sources have them: numbers, positions, colours, looks; and what is wrong where one isn't understood."""
import re
from functools import lru_cache
from typing import Callable, Dict, List, NamedTuple, Optional, Tuple, TypeVar, Union

from naplps.entry import ONE, Colour, Look, Pen, Position, Texture
from naplps.kinds import SIZES

from .. import messages

MOST_QUOTED = 40


class Mistake(NamedTuple):
    """What is wrong at a line and a column of a source, both counted from 1; the column in characters."""

    line: int
    column: int
    message: str


class NotUnderstood(Exception):
    """A part of a line isn't understood: where it begins, in characters from the beginning of what was read."""

    def __init__(self, offset: int, message: str) -> None:
        super().__init__(offset, message)
        self.offset, self.message = offset, message


def quoted(text: str) -> str:
    """The text as a message shows it, cut where it is long."""
    return repr(text if len(text) <= MOST_QUOTED else text[:MOST_QUOTED - 3] + "...")


def expected(what: str, text: str, offset: int = 0) -> NotUnderstood:
    """The fault of a text that stands in the place of something else."""
    return NotUnderstood(offset, messages.EXPECTED.format(what=what, text=quoted(text)) if text else
                         messages.EXPECTED_HERE.format(what=what))


MOST_WORD, MOST_PART, ADDRESSES = 63, 65535, 1 << 24
# Digits of a whole number, and of a fraction.
MOST_DIGITS, MOST_FRACTION = 9, 30
FLAGS = "ruws"
# The parts red, green and blue of the colours that have a name, of 255.
NAMED: Dict[str, Tuple[int, int, int]] = {
    "black": (0, 0, 0), "white": (255, 255, 255), "red": (255, 0, 0), "green": (0, 255, 0), "blue": (0, 0, 255),
    "yellow": (255, 255, 0), "cyan": (0, 255, 255), "magenta": (255, 0, 255), "grey": (128, 128, 128),
    "gray": (128, 128, 128)}
POINT = "."
_WHOLE = re.compile("[0-9]+")
_FRACTION = re.compile(r"(-?)([0-9]*)\.([0-9]+)")
_SIGNED = re.compile("-?[0-9]+")
_SIX = re.compile("#[0-9a-fA-F]{6}")
_CODE = re.compile("[0-9a-fA-F]{2}")
A_POINT = messages.A_POINT.format(most=ONE - 1)
A_PEN = messages.A_PEN.format(point=A_POINT)
A_SIZE = messages.A_SIZE.format(least=-ONE, most=ONE - 1)
A_COLOUR = messages.A_COLOUR.format(names=", ".join(sorted(set(NAMED) - {"gray"})))
AN_ADDRESS = messages.AN_ADDRESS.format(most=ADDRESSES - 1)
A_RADIUS = messages.A_RADIUS.format(most=ONE // 2)
# The height of the part of the unit screen that screens show, 25/32 of the side, and its name.
TOP, TOP_NAME = ONE * 25 // 32, "top"
# The names in a texture by their parts of its word. One name of the first four and one of the last seven can stand.
TEXTURES: Dict[str, int] = {
    "solid": 0, "dotted": 1, "dashed": 2, "dot-dashed": 3, "edge": 4, "vertical": 8, "horizontal": 16, "cross": 24,
    "mask-a": 32, "mask-b": 40, "mask-c": 48, "mask-d": 56}
LINE_BITS, EDGE_BIT, FILL_BITS = 3, 4, 56
Kept = TypeVar("Kept")


def _split(text: str, between: str, count: int, what: str) -> List[Tuple[int, str]]:
    """A number of parts, each after its offset."""
    parts, at = [], 0
    for part in text.split(between):
        parts.append((at, part))
        at += len(part) + 1
    if len(parts) != count:
        raise expected(what, text)
    return parts


def inner(read: Callable[[str], Kept], offset: int, text: str) -> Kept:
    """A value that begins at an offset of another."""
    try:
        return read(text)
    except NotUnderstood as error:
        raise NotUnderstood(offset + error.offset, error.message) from None


def whole(text: str, most: int) -> int:
    """A whole number from 0 to `most`."""
    if not text.isascii() or not _WHOLE.fullmatch(text) or len(text) > MOST_DIGITS or int(text) > most:
        raise expected(messages.A_WHOLE_NUMBER.format(most=most), text)
    return int(text)


@lru_cache(maxsize=1 << 16)
def _coordinate(text: str, least: int, what: str) -> int:
    """A coordinate in units, or as a fraction of the unit screen; the greatest fraction, 1, is the last unit."""
    found = _FRACTION.fullmatch(text) if text.isascii() else None
    if found:
        if len(found[2]) + len(found[3]) > MOST_FRACTION:
            raise NotUnderstood(0, messages.LONG_FRACTION.format(most=MOST_FRACTION))
        number, base = int(found[2] + found[3]), int(10 ** len(found[3]))
        units = (2 * number * ONE + base) // (2 * base)
        if number > base or (found[1] and units and least == 0):
            raise expected(what, text)
        return -units if found[1] else min(units, ONE - 1)
    if not text.isascii() or not _SIGNED.fullmatch(text) or len(text) > MOST_DIGITS or not least <= int(text) < ONE:
        raise expected(what, text)
    return int(text)


def _position(text: str, least: int, what: str) -> Position:
    def read(part: str) -> int:
        return _coordinate(part, least, what)
    (_, x), (at, y) = _split(text, ",", 2, what)
    found = read(x), TOP if y == TOP_NAME else inner(read, at, y)
    _check_units(x, y, 0)
    _check_units(y, x, at)
    return found


def _check_units(text: str, other: str, offset: int) -> None:
    """Raises NotUnderstood for units beside a fraction: whoever writes 1 there means 1.0. Zero is both."""
    if (POINT in other or other == TOP_NAME) and POINT not in text and text != TOP_NAME and int(text):
        meant = f"{text}.0" if text in ("1", "-1") else messages.A_FRACTION
        raise NotUnderstood(offset, messages.UNITS_BESIDE_FRACTION.format(what=meant, text=quoted(text), other=other))


def radius(text: str) -> int:
    """A radius in units."""
    found = _coordinate(text, 0, A_RADIUS)
    if not 0 < found <= ONE // 2:
        raise expected(A_RADIUS, text)
    return found


def point(text: str) -> Position:
    """A point of the unit screen."""
    return _position(text, 0, A_POINT)


def size(text: str) -> Position:
    """A size or a displacement."""
    return _position(text, -ONE, A_SIZE)


def pen(text: str) -> Pen:
    """A pen: a point, start or after."""
    return text if text in ("start", "after") else _position(text, 0, A_PEN)


def word(text: str) -> int:
    """A word of six bits."""
    return whole(text, MOST_WORD)


def words(text: str) -> Tuple[int, ...]:
    """Three words, on,off,delay."""
    return tuple(inner(word, at, part) for at, part in _split(text, ",", 3, messages.ON_OFF_DELAY))


def code(text: str) -> int:
    """A code of a set, 20 to 7f, in hexadecimal digits."""
    if not text.isascii() or not _CODE.fullmatch(text) or not 0x20 <= int(text, 16) <= 0x7F:
        raise expected(messages.A_CODE_OF_SET, text)
    return int(text, 16)


def address(text: str) -> int:
    """An address of the colour map: of 24 bits, or as K/M, the colour K of a map of M colours."""
    if "/" not in text:
        return _whole_as(text, ADDRESSES - 1, AN_ADDRESS)
    (_, number), (at, count) = _split(text, "/", 2, AN_ADDRESS)
    colours = inner(lambda part: _whole_as(part, ADDRESSES, messages.A_NUMBER_OF_COLOURS), at, count)
    if colours == 0 or colours & (colours - 1):
        raise expected(messages.A_NUMBER_OF_COLOURS, count, at)
    return _whole_as(number, colours - 1, messages.A_COLOUR_OF_MAP.format(most=colours - 1)) * (ADDRESSES // colours)


def _whole_as(text: str, most: int, what: str) -> int:
    try:
        return whole(text, most)
    except NotUnderstood as error:
        raise expected(what, text) from error


def _parts(text: str) -> Tuple[int, ...]:
    """Green, red and blue of 16 bits each."""
    what = messages.GREEN_RED_BLUE.format(most=MOST_PART)
    return tuple(inner(lambda part: _whole_as(part, MOST_PART, what), at, part)
                 for at, part in _split(text, ",", 3, what))


def _addresses(text: str) -> Tuple[int, ...]:
    return tuple(inner(address, at, part) for at, part in _split(text, ",", 2, messages.TWO_ADDRESSES))


def _direct(red: int, green: int, blue: int) -> Colour:
    """A colour of parts from 0 to 255."""
    return Colour("direct", (green * 257, red * 257, blue * 257))


def _shown_colour(text: str) -> Optional[Colour]:
    """A colour by its name or as #rrggbb; None for other words."""
    if text in NAMED:
        return _direct(*NAMED[text])
    if text.startswith("#"):
        if not text.isascii() or not _SIX.fullmatch(text):
            raise expected(messages.SIX_DIGITS, text)
        return _direct(*bytes.fromhex(text[1:]))
    return None


@lru_cache(maxsize=4096)
def colour(text: str) -> Colour:
    """A colour by its name, as #rrggbb, or as lines have it."""
    shown = _shown_colour(text)
    if shown is not None:
        return shown
    kind, colon, rest = text.partition(":")
    at = len(kind) + 1
    if text in ("own-start", "own-reset", "reset-2", "reset-3"):
        return Colour(text)
    if not colon:
        raise expected(A_COLOUR, text)
    if kind == "front":
        return Colour(kind, (inner(address, at, rest),))
    if kind == "pair":
        return Colour(kind, inner(_addresses, at, rest))
    if kind == "direct":
        return Colour(kind, inner(_parts, at, rest))
    raise expected(A_COLOUR, text)


def map_value(text: str) -> Tuple[int, ...]:
    """The value of a colour of the map: a colour by its name or as #rrggbb, or green, red and blue as lines have it."""
    shown = _shown_colour(text)
    if shown is not None:
        return shown.parts
    if "," not in text:
        raise expected(messages.A_MAP_COLOUR, text)
    return _parts(text)


class TextureParts(NamedTuple):
    """The parts of a texture that are given; of the mask, whether it is, since none is a mask too."""

    word: Optional[int] = None
    has_mask: bool = False
    mask: Optional[Position] = None

    def over(self, texture: Texture) -> Texture:
        """The texture with these parts."""
        if self is NO_TEXTURE_PARTS:
            return texture
        return Texture(texture.word if self.word is None else self.word, self.mask if self.has_mask else texture.mask)


NO_TEXTURE_PARTS = TextureParts()


@lru_cache(maxsize=4096)
def texture(text: str) -> TextureParts:
    """A texture, whose mask may be left out."""
    number, between, mask = text.partition("/")
    value = _whole_as(number, MOST_WORD, messages.A_TEXTURE) if number[:1].isdigit() else _named_texture(number)
    if not between:
        return TextureParts(value)
    return TextureParts(value, True, None if mask == "none" else inner(size, len(number) + 1, mask))


def _named_texture(text: str) -> int:
    """The word of a texture by its names."""
    word, at = 0, 0
    taken = 0
    for name in text.split("+"):
        if name not in TEXTURES:
            raise expected(messages.A_TEXTURE, name, at)
        part = TEXTURES[name]
        bits = EDGE_BIT if part == EDGE_BIT else LINE_BITS if part <= LINE_BITS else FILL_BITS
        if taken & bits:
            raise NotUnderstood(at, messages.TEXTURES_OF_ONE_KIND.format(name=name, names=messages.A_TEXTURE))
        word, taken, at = word | part, taken | bits, at + len(name) + 1
    return word


class LookParts(NamedTuple):
    """The parts of a look that are given: both words, the size, the flags."""

    words: Optional[Tuple[int, int]] = None
    size: Union[str, Position, None] = None
    flags: Optional[Tuple[bool, ...]] = None

    def over(self, look: Look) -> Look:
        """The look with these parts."""
        if self is NO_LOOK_PARTS:
            return look
        first, second = self.words or (look.first, look.second)
        flags = self.flags or (look.reverse, look.underline, look.wrap, look.scroll)
        return Look(first, second, look.size if self.size is None else self.size, *flags)


NO_LOOK_PARTS = LookParts()


@lru_cache(maxsize=4096)
def look(text: str) -> LookParts:
    """The look of text: its size; its size and flags; or its words, size and flags."""
    parts = text.split("/")
    if len(parts) > 3:
        raise expected(messages.A_LOOK, text)
    at, both = 0, None
    if len(parts) == 3:
        both, at = _two_words(parts.pop(0)), text.index("/") + 1
    flags = _flags(parts[1], at + len(parts[0]) + 1) if len(parts) == 2 else None
    return LookParts(both, _size_of_text(parts[0], at), flags)


def _size_of_text(text: str, at: int) -> Union[str, Position]:
    if text in SIZES:
        return text
    if "," not in text:
        raise expected(messages.A_LOOK, text, at)
    return inner(size, at, text)


def _two_words(text: str) -> Tuple[int, int]:
    (_, first), (at, second) = _split(text, ",", 2, messages.TWO_WORDS)
    return word(first), inner(word, at, second)


def _flags(text: str, at: int) -> Tuple[bool, ...]:
    if len(text) != len(FLAGS) or any(each not in (letter, "-") for each, letter in zip(text, FLAGS)):
        raise expected(messages.FOUR_FLAGS, text, at)
    return tuple(each != "-" for each in text)
