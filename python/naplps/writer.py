"""Writes lines of what is drawn, beside what is current after each entry."""
import math
from contextlib import contextmanager
from dataclasses import dataclass, field, replace
from typing import Dict, Iterator, List, NamedTuple, Optional, Sequence, Tuple

from . import letters
from .entry import (
    HELD, ONE, Arc, Bell, Blink, Char, Clear, Colour, DefEnd, Entry, Field, GlyphStart, Line, Look, Map, MaskStart, Pen,
    Point, Poly, Position, Rect, Reset, TextMove, Texture, ToEol, Wait,
)
from .pages import make

# The greatest number of known colours of the map.
MOST_KNOWN = 16
OWN, OWN_AFTER_RESET = Colour("own-start"), Colour("own-reset")
PLAIN_LOOK = Look(0, 0, "normal", False, False, False, False)
PLAIN_TEXTURE = Texture(0, None)
# Bits of the words of RESET: the first has a colour code above that of the domain.
RESET_DOMAIN, RESET_TEXT, RESET_TEXTURE = 1, 1, 8


class Attributes(NamedTuple):
    """The part of what stands that a definition leaves as it was."""

    pen: Pen = "start"
    pel: Position = (0, 0)
    base: Colour = OWN
    colour: Colour = OWN
    texture: Texture = PLAIN_TEXTURE
    text: Look = PLAIN_LOOK

    def can_have_colour(self, colour: Colour) -> bool:
        """Whether an entry can have the colour here: some are gone once another was set."""
        if colour.kind in ("own-start", "own-reset"):
            return colour == self.base
        return colour.kind not in ("reset-2", "reset-3") or colour == self.colour

    def can_have_texture(self, texture: Texture) -> bool:
        """Whether an entry can have the texture here: once a mask has a size, none is without."""
        return texture.mask is not None or self.texture.mask is None


@dataclass
class PageState:
    """What stands: what is drawn with, the colours of the map that are known, and what the open definition began with.

    The latest of the known colours comes last.
    """

    drawing: Attributes = Attributes()
    saved: Optional[Attributes] = None
    known: Dict[int, Tuple[int, ...]] = field(default_factory=dict)
    is_behind_character: bool = False

    def repeats(self, entry: Entry) -> bool:
        """Whether the entry sets a colour of the map to what it is known to be, so that no page can have it."""
        return isinstance(entry, Map) and self.known.get(entry.address) == entry.value

    def take(self, entry: Entry) -> None:
        """An entry comes."""
        held = {name: getattr(entry, name) for name in HELD.get(type(entry), ())}
        if held:
            if "colour" in held and held["colour"].kind == "direct":
                held["base"] = held["colour"]
            self.drawing = self.drawing._replace(**held)
        self.is_behind_character = isinstance(entry, Char)
        if isinstance(entry, Map):
            self._map(entry)
        elif isinstance(entry, Reset):
            self._reset(entry)
        elif isinstance(entry, (GlyphStart, MaskStart)):
            self.saved = self.drawing
            self.drawing = self.drawing._replace(pen="start")
        elif isinstance(entry, DefEnd):
            self.drawing, self.saved = self.saved or self.drawing, None
        elif held:
            self.drawing = self.drawing._replace(pen=_pen_behind(entry, self.drawing.pen))

    def _map(self, entry: Map) -> None:
        self.known.pop(entry.address, None)
        self.known[entry.address] = entry.value
        if len(self.known) > MOST_KNOWN:
            del self.known[next(iter(self.known))]
        self.drawing = self.drawing._replace(colour=Colour("front", (entry.address,)))

    def _reset(self, entry: Reset) -> None:
        now = self.drawing._replace(pen="after")
        if entry.first & RESET_DOMAIN:
            now = now._replace(pel=(0, 0))
        code = entry.first >> 1 & 3
        if code:
            self.known.clear()
        if code == 1:
            now = now._replace(base=OWN_AFTER_RESET, colour=OWN_AFTER_RESET)
        elif code:
            now = now._replace(colour=Colour("reset-%d" % code))
        if entry.second & RESET_TEXT:
            now = now._replace(text=PLAIN_LOOK)
        if entry.second & RESET_TEXTURE:
            now = now._replace(texture=PLAIN_TEXTURE)
        self.drawing = now

    def misfit(self, entry: Entry) -> Optional[str]:
        """Why the entry can't come now; None where nothing stands against it."""
        reasons = [*self._held_misfits(entry)]
        if isinstance(entry, ToEol) and not self.is_behind_character:
            reasons.append("TO-EOL repeats a character, which has to be the line before it")
        if isinstance(entry, (GlyphStart, MaskStart)) and self.saved is not None:
            reasons.append("a definition is open: END has to come first")
        if isinstance(entry, DefEnd) and self.saved is None:
            reasons.append("there is no definition to end: GLYPH or MASK begins one")
        if self.repeats(entry):
            reasons.append("this address of the map has that colour already")
        return reasons[0] if reasons else None

    def _held_misfits(self, entry: Entry) -> List[str]:
        """Values that no page can restore once they are gone."""
        now, reasons = self.drawing, []
        pen: Optional[Pen] = getattr(entry, "pen", None)
        if isinstance(pen, str) and pen != now.pen:
            reasons.append("pen=%s doesn't stand here, pen=%s does" % (pen, shown_pen(now.pen)))
        colour: Optional[Colour] = getattr(entry, "colour", None)
        if colour is not None and not now.can_have_colour(colour):
            reasons.append(f"colour={colour} is gone once a colour was set, and the base is {now.base} here"
                           if colour.kind in ("own-start", "own-reset") else
                           f"colour={colour} doesn't stand here, colour={now.colour} does")
        texture: Optional[Texture] = getattr(entry, "texture", None)
        if texture is not None and not now.can_have_texture(texture):
            reasons.append("a mask has a size here, so texture=../none can't stand any more")
        return reasons


def shown_pen(pen: Pen) -> str:
    """The pen as lines have it."""
    return pen if isinstance(pen, str) else "%d,%d" % pen


def _pen_behind(entry: Entry, pen: Pen) -> Pen:
    """Where the pen is after an entry that leaves all else as it holds it."""
    if isinstance(entry, Point):
        return entry.at
    if isinstance(entry, Line):
        return entry.end
    if isinstance(entry, Arc):
        return entry.points[-1]
    if isinstance(entry, Rect):
        return (entry.end[0], entry.start[1])
    if isinstance(entry, Poly):
        return entry.points[0]
    return "after" if isinstance(entry, (Char, TextMove, ToEol, Clear, Field)) else pen


Place = Tuple[float, float]
# The step from an address of a map of sixteen colours to the next, in addresses of the lines.
SIXTEENTH = 1 << 20


class PageWriter:
    """The entries of a page, one after another. Each method gives the writer again.

    Places and sizes go to the nearest of a number of steps of the side, a power of two, as 256 of a screen 256
    pels across; without a number, of all that lines have. A whole side is the last position.
    """

    def __init__(self, steps: int = ONE) -> None:
        self.entries: List[Entry] = []
        self._steps = steps
        self._state = PageState()
        # What was set; None where what stands is drawn with.
        self._pen: Optional[Pen] = None
        self._pel: Optional[Position] = None
        self._colour: Optional[Colour] = None
        self._texture: Optional[Texture] = None
        self._look: Optional[Look] = None

    def add(self, *entries: Entry) -> "PageWriter":
        """These entries as they are, but those that set a colour of the map to what it is."""
        for entry in entries:
            if not self._state.repeats(entry):
                self.entries.append(entry)
                self._state.take(entry)
        return self

    def lines(self) -> List[str]:
        """The lines of the page, without their ends."""
        return list(map(str, self.entries))

    def made(self) -> bytes:
        """The page, as the program makes it. Raises NotMade."""
        return make(self.entries)

    def units(self, value: float) -> int:
        """A coordinate in the units that lines have."""
        return min(round(value * self._steps) * (ONE // self._steps), ONE - 1)

    def position(self, place: Place) -> Position:
        """A place or a size in these units."""
        return self.units(place[0]), self.units(place[1])

    # -- what is drawn with

    def rgb(self, red: float, green: float, blue: float) -> "PageWriter":
        """A colour of parts from 0 to 1."""
        self._colour = Colour("direct", _parts(red, green, blue))
        return self

    def select(self, front: int, back: Optional[int] = None) -> "PageWriter":
        """A colour of a map of sixteen, or two: foreground and background."""
        numbers = (front,) if back is None else (front, back)
        self._colour = Colour("front" if back is None else "pair", tuple(number * SIXTEENTH for number in numbers))
        return self

    def map(self, number: int, red: float, green: float, blue: float) -> "PageWriter":
        """Sets a colour of a map of sixteen."""
        return self.add(Map(number * SIXTEENTH, _parts(red, green, blue)))

    def pel(self, wide: float = 0.0, high: float = 0.0) -> "PageWriter":
        """The size of the pel."""
        self._pel = self.position((wide, high))
        return self

    def texture(self, line: int = 0, fill: int = 0, edge: bool = False) -> "PageWriter":
        """The texture of lines, from 0 to 3, and that of areas, from 0 to 7; and whether these have an edge."""
        self._texture = Texture(fill << 3 | edge << 2 | line, self._state.drawing.texture.mask)
        return self

    def size(self, name: str) -> "PageWriter":
        """The size of text: small, medium, normal, tall or double."""
        self._look = replace(self._text, size=name)
        return self

    def flags(self, reverse: bool = False, underline: bool = False, wrap: bool = False,
              scroll: bool = False) -> "PageWriter":
        """The flags of text: those that aren't named are off."""
        self._look = replace(self._text, reverse=reverse, underline=underline, wrap=wrap, scroll=scroll)
        return self

    @property
    def _text(self) -> Look:
        return self._look or self._state.drawing.text

    @property
    def _ink(self) -> Tuple[Position, Colour, Texture]:
        now = self._state.drawing
        return self._pel or now.pel, self._colour or now.colour, self._texture or now.texture

    def _hand(self) -> Tuple[Pen, Colour, Look]:
        """What the next character is written with; the place is used up."""
        now, pen, self._pen = self._state.drawing, self._pen, None
        return now.pen if pen is None else pen, self._colour or now.colour, self._text

    # -- shapes

    def points(self, *places: Place) -> "PageWriter":
        """Points."""
        pel, colour, _ = self._ink
        return self.add(*(Point(self.position(place), pel, colour) for place in places))

    def line(self, *places: Place) -> "PageWriter":
        """Lines from place to place."""
        ends = list(map(self.position, places))
        return self.add(*(Line(start, end, *self._ink) for start, end in zip(ends, ends[1:])))

    def polygon(self, places: Sequence[Place], filled: bool = True) -> "PageWriter":
        """A polygon."""
        return self.add(Poly(filled, tuple(map(self.position, places)), *self._ink))

    def rectangle(self, x: float, y: float, wide: float, high: float, filled: bool = True) -> "PageWriter":
        """A rectangle."""
        return self.add(Rect(filled, self.position((x, y)), self.position((x + wide, y + high)), *self._ink))

    def circle(self, x: float, y: float, radius: float, filled: bool = True) -> "PageWriter":
        """A circle around a place."""
        return self.arc([(x - radius, y), (x + radius, y), (x - radius, y)], filled)

    def arc(self, places: Sequence[Place], filled: bool = False) -> "PageWriter":
        """An arc through three places, or a curve through more."""
        return self.add(Arc(filled, tuple(map(self.position, places)), *self._ink))

    # -- text

    def to(self, x: float, y: float) -> "PageWriter":
        """The next character stands at a place."""
        self._pen = self.position((x, y))
        return self

    def at(self, x: float, y: float, words: str, size: str = "") -> "PageWriter":
        """Text at a place, in a size."""
        if size:
            self.size(size)
        return self.to(x, y).text(words)

    def text(self, words: str) -> "PageWriter":
        """Text: ASCII, the signs of the supplementary set and letters with an accent. Raises ValueError for others."""
        for _, sign in letters.signs(words):
            codes = letters.codes(sign)
            if not codes:
                raise ValueError(f"no set of characters has {sign!r}")
            for set_name, code in codes:
                self.character(set_name, code)
        return self

    def character(self, set_name: str, *codes: int) -> "PageWriter":
        """Characters of a set, primary, supplementary, mosaic or drcs, by their codes."""
        for code in codes:
            self.add(Char(set_name, code, *self._hand()))
        return self

    def move(self, name: str, *codes: int) -> "PageWriter":
        """A move of the cursor: APB, APF, APD, APU, APR or APH; or APS with its two bytes."""
        return self.add(TextMove(name, codes, *self._hand()))

    # -- the rest

    def clear(self) -> "PageWriter":
        """The screen is cleared."""
        return self.add(Clear(self._state.drawing.pen))

    def bell(self) -> "PageWriter":
        """The bell."""
        return self.add(Bell())

    def wait(self, tenths: int) -> "PageWriter":
        """A wait, in tenths of a second; one longer than 63 is several."""
        while tenths > 63:
            self.add(Wait(63))
            tenths -= 63
        return self.add(Wait(tenths))

    def blink(self, number: int, on: int, off: int, delay: int = 0) -> "PageWriter":
        """The colour blinks to one of a map of sixteen; on, off and delay are in tenths of a second."""
        return self.add(Blink(number * SIXTEENTH, on, off, delay, self._colour or self._state.drawing.colour))

    @contextmanager
    def glyph(self, code: int) -> Iterator["PageWriter"]:
        """What is drawn inside is the glyph of a code of the set drcs."""
        yield self.add(GlyphStart(code))
        self.add(DefEnd())

    @contextmanager
    def mask(self, name: str) -> Iterator["PageWriter"]:
        """What is drawn inside is the mask of a name, A, B, C or D."""
        yield self.add(MaskStart(name))
        self.add(DefEnd())


def _parts(red: float, green: float, blue: float) -> Tuple[int, ...]:
    """Green, red and blue of 16 bits each."""
    return tuple(round(part * 65535) for part in (green, red, blue))


def star(x: float, y: float, radius: float, points: int = 5) -> List[Place]:
    """The corners of a star."""
    out = []
    for i in range(2 * points):
        length = radius if i % 2 == 0 else radius * 0.42
        angle = math.pi / 2 + math.pi * i / points
        out.append((x + length * math.cos(angle), y + length * math.sin(angle)))
    return out


def blocks(rows: Sequence[str]) -> List[List[int]]:
    """Mosaic codes of a drawing in characters, where '#' is a block: two columns and three rows a code."""
    out = []
    wide = max(len(row) for row in rows)
    for top in range(0, len(rows), 3):
        codes = []
        for left in range(0, wide, 2):
            bits = [_is_on(rows, top + i // 2, left + i % 2) for i in range(6)]
            codes.append(0x20 | sum(weight for weight, on in zip((1, 2, 4, 8, 16, 64), bits) if on))
        out.append(codes)
    return out


def _is_on(rows: Sequence[str], row: int, column: int) -> bool:
    return row < len(rows) and column < len(rows[row]) and rows[row][column] == "#"
