"""A page in words: its text by the places of letters, and its areas."""
from collections import Counter
from typing import Dict, Iterable, Iterator, List, NamedTuple, Optional, Sequence, Tuple

from .. import letters
from ..entry import (
    ONE, Arc, Blink, BlinkMark, Char, Clear, DefEnd, Entry, Field, GlyphStart, Line, Map, MaskStart, Point, Poly,
    Position, Rect, Reset, TextMove, ToEol, Wait,
)
from ..letters import COLUMNS, WRITTEN, columns_of
from .colours import Palette
from .paper import escaped
from .writing import RIGHT, TOP, Cell, TextCursor, cell

# Pieces that are so near to each other, as parts of a cell, stand in one row, or are one word.
SAME_ROW, SAME_WORD, TOUCHING = 0.5, 0.3, 0.01


class TextRow(NamedTuple):
    """A row of text, with one blank between its words at most; its start and its end in sides of the unit screen, and
    the height of its middle."""

    start: float
    end: float
    y: float
    text: str


class _PlacedPiece(NamedTuple):
    """Letters that follow each other along one row: the lower left corner, the end, the height and width of a cell."""

    y: float
    x: float
    end: float
    high: float
    wide: float
    signs: List[str]


class PlacedLetters:
    """Collects the letters of a screen, each once, whatever is drawn over them."""

    def __init__(self) -> None:
        self.cursor = TextCursor()
        self.pieces: List[_PlacedPiece] = []
        self.accent: Optional[Tuple[int, Cell]] = None
        self.scrolls = False

    def entry(self, entry: Entry) -> None:
        """Takes a character or a move of text."""
        assert isinstance(entry, (Char, TextMove, ToEol))
        size = cell(entry.text)
        self.scrolls = self.scrolls or size.scroll
        self.cursor.take(entry.pen, size)
        if isinstance(entry, Char):
            self._character(entry, size)
        elif isinstance(entry, TextMove):
            self.cursor.move(entry, size)
        else:
            self.cursor.x = self.cursor.field[2]

    def _character(self, entry: Char, size: Cell) -> None:
        if letters.is_accent(entry.set, entry.code):
            self._end_accent()
            self.accent = (entry.code, size)
            return
        sign = letters.letter(entry.set, entry.code) if entry.set in WRITTEN else " "
        accent, self.accent = self.accent, None
        if accent is not None:
            sign = letters.composed(accent[0], sign)
        columns = columns_of(entry.set, entry.code, accent[0] if accent else 0) if size.by_letters else COLUMNS - 1
        self._put(sign, size, columns)

    def _end_accent(self) -> None:
        """An accent without a letter is a sign of its own."""
        accent, self.accent = self.accent, None
        if accent is not None:
            self._add(letters.ALONE[accent[0]], accent[1], COLUMNS - 1)

    def _put(self, sign: str, size: Cell, columns: int) -> None:
        self.cursor.wrap(size, size.wide)
        self._add(sign, size, columns)
        self.cursor.step(size, columns)

    def _add(self, sign: str, size: Cell, columns: int) -> None:
        """Adds a sign of so many columns where the cursor is: to the last piece where it continues that."""
        x, y, wide, high = self.cursor.x, self.cursor.y, abs(size.wide), abs(size.high)
        step = abs(size.advance(columns))
        last = self.pieces[-1] if self.pieces and size.path == RIGHT else None
        if last and last.y == y and last.high == high and abs(last.end - x) <= TOUCHING * wide:
            last.signs.append(sign)
            self.pieces[-1] = last._replace(end=x + step)
        else:
            self.pieces.append(_PlacedPiece(y, x, x + step, high, wide, [sign]))

    def set_field(self, corners: Optional[Tuple[Position, Position]]) -> None:
        """Sets the field in which text is arranged; None is the whole screen."""
        self.cursor.set_field(corners)

    def lose(self) -> None:
        """Forgets where the cursor is: the next text begins at home."""
        self.cursor.lose()

    def clear(self) -> None:
        """Forgets the letters."""
        self.pieces, self.accent = [], None

    def rows(self) -> Iterator[TextRow]:
        """The rows of text from top to bottom; those of blanks alone are left out."""
        self._end_accent()
        row: List[_PlacedPiece] = []
        for piece in sorted(filter(None, map(_stripped, self.pieces)), key=lambda each: (-each.y, each.x)):
            if row and row[0].y - piece.y >= SAME_ROW * min(row[0].high, piece.high):
                yield _row(row)
                row = []
            row.append(piece)
        if row:
            yield _row(row)


def _stripped(piece: _PlacedPiece) -> Optional[_PlacedPiece]:
    """A piece without blanks at its ends; None where nothing is left."""
    text = "".join(piece.signs)
    bare = text.strip(" ")
    if not bare:
        return None
    step = (piece.end - piece.x) / len(text)
    start = piece.x + step * (len(text) - len(text.lstrip(" ")))
    return piece._replace(x=start, end=start + step * len(bare), signs=[bare])


def _row(pieces: List[_PlacedPiece]) -> TextRow:
    """The row of these pieces, from left to right."""
    made: List[str] = []
    ordered = sorted(pieces, key=lambda each: each.x)
    end = ordered[0].x
    for piece in ordered:
        if made and not -SAME_WORD * piece.wide < piece.x - end < SAME_WORD * piece.wide:
            made.append(" ")
        made += piece.signs
        end = max(end, piece.end)
    first = ordered[0]
    return TextRow(first.x, end, first.y + first.high / 2, " ".join("".join(made).split()))


# RESET with such a code for the screen clears it.
CLEARING = (1, 2, 5, 6, 7)
# The sets of characters that draw no letters, and the mosaic that draws nothing.
SIGNS, BLANK = ("mosaic", "drcs"), 0x20
# The least parts of the screen that an area of this name has, and the most areas that are named of one screen.
SIZES = ((0.2, "large"), (0.05, "medium-sized"), (0.01, "small"))
WHOLE, WIDE, MOST_AREAS = 0.9, 0.6, 12
# The most bytes of the description that a picture carries, of a character at most, and what a longer one ends with.
MOST_SHORT, MOST_OF_CHARACTER, CUT = 3000, 5, " .."
THIRDS_ACROSS, THIRDS_UP = ("left", "", "right"), ("bottom", "", "top")
# Green, red and blue are those of the lists; the parts of a name are red, green and blue.
NAMES: Dict[str, Tuple[int, int, int]] = {
    "black": (0, 0, 0), "dark grey": (80, 80, 80), "grey": (128, 128, 128), "light grey": (200, 200, 200),
    "white": (255, 255, 255), "red": (225, 30, 30), "dark red": (120, 0, 0), "orange": (255, 150, 0),
    "brown": (130, 80, 30), "yellow": (255, 240, 40), "light yellow": (250, 240, 170), "green": (30, 180, 30),
    "light green": (140, 240, 140), "dark green": (0, 90, 20), "cyan": (60, 220, 230), "blue": (30, 60, 230),
    "light blue": (130, 180, 250), "dark blue": (10, 25, 100), "magenta": (225, 40, 225), "purple": (110, 30, 140),
    "dark purple": (80, 20, 80), "pink": (250, 160, 190)}


class Screen(NamedTuple):
    """What is on the screen until it is cleared: rows of text from top to bottom; sentences on the areas, the largest
    first; how many shapes there are beside those areas; and how many mosaics and glyphs of the page's own."""

    rows: Tuple[TextRow, ...]
    areas: Tuple[str, ...]
    others: int
    mosaics: int = 0
    glyphs: int = 0

    def text_lines(self) -> List[str]:
        """The rows of text, each after its place in words."""
        return [f"{_place_of(row)}: {row.text}" for row in self.rows]

    def area_lines(self) -> List[str]:
        """The sentences on areas, and those on the other shapes and on what is made of mosaics and glyphs."""
        others = "1 smaller shape or line" if self.others == 1 else f"{self.others} smaller shapes and lines"
        made = [f"a picture of {count} {name}{'s' * (count > 1)}" for count, name in (
            (self.mosaics, "mosaic"), (self.glyphs, "glyph")) if count]
        return [*self.areas, *[others] * bool(self.others), *made]


class PageDescription(NamedTuple):
    """A page in words: its screens one after another, the text in glyphs and masks, and what changes by itself."""

    screens: Tuple[Screen, ...]
    defined: Tuple[str, ...]
    changes: Tuple[str, ...]

    def lines(self) -> List[str]:
        """It as lines of text."""
        found: List[str] = []
        for number, screen in enumerate(self.screens, 1):
            if len(self.screens) > 1:
                found.append(f"Screen {number} of {len(self.screens)}")
            found += screen.text_lines() + screen.area_lines()
        return [*found, *(f"in a definition: {text}" for text in self.defined), *self.changes] or ["nothing is drawn"]

    def short(self) -> str:
        """It as one text for a picture, which has MOST_SHORT bytes at most as text of XML."""
        text = "; ".join(self.lines())
        if len(escaped(text).encode("utf-8")) <= MOST_SHORT:
            return text
        return text[:MOST_SHORT // MOST_OF_CHARACTER - len(CUT)] + CUT


class _Area(NamedTuple):
    """A filled shape: its part of the screen, its middle as parts of the screen's sides, and its colour."""

    size: float
    x: float
    y: float
    colour: str


class _Describer:
    """Goes over entries and keeps what they draw, screen by screen."""

    def __init__(self, palette: Palette) -> None:
        self.palette = palette
        self.letters, self.defined = PlacedLetters(), PlacedLetters()
        self.is_defining = False
        self.areas: List[_Area] = []
        self.others = 0
        self.signs: Dict[str, int] = dict.fromkeys(SIGNS, 0)
        self.screens: List[Screen] = []
        self.blinks: Dict[str, None] = {}
        self.tenths = self.waits = 0

    def entry(self, entry: Entry) -> None:
        """Takes an entry."""
        if isinstance(entry, (GlyphStart, MaskStart)):
            self.is_defining = True
            self.defined.lose()
        elif isinstance(entry, DefEnd):
            self.is_defining = False
        elif isinstance(entry, (Char, TextMove, ToEol)):
            (self.defined if self.is_defining else self.letters).entry(entry)
            if isinstance(entry, Char) and entry.set in SIGNS and not self.is_defining:
                self.signs[entry.set] += entry.set != "mosaic" or entry.code != BLANK
        elif isinstance(entry, (Point, Line, Arc, Rect, Poly)):
            if not self.is_defining:
                self._shape(entry)
        else:
            self._other(entry)

    def _shape(self, entry: Entry) -> None:
        area = _area(entry, self.palette)
        if area is None:
            self.others += 1
        else:
            self.areas.append(area)

    def _other(self, entry: Entry) -> None:
        if isinstance(entry, Clear) or isinstance(entry, Reset) and entry.first >> 3 & 7 in CLEARING:
            self.end_screen()
        if isinstance(entry, (Clear, Reset)):
            self.letters.lose()
            if isinstance(entry, Reset) and entry.second & 1:
                self.letters.set_field(None)
        elif isinstance(entry, Field):
            self.letters.set_field(entry.corners)
        elif isinstance(entry, Blink):
            self.blinks[f"what is {colour_name(self.palette.front(entry.colour))} blinks"] = None
        elif isinstance(entry, BlinkMark) and entry.on:
            self.blinks["parts of the page blink"] = None
        elif isinstance(entry, Wait):
            self.waits, self.tenths = self.waits + 1, self.tenths + entry.tenths

    def end_screen(self) -> None:
        """Ends a screen, if anything is on it."""
        rows, areas, others = tuple(self.letters.rows()), self.areas, self.others
        signs = [self.signs[name] for name in SIGNS]
        self.letters.clear()
        self.areas, self.others, self.signs = [], 0, dict.fromkeys(SIGNS, 0)
        if rows or areas or others or any(signs):
            sentences, left = _sentences(areas)
            self.screens.append(Screen(rows, sentences, others + left, *signs))

    def changes(self) -> List[str]:
        """What changes by itself."""
        found = list(self.blinks)
        if self.letters.scrolls:
            found.append("text scrolls")
        if self.waits:
            often = "once" if self.waits == 1 else f"{self.waits} times"
            found.append(f"the page waits {often}, {self.tenths / 10:g} seconds in all")
        return found


def describe(entries: Sequence[Entry]) -> PageDescription:
    """The page with these entries in words. Each character of the primary and the supplementary set stands once in its
    texts, in the order of the screen; blanks at the ends of a text are left out."""
    describer = _Describer(Palette(entry for entry in entries if isinstance(entry, Map)))
    for entry in entries:
        describer.entry(entry)
    describer.end_screen()
    defined = tuple(row.text for row in describer.defined.rows())
    return PageDescription(tuple(describer.screens), defined, tuple(describer.changes()))


def colour_name(colour: str) -> str:
    """The name of the colour `#rrggbb` that is nearest to it."""
    parts = bytes.fromhex(colour[1:])
    return min(NAMES, key=lambda name: sum((one - other) ** 2 for one, other in zip(parts, NAMES[name])))


def _area(entry: Entry, palette: Palette) -> Optional[_Area]:
    """The area of a filled shape; None of other shapes, and of what is off the screen."""
    if not isinstance(entry, (Rect, Poly, Arc)) or not entry.filled:
        return None
    xs = [x / ONE for x, _ in entry.points]
    ys = [min(y / ONE, TOP) / TOP for _, y in entry.points]
    if isinstance(entry, Arc) and entry.points[0] == entry.points[-1] and len(entry.points) == 3:
        return _circle(entry.points, palette.front(entry.colour))
    box = (max(xs) - min(xs)) * (max(ys) - min(ys))
    size = box if isinstance(entry, Rect) else abs(_shoelace(list(zip(xs, ys))))
    return _Area(size, (max(xs) + min(xs)) / 2, (max(ys) + min(ys)) / 2, palette.front(entry.colour))


def _circle(points: Sequence[Position], colour: str) -> _Area:
    """The area of a circle, by the ends of its diameter."""
    (a, b), (c, d) = ((x / ONE, y / ONE) for x, y in points[:2])
    size = 3.1416 * ((c - a) ** 2 + (d - b) ** 2) / 4 / TOP
    return _Area(size, (a + c) / 2, (b + d) / 2 / TOP, colour)


def _shoelace(places: Sequence[Tuple[float, float]]) -> float:
    """The area of a polygon, negative where it runs clockwise."""
    return sum(a * d - c * b for (a, b), (c, d) in zip(places, [*places[1:], places[0]])) / 2


def _sentences(areas: Iterable[_Area]) -> Tuple[Tuple[str, ...], int]:
    """Sentences on the largest areas, and how many others there are."""
    ordered = sorted(areas, key=lambda area: -area.size)
    named = [area for area in ordered[:MOST_AREAS] if area.size >= SIZES[-1][0]]
    alike = Counter(map(_look, named))
    return tuple(_sentence(look, count) for look, count in alike.items()), len(ordered) - len(named)


class _Look(NamedTuple):
    """How an area looks: its size in words, empty where it is the whole screen; its colour; and its place in words."""

    size: str
    colour: str
    place: str


def _look(area: _Area) -> _Look:
    colour = colour_name(area.colour)
    if area.size >= WHOLE:
        return _Look("", colour, "")
    return _Look(next(name for least, name in SIZES if area.size >= least), colour, place_name(area.x, area.y))


def _sentence(look: _Look, count: int) -> str:
    if not look.size:
        return f"{look.colour} over the whole screen"
    if count > 1:
        return f"{count} {look.size} {look.colour} areas, {look.place}"
    return f"a {look.size} {look.colour} area, {look.place}"


def _place_of(row: TextRow) -> str:
    """Where on the screen a row of text is, in words. One that is nearly as wide as the screen has no side."""
    middle = (row.start + row.end) / 2
    return place_name(0.5 if row.end - row.start > WIDE and 0 <= middle <= 1 else middle, row.y / TOP)


def place_name(x: float, y: float) -> str:
    """Where on the screen a place is, given as parts of its sides from the lower left: in words."""
    if not (0 <= x <= 1 and 0 <= y <= 1):
        return "off the screen"
    words = [THIRDS_UP[min(int(y * 3), 2)], THIRDS_ACROSS[min(int(x * 3), 2)]]
    return " ".join(filter(None, words)) or "middle"
