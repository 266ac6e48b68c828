"""The raster of a page, which a walk over its entries paints."""
import hashlib
import struct
import sys
from array import array
from typing import Dict, Iterable, Iterator, List, NamedTuple, Optional, Sequence, Tuple, Union

from ..entry import (
    Arc, Blink, BlinkEnd, BlinkMark, Char, Clear, Colour, DefEnd, Entry, Field, GlyphStart, Line, Map, MaskStart, Point,
    Poly, Rect, Reset, TextMove, ToEol,
)
from ..letters import Rows, rows_of
from . import characters, shapes, surface
from .characters import DOT, CursorPlace, DotWriting, Sign
from .shapes import PAGE, Scale, Shape
from .surface import (
    ACROSS, BLACK, DIRECT, FORM, MARK, MOST_COUNTED, OF_ENTRY, SCREEN, UP, Canvas, Grid, Painted, Pattern, colour_of,
)

SHAPES = (Point, Line, Rect, Poly, Arc)
# RESET's codes for the screen: cleared to black, or to the colour in use.
TO_BLACK, TO_COLOUR = (1, 7), (2, 5, 6)
# In a glyph or a mask: what is drawn, and the black edge of an area.
NOTHING, DRAWN, EDGE = 0, 1, 2
# How much is kept of pictures of glyphs and masks; each row counts as its dots and so many more.
MOST_KEPT, OF_KEPT_ROW = 1 << 22, 256
# Each byte as a binary digit: whether it is the value.
DIGITS = {value: bytes(ord("1" if byte == value else "0") for byte in range(256)) for value in (DRAWN, EDGE)}
BOX = rows_of("\u25a1")
Numbered = Tuple[int, Entry]


class Body(NamedTuple):
    """What draws a glyph or a mask: its number, and its entries with their numbers."""

    number: int
    entries: Tuple[Numbered, ...]


class Picture(NamedTuple):
    """A glyph or a mask in dots: what of it is drawn and what is edge, and what it counts."""

    drawn: Rows
    edge: Rows
    counted: int


class Painter:
    """Paints shapes and characters at a scale: the page, a glyph or a mask."""

    def __init__(self, scale: Scale, canvas: Canvas, entries: Sequence[Entry]) -> None:
        self.scale, self.canvas, self.entries = scale, canvas, entries
        self.writing = DotWriting(scale, self.put, self._character_at)

    def _character_at(self, number: int) -> Optional[Char]:
        entry = self.entries[number] if number < len(self.entries) else None
        return entry if isinstance(entry, Char) else None

    def paint(self, number: int, entry: Entry) -> None:
        """Paints an entry, or moves the cursor by it."""
        writing = self.writing
        writing.number = number
        if isinstance(entry, Char):
            writing.character(entry)
        elif isinstance(entry, TextMove):
            writing.move(entry)
        elif isinstance(entry, ToEol):
            writing.to_end(entry)
        else:
            writing.flush()
            if isinstance(entry, SHAPES):
                self.shape(entry)
            elif isinstance(entry, Field):
                writing.cursor.set_field(entry.corners)
            elif isinstance(entry, (Clear, Reset)):
                if isinstance(entry, Reset) and entry.second & 1:
                    writing.cursor.set_field(None)
                writing.cursor.lose()

    def shape(self, entry: Shape) -> None:
        """Paints a shape."""
        raise NotImplementedError

    def put(self, sign: Sign) -> None:
        """Paints a character."""
        raise NotImplementedError


class DefinitionPainter(Painter):
    """Paints a glyph or a mask, all in what uses it."""

    def __init__(self, grid: Grid, entries: Sequence[Entry]) -> None:
        super().__init__(Scale(grid.wide, grid.high, grid), Canvas(grid, NOTHING, "B"), entries)
        self.writing.cursor.enter_glyph()

    def shape(self, entry: Shape) -> None:
        """Paints a shape without a pattern."""
        self.canvas.paint_parts(shapes.painted(entry, self.scale), DRAWN)
        if isinstance(entry, (Rect, Poly, Arc)) and entry.filled and entry.texture.word & 4:
            self.canvas.paint_parts(shapes.edge(entry, self.scale), EDGE)

    def put(self, sign: Sign) -> None:
        """Paints a character; a glyph is a box here."""
        grid = self.scale.grid
        rows = BOX if sign.set == "drcs" else sign.rows
        if sign.set == "mosaic":
            spans = characters.mosaic(sign.at, sign.code, sign.text.underline, grid)
        else:
            spans = characters.letter(sign.at, rows, grid)
        self.canvas.paint(Painted(spans, sign.counted), DRAWN)
        if sign.text.underline and sign.set in ("primary", "supplementary"):
            self.canvas.paint(Painted(characters.underline(sign.at, grid), 0), DRAWN)

    def picture(self, body: Body, most: int) -> Picture:
        """The picture of a glyph or a mask; no entry is painted once so much was counted."""
        canvas = self.canvas
        for number, entry in body.entries:
            if canvas.counted >= most:
                break
            canvas.counted += OF_ENTRY
            self.paint(number, entry)
        self.writing.flush()
        return Picture(self._rows(DRAWN), self._rows(EDGE), canvas.counted)

    def _rows(self, value: int) -> Rows:
        (wide, high), dots = self.scale.grid, self.canvas.inks.tobytes()
        if value not in dots:
            return (0,) * high
        digits = dots.translate(DIGITS[value])
        return tuple(int(digits[at:at + wide], 2) for at in range(0, len(digits), wide))


class PagePainter(Painter):
    """Paints a page."""

    def __init__(self, entries: Sequence[Entry]) -> None:
        super().__init__(PAGE, Canvas(SCREEN, BLACK), entries)
        self.mark = 0
        self.glyphs: Dict[int, Body] = {}
        self.masks: Dict[str, Body] = {}
        self._pictures: Dict[Tuple[int, Grid], Picture] = {}
        self._kept = 0

    def shape(self, entry: Shape) -> None:
        """Paints a shape, with its texture."""
        front, canvas = surface.front(entry.colour) | self.mark, self.canvas
        pattern = self._pattern(entry) if shapes.is_filled(entry) else None
        behind = None if pattern is None else surface.back(entry.colour)
        for part in shapes.painted(entry, self.scale):
            if behind is not None:
                canvas.paint(part._replace(counted=0), behind | self.mark)
            canvas.paint(part, front, pattern)
        if isinstance(entry, (Rect, Poly, Arc)) and entry.filled and entry.texture.word & 4:
            canvas.paint_parts(shapes.edge(entry, self.scale), BLACK | self.mark)

    def _pattern(self, entry: Shape) -> Optional[Pattern]:
        """The pattern of an area; None where it is solid."""
        assert not isinstance(entry, Point)
        which, grid = surface.kind(entry.texture), surface.tile(entry.texture.mask)
        if which == surface.SOLID:
            return None
        if which < surface.FIRST_MASK:
            return surface.lines(which, grid)
        body = self.masks.get("ABCD"[which - surface.FIRST_MASK])
        return surface.HALF_TONE if body is None else surface.masked(self._picture(body, grid).drawn, grid)

    def _picture(self, body: Body, grid: Grid) -> Picture:
        """The picture of a glyph or a mask, which counts whenever it is used."""
        canvas = self.canvas
        picture = self._pictures.get((body.number, grid))
        if picture is None or canvas.counted + picture.counted >= MOST_COUNTED:
            picture = DefinitionPainter(grid, self.entries).picture(body, MOST_COUNTED - canvas.counted)
            self._keep(body, grid, picture)
        canvas.counted += picture.counted
        return picture

    def _keep(self, body: Body, grid: Grid, picture: Picture) -> None:
        """Keeps a picture; those before it are dropped where that would be too much."""
        size = grid.high * (grid.wide + OF_KEPT_ROW)
        if self._kept + size > MOST_KEPT:
            self._pictures.clear()
            self._kept = 0
        self._pictures[body.number, grid] = picture
        self._kept += size

    def put(self, sign: Sign) -> None:
        """Paints a character in its cell."""
        front, behind = surface.front(sign.colour), surface.back(sign.colour)
        if sign.text.reverse:
            front, behind = BLACK if behind is None else behind, front
        canvas, grid = self.canvas, self.scale.grid
        canvas.counted += sign.counted
        if behind is not None:
            canvas.paint(Painted(characters.whole(sign.at, grid), 0), behind | self.mark)
        body = self.glyphs.get(sign.code) if sign.set == "drcs" else None
        if body is not None:
            self._glyph(sign, body, front | self.mark)
            return
        if sign.set == "mosaic":
            spans = characters.mosaic(sign.at, sign.code, sign.text.underline, grid)
        else:
            spans = characters.letter(sign.at, BOX if sign.set == "drcs" else sign.rows, grid)
        canvas.paint(Painted(spans, 0), front | self.mark)
        if sign.text.underline and sign.set in ("primary", "supplementary"):
            canvas.paint(Painted(characters.underline(sign.at, grid), 0), front | self.mark)

    def _glyph(self, sign: Sign, body: Body, ink: int) -> None:
        """Paints a glyph, whose dots are about those of its cell."""
        grid = Grid(_dots(sign.at.wide), _dots(sign.at.high))
        picture = self._picture(body, grid)
        for rows, each in ((picture.drawn, ink), (picture.edge, BLACK | self.mark)):
            if any(rows):
                spans = characters.glyph(sign.at, rows, grid.wide, self.scale.grid)
                self.canvas.paint(Painted(spans, 0), each)


def _dots(side: int) -> int:
    """A side in dots: the nearest whole number, and one at least."""
    return max((abs(side) + DOT // 2) // DOT, 1)


class DotWalk:
    """Paints the entries of a page one after another."""

    def __init__(self, entries: Sequence[Entry]) -> None:
        self.entries = entries
        self.page = PagePainter(entries)
        self.colour_map: Dict[int, int] = {}
        self.blinks: Dict[int, Blink] = {}
        self.colour = Colour("own-start")
        self.definition: Union[GlyphStart, MaskStart, None] = None
        self.body: List[Numbered] = []
        self.bodies = 0
        self.saved = CursorPlace()

    def steps(self) -> Iterator[int]:
        """Paints entry after entry, each when it is asked for, up to the bound; the number of each, from 0."""
        canvas = self.page.canvas
        for number, entry in enumerate(self.entries):
            if canvas.counted >= MOST_COUNTED:
                break
            canvas.counted += OF_ENTRY
            self._entry(number, entry)
            yield number
        self.page.writing.flush()

    def _entry(self, number: int, entry: Entry) -> None:
        page = self.page
        if self.definition is None:
            self.colour = getattr(entry, "colour", self.colour)
        if isinstance(entry, (GlyphStart, MaskStart)):
            page.writing.flush()
            self.definition, self.body = entry, []
            self.saved = page.writing.cursor.saved()
        elif isinstance(entry, DefEnd):
            self._end()
        elif self._changes(entry):
            page.writing.flush()
        elif self.definition is not None:
            self.body.append((number, entry))
        else:
            if isinstance(entry, Clear):
                page.writing.flush()
                page.canvas.fill(BLACK)
            elif isinstance(entry, Reset):
                page.writing.flush()
                self._reset(entry)
            page.paint(number, entry)

    def _changes(self, entry: Entry) -> bool:
        """Whether an entry changes the colours of what stands, or whether what comes blinks."""
        if isinstance(entry, Map):
            self.colour_map[entry.address] = surface.rgb(entry.value)
        elif isinstance(entry, Blink):
            self.blinks[surface.front(entry.colour)] = entry
        elif isinstance(entry, BlinkEnd):
            self.blinks.pop(surface.front(entry.colour), None)
        elif isinstance(entry, BlinkMark):
            self.page.mark = MARK if entry.on else 0
        else:
            return False
        return True

    def _reset(self, entry: Reset) -> None:
        screen = entry.first >> 3 & 7
        if screen in TO_BLACK:
            self.page.canvas.fill(BLACK)
        elif screen in TO_COLOUR:
            self.page.canvas.fill(surface.front(self.colour) | self.page.mark)

    def _end(self) -> None:
        definition, self.definition = self.definition, None
        if definition is None:
            return
        self.page.writing.cursor.put_back(self.saved)
        body = Body(self.bodies, tuple(self.body))
        self.bodies += 1
        if isinstance(definition, GlyphStart):
            self.page.glyphs[definition.code] = body
        else:
            self.page.masks[definition.mask] = body


class Raster(NamedTuple):
    """The dots of a page and its colour map.

    `inks` has 51,200 numbers, row by row from the lowest, each row from left to right: the address of a colour of the
    map, from 0 to 2**24 - 1, or 2**24 + red * 65536 + green * 256 + blue; and 2**25 more where BLINK START holds.
    `colour_map` has the colours that the page gave to addresses, as red * 65536 + green * 256 + blue. `drawn` of its
    `total` entries were painted: fewer where that would have been too much.
    """

    inks: "array[int]"
    colour_map: Dict[int, int]
    drawn: int
    total: int

    def ink(self, x: int, y: int) -> int:
        """The ink of a dot, counted from the lower left one, which is 0, 0."""
        return self.inks[y * ACROSS + x]

    def colours(self) -> Dict[int, int]:
        """The colour of each ink that a dot has, as red * 65536 + green * 256 + blue, where nothing blinks."""
        return {ink: colour_of(ink, self.colour_map) for ink in sorted(set(self.inks))}

    def hash(self) -> str:
        """The hash of the picture, as 64 hexadecimal digits: pages with the same one look the same in this form."""
        return hashlib.sha256(self.hashed()).hexdigest()

    def hashed(self) -> bytes:
        """What the hash is made of, as docs/RASTER.md has it."""
        bare = array("I", [ink & ~MARK for ink in self.inks])
        if sys.byteorder == "little":
            bare.byteswap()
        pairs = [(ink, colour_of(ink, self.colour_map)) for ink in sorted({ink & ~MARK for ink in self.inks})
                 if not ink & DIRECT]
        colours = b"".join(struct.pack(">II", ink, colour) for ink, colour in pairs)
        return struct.pack(">I", FORM) + bare.tobytes() + colours

    def rows(self) -> List["array[int]"]:
        """The rows of inks from the top of the screen down."""
        return [self.inks[at:at + ACROSS] for at in range((UP - 1) * ACROSS, -1, -ACROSS)]


def raster(entries: Iterable[Entry]) -> Raster:
    """The raster of a page with these entries, as docs/RASTER.md has it. It ends before the entry with which that would
    paint too much."""
    known: Sequence[Entry] = list(entries)
    walk = DotWalk(known)
    drawn = 0
    for number in walk.steps():
        drawn = number + 1
    return Raster(walk.page.canvas.inks, walk.colour_map, drawn, len(known))
