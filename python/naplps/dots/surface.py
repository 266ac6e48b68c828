"""The canvas of dots: its lengths, its inks, and the patterns that fill areas."""
from array import array
from functools import lru_cache
from typing import Dict, Iterable, List, NamedTuple, Optional, Sequence, Tuple

from ..drawing.colours import FIRST
from ..entry import ONE, Colour, Position, Texture
from ..letters import Rows

# The form of the rule: what is painted differently has another number.
FORM = 1
# Dots across and up; steps of points in a dot, and in half of one.
ACROSS, UP = 256, 200
UNIT = ONE // ACROSS
HALF = UNIT // 2
# A row of dots, the first dot in it that is painted, and the dot after the last one.
Span = Tuple[int, int, int]
# What a page may paint: no entry is painted once so much was counted, and what counts beside dots.
MOST_COUNTED = 1 << 26
OF_ENTRY, OF_ROW = 256, 16


class Grid(NamedTuple):
    """So many dots across and up: the raster, or a glyph or a mask at its size."""

    wide: int
    high: int


SCREEN = Grid(ACROSS, UP)


class Painted(NamedTuple):
    """What a shape paints, and how much that counts."""

    spans: List[Span]
    counted: int


class Box(NamedTuple):
    """The rectangle of a pel around its point: each side is half-open, in steps of points."""

    left: int
    right: int
    low: int
    high: int


def first(at: int) -> int:
    """The number of the first dot whose middle is at this place or after it."""
    return -((HALF - at) // UNIT)


def pel_box(pel: Position) -> Box:
    """The rectangle of a pel: each side is the nearest whole number of dots, and one dot at least. By a side of 0 the
    dot is painted in which the point is."""
    return Box(*_side(pel[0]), *_side(pel[1]))


def _side(length: int) -> Tuple[int, int]:
    if not length:
        return 1 - HALF, 1 + HALF
    size = max((abs(length) + HALF) // UNIT, 1) * UNIT
    return (0, size) if length > 0 else (-size, 0)


# An ink is an address, or DIRECT and eight bits each of red, green and blue; with MARK it is under BLINK START.
DIRECT, MARK = 1 << 24, 1 << 25
BLACK, WHITE = DIRECT, DIRECT | 0xFFFFFF
# The first colours of the map, by the upper four bits of an address.
FIRST_COLOURS: Tuple[int, ...] = tuple(int(colour[1:], 16) for colour in FIRST)


def rgb(parts: Tuple[int, ...]) -> int:
    """The colour of green, red and blue in 16 bits each: the upper eight of red, green and blue."""
    green, red, blue = (part >> 8 for part in parts)
    return red << 16 | green << 8 | blue


def front(colour: Colour) -> int:
    """The ink that is drawn with."""
    if colour.kind == "direct":
        return DIRECT | rgb(colour.parts)
    return colour.parts[0] if colour.kind in ("front", "pair") else WHITE


def back(colour: Colour) -> Optional[int]:
    """The ink behind a character or a texture, of a pair."""
    return colour.parts[1] if colour.kind == "pair" else None


def colour_of(ink: int, colour_map: Dict[int, int]) -> int:
    """The colour of an ink, as 24 bits of red, green and blue."""
    if ink & DIRECT:
        return ink & 0xFFFFFF
    address = ink & 0xFFFFFF
    known = colour_map.get(address)
    return FIRST_COLOURS[address >> 20] if known is None else known


class Pattern:
    """What a texture fills with: rows of dots that repeat, each set or not, from the lower left corner of the grid."""

    def __init__(self, wide: int, rows: Sequence[int]) -> None:
        """Each row has `wide` bits, the highest the left one."""
        self.wide, self.rows = wide, rows
        self._runs: Dict[int, List[Tuple[int, int]]] = {}

    def runs(self, row: int) -> List[Tuple[int, int]]:
        """The set dots of a row of the grid, as runs from left to right."""
        at = row % len(self.rows)
        if at not in self._runs:
            bits = self.rows[at]
            dots = [dot for dot in range(ACROSS) if bits >> (self.wide - 1 - dot % self.wide) & 1]
            ends = [dot for dot in dots if dot + 1 not in set(dots)] if len(dots) < ACROSS else [ACROSS - 1]
            starts = [0] if len(dots) == ACROSS else [dot for dot in dots if dot - 1 not in set(dots)]
            self._runs[at] = [(start, end + 1) for start, end in zip(starts, ends)]
        return self._runs[at]


class Canvas:
    """Dots of a grid, row by row from the lowest, and how much was counted for what was painted.

    The type code of `array` is that of inks, or "B" for numbers of one byte.
    """

    def __init__(self, grid: Grid, ground: int, typecode: str = "I") -> None:
        self.grid = grid
        self.inks = array(typecode, [ground]) * (grid.wide * grid.high)
        self.counted = 0
        self._solid: Dict[int, "array[int]"] = {}

    def paint(self, painted: Painted, ink: int, pattern: Optional[Pattern] = None) -> None:
        """Paints in an ink; with a pattern what that sets."""
        self.counted += painted.counted
        wide, inks = self.grid.wide, self.inks
        solid = self._row_of(ink)
        for row, start, end in painted.spans if pattern is None else _patterned(painted.spans, pattern):
            at = row * wide
            inks[at + start:at + end] = solid[:end - start]

    def paint_parts(self, parts: Iterable[Painted], ink: int) -> None:
        """Paints one part after another in an ink."""
        for part in parts:
            self.paint(part, ink)

    def fill(self, ink: int) -> None:
        """Fills all with an ink."""
        self.inks = array(self.inks.typecode, [ink]) * len(self.inks)

    def _row_of(self, ink: int) -> "array[int]":
        solid = self._solid.get(ink)
        if solid is None:
            if len(self._solid) >= 256:
                self._solid.clear()
            solid = self._solid[ink] = array(self.inks.typecode, [ink]) * self.grid.wide
        return solid


def _patterned(spans: Sequence[Span], pattern: Pattern) -> List[Span]:
    """What of the spans a pattern sets."""
    found: List[Span] = []
    for row, start, end in spans:
        for left, right in pattern.runs(row):
            if right > start and left < end:
                found.append((row, max(left, start), min(right, end)))
    return found


# Of a texture whose size the page doesn't give, and what a line of a texture has of the shorter side.
USUAL = Grid(6, 6)
SHARE = 6
SOLID, UPRIGHT, LEVEL, CROSSED, FIRST_MASK = range(5)
HALF_TONE = Pattern(2, (0b10, 0b01))


def kind(texture: Texture) -> int:
    """What the texture's word chooses: SOLID, UPRIGHT, LEVEL or CROSSED lines, or a mask from FIRST_MASK on."""
    return texture.word >> 3 & 7


def tile(size: Optional[Position]) -> Grid:
    """The dots of what a texture repeats: the nearest whole numbers, and one at least."""
    if size is None:
        return USUAL
    return Grid(max((abs(size[0]) + HALF) // UNIT, 1), max((abs(size[1]) + HALF) // UNIT, 1))


@lru_cache(maxsize=256)
def lines(which: int, grid: Grid) -> Pattern:
    """Upright lines, level lines or both, at the left and the lower side of what is repeated."""
    thick = max(min(grid) // SHARE, 1)
    whole = (1 << grid.wide) - 1
    upright = whole & ~(whole >> thick) if which in (UPRIGHT, CROSSED) else 0
    level = whole if which in (LEVEL, CROSSED) else upright
    return Pattern(grid.wide, tuple(level if row < thick else upright for row in range(grid.high)))


def masked(rows: Rows, grid: Grid) -> Pattern:
    """What a mask fills with, which has these rows."""
    return Pattern(grid.wide, rows)
