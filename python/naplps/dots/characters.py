"""Characters as dots: where the cursor goes, which dots of its cell each has, and how these are painted."""
from functools import lru_cache
from typing import Callable, List, NamedTuple, Optional, Sequence, Tuple

from .. import letters
from ..entry import ONE, Char, Colour, Look, Pen, Position, TextMove, ToEol
from ..letters import COLUMNS, ROWS, WRITTEN, Rows, accent_alone, rows_of_character, width
from .shapes import Scale
from .surface import ACROSS, OF_ENTRY, UP, Grid, Span

PART = 60
SIDE = ONE * PART
DOT = SIDE // ACROSS
TOP = DOT * UP
SIZES = {"small": (SIDE // 80, SIDE // 128 * 5), "medium": (SIDE // 32, SIDE // 64 * 3),
         "normal": (SIDE // 40, SIDE // 128 * 5), "tall": (SIDE // 40, SIDE // 64 * 5),
         "double": (SIDE // 20, SIDE // 64 * 5)}
# How far a cell is from the next one, in quarters; the last kind of spacing is by the letters.
SPACINGS, PROPORTIONAL = (4, 5, 6, 4), 3
RIGHT, LEFT, UPWARD, DOWN = range(4)
FIRST_OF_APS = 0x20


class DotCell(NamedTuple):
    """A cell: its size, what the bits of TEXT say of rotation, path and spacing, and whether text scrolls."""

    wide: int
    high: int
    rotation: int
    path: int
    spacing: int
    scroll: bool

    def spaced(self, length: int) -> int:
        """A side of it with the space after it."""
        return length * SPACINGS[self.spacing] // 4

    def advance(self, columns: int) -> int:
        """How far the next character is from one with so many columns."""
        if self.spacing == PROPORTIONAL and self.path in (RIGHT, LEFT):
            return self.wide * (columns + 1) // 6
        return self.spaced(self.wide)


@lru_cache(maxsize=1024)
def cell(look: Look) -> DotCell:
    """The cell of a text look."""
    if isinstance(look.size, str):
        wide, high = SIZES[look.size]
    else:
        wide, high = look.size[0] * PART, look.size[1] * PART
    return DotCell(wide, high, look.first & 3, look.first >> 2 & 3, look.first >> 4 & 3, look.scroll)


class CursorPlace(NamedTuple):
    """What a definition puts back at its end: the place, whether it is known and has scrolled, and the field."""

    x: int = 0
    y: int = 0
    known: bool = False
    scrolled: bool = False
    field: Tuple[int, int, int, int] = (0, 0, SIDE, TOP)


class DotCursor:
    """The place of the next character: the lower left corner of its cell."""

    def __init__(self) -> None:
        self.put_back(CursorPlace())

    def saved(self) -> CursorPlace:
        """What a definition puts back at its end."""
        return CursorPlace(self.x, self.y, self.known, self.scrolled, self.field)

    def put_back(self, saved: CursorPlace) -> None:
        """Goes where it was saved."""
        self.x, self.y, self.known, self.scrolled, self.field = saved

    def enter_glyph(self) -> None:
        """Goes to the corner of a glyph or a mask, whose unit screen is the field."""
        self.put_back(CursorPlace(known=True, field=(0, 0, SIDE, SIDE)))

    def take(self, pen: Pen, size: DotCell) -> None:
        """Goes where the pen is, if that is known."""
        if isinstance(pen, tuple):
            self.x, self.y = pen[0] * PART, pen[1] * PART
            self.scrolled = False
        elif not self.known:
            self.home(size)
        self.known = True

    def home(self, size: DotCell) -> None:
        """Goes to the upper left corner of the field."""
        self.x, self.y = self.field[0], self.field[3] - abs(size.high)
        self.scrolled = False

    def lose(self) -> None:
        """Forgets its place: the next text begins at home."""
        self.known = False

    def set_field(self, corners: Optional[Tuple[Position, Position]]) -> None:
        """Sets the field in which text is arranged; None is the whole screen."""
        if corners is None:
            self.field = (0, 0, SIDE, TOP)
        else:
            (a, b), (c, d) = corners
            self.field = (min(a, c) * PART, min(b, d) * PART, max(a, c) * PART, max(b, d) * PART)
        self.lose()

    def fits(self, wide: int) -> bool:
        """Whether the line has space for this width."""
        return self.x + wide <= self.field[2] + DOT

    def wrap(self, size: DotCell, wide: int) -> None:
        """Goes to the next line where a cell or a word, which is so wide, leaves the field.

        What is wider than the field begins where it is, and leaves the line cell by cell.
        """
        has_room = wide <= self.field[2] - self.field[0] + DOT
        if size.path != RIGHT or self.x <= self.field[0] or self.fits(wide if has_room else size.wide):
            return
        self.x = self.field[0]
        self.down(size, abs(size.high))

    def down(self, size: DotCell, high: int) -> None:
        """Goes a line down; from the last line of the field to its first, where text doesn't scroll."""
        low = self.field[1] - DOT
        was_within = self.y >= low
        self.y -= high
        if was_within and self.y < low:
            self.scrolled = size.scroll
            if not size.scroll:
                self.y = self.field[3] - abs(size.high)

    def step(self, size: DotCell, columns: int) -> None:
        """Advances by a cell along the path."""
        if size.path == RIGHT:
            self.x += size.advance(columns)
        elif size.path == LEFT:
            self.x -= size.advance(columns)
        elif size.path == UPWARD:
            self.y += size.spaced(size.high)
        else:
            self.y -= size.spaced(size.high)

    def move(self, entry: TextMove, size: DotCell) -> None:
        """Obeys a move of text."""
        what = entry.move
        if what == "APF":
            self.x += size.spaced(size.wide)
            self.wrap(size, size.wide)
        elif what == "APB":
            self.x -= size.spaced(size.wide)
        elif what == "APD":
            self.down(size, size.high)
        elif what == "APU":
            self.y += size.high
            self.scrolled = self.scrolled and self.y < self.field[1] - DOT
        elif what == "APR":
            self.x = self.field[0]
        elif what == "APH":
            self.home(size)
        else:
            row, column = (number - FIRST_OF_APS for number in entry.bytes)
            self.x = self.field[0] + column * size.wide
            self.y = self.field[3] - (row + 1) * size.high
            self.scrolled = False


# How the dots of a side show those of what it shows: by whole dots, or by the middle rule.
WHOLE, MIDDLE = "whole", "middle"
# Bits of a mosaic's code, by its rows from the upper left block; as two columns and three rows from the lowest up.
BLOCKS = ((16, 64), (4, 8), (1, 2))
# (a dot of a side: its number from the one in which the cell begins, and the column or row that it shows; -1 is none)
Side = Sequence[Tuple[int, int]]


class Placed(NamedTuple):
    """Where a cell stands: its corner, its size, which may be negative, and its quarter turns to the left."""

    x: int
    y: int
    wide: int
    high: int
    rotation: int


class _Sides(NamedTuple):
    """The dots of the raster that a cell has, as two sides, and whether that across shows the rows of the cell."""

    left: int
    low: int
    across: Side
    up: Side
    is_turned: bool


def placed(x: int, y: int, size: DotCell) -> Placed:
    """A cell at a place."""
    return Placed(x, y, size.wide, size.high, size.rotation)


@lru_cache(maxsize=4096)
def _side(phase: int, length: int, count: int, rule: str) -> Side:
    """The dots of a side that begins so far in the dot 0, and shows a number of columns or rows."""
    size = abs(length)
    scale = size // (count * DOT) if rule == WHOLE else 0
    spare = (size // DOT - scale * count) // 2
    found: List[Tuple[int, int]] = []
    for dot in range((min(phase, phase + length)) // DOT - 1, (max(phase, phase + length)) // DOT + 2):
        at = dot * DOT + DOT // 2 - phase
        at = at if length > 0 else -at
        if not 0 <= at < size:
            continue
        if scale:
            shown = (at // DOT - spare) // scale
            found.append((dot, shown if 0 <= shown < count else -1))
        else:
            found.append((dot, at * count // size))
    return tuple(found)


def _sides(cell: Placed, wide: int, high: int, rule: str) -> _Sides:
    """The sides of a cell that shows so many columns and rows."""
    x, y, across, up, rotation = cell
    if rotation in (2, 3):
        across = -across
    if rotation in (1, 2):
        up = -up
    left, low = x // DOT, y // DOT
    if rotation in (1, 3):
        return _Sides(left, low, _side(x - left * DOT, up, high, rule), _side(y - low * DOT, across, wide, rule), True)
    return _Sides(left, low, _side(x - left * DOT, across, wide, rule), _side(y - low * DOT, up, high, rule), False)


def _runs(row: int, dots: Sequence[int], spans: List[Span]) -> None:
    """Adds the runs of these dots, which are in order, as spans."""
    at = 0
    while at < len(dots):
        end = at + 1
        while end < len(dots) and dots[end] == dots[end - 1] + 1:
            end += 1
        spans.append((row, dots[at], dots[end - 1] + 1))
        at = end


def _shown(sides: _Sides, rows: Rows, wide: int) -> List[Span]:
    """The spans of the dots that show one that is set: each row has a bit for each column, the highest the left."""
    spans: List[Span] = []
    if not sides.is_turned:
        for dot, row in sides.up:
            bits = rows[row] if row >= 0 else 0
            if bits:
                set_dots = [at for at, column in sides.across if column >= 0 and bits >> (wide - 1 - column) & 1]
                _runs(dot, set_dots, spans)
        return spans
    for dot, column in sides.up:
        if column >= 0:
            bit = wide - 1 - column
            _runs(dot, [at for at, row in sides.across if row >= 0 and rows[row] >> bit & 1], spans)
    return spans


@lru_cache(maxsize=8192)
def _letter(phase: Placed, rows: Rows) -> Tuple[Span, ...]:
    return tuple(_shown(_sides(phase, COLUMNS, ROWS, WHOLE), rows, COLUMNS))


@lru_cache(maxsize=4096)
def _line(phase: Placed) -> Tuple[Span, ...]:
    sides = _sides(phase, 1, ROWS, WHOLE)
    all_columns = [(at, 0) for at, _ in (sides.up if sides.is_turned else sides.across)]
    whole = sides._replace(up=all_columns) if sides.is_turned else sides._replace(across=all_columns)
    return tuple(_shown(whole, (1,) + (0,) * (ROWS - 1), 1))


@lru_cache(maxsize=4096)
def _blocks(phase: Placed, code: int, apart: bool) -> Tuple[Span, ...]:
    sides = _sides(phase, 2, 3, MIDDLE)
    if apart:
        sides = sides._replace(across=_apart(sides.across, sides.is_turned, phase), up=_apart(
            sides.up, not sides.is_turned, phase))
    rows = tuple(bool(code & left) << 1 | bool(code & right) for left, right in BLOCKS)
    return tuple(_shown(sides, rows, 2))


def _apart(side: Side, is_rows: bool, cell: Placed) -> Side:
    """A side without the first dot of each block, counted from where the cell begins."""
    length = cell.high if is_rows else cell.wide
    is_back = cell.rotation in ((1, 2) if is_rows else (2, 3))
    ordered = side if (length > 0) != is_back else side[::-1]
    firsts = {dot for number, (dot, block) in enumerate(ordered) if not number or ordered[number - 1][1] != block}
    return [(dot, -1 if dot in firsts else block) for dot, block in side]


def _at(cell: Placed) -> Tuple[Placed, int, int]:
    """The cell as it stands in its dot, and the dot."""
    left, low = cell.x // DOT, cell.y // DOT
    return cell._replace(x=cell.x - left * DOT, y=cell.y - low * DOT), left, low


def _clipped(spans: Sequence[Span], left: int, low: int, grid: Grid) -> List[Span]:
    """The spans where the cell stands, as far as they are on the grid."""
    found = []
    for row, start, end in spans:
        row, start, end = row + low, max(start + left, 0), min(end + left, grid.wide)
        if start < end and 0 <= row < grid.high:
            found.append((row, start, end))
    return found


def letter(cell: Placed, rows: Rows, grid: Grid) -> List[Span]:
    """The dots of a letter."""
    phase, left, low = _at(cell)
    return _clipped(_letter(phase, rows), left, low, grid)


def underline(cell: Placed, grid: Grid) -> List[Span]:
    """The line below a letter: the lowest of its rows, over the whole width of the cell."""
    phase, left, low = _at(cell)
    return _clipped(_line(phase), left, low, grid)


def mosaic(cell: Placed, code: int, apart: bool, grid: Grid) -> List[Span]:
    """The blocks of a mosaic, with a dot between them where they are apart."""
    phase, left, low = _at(cell)
    return _clipped(_blocks(phase, code, apart), left, low, grid)


def whole(cell: Placed, grid: Grid) -> List[Span]:
    """All dots of a cell."""
    phase, left, low = _at(cell)
    return _clipped(glyph_spans(phase, (1,), 1), left, low, grid)


def glyph(cell: Placed, rows: Rows, wide: int, grid: Grid) -> List[Span]:
    """The dots of a cell that show a dot of a glyph, which has so many columns."""
    phase, left, low = _at(cell)
    return _clipped(glyph_spans(phase, rows, wide), left, low, grid)


@lru_cache(maxsize=1024)
def glyph_spans(phase: Placed, rows: Rows, wide: int) -> Tuple[Span, ...]:
    """The spans of a glyph at a place in the dot 0."""
    return tuple(_shown(_sides(phase, wide, len(rows), MIDDLE), rows, wide))


BLANK = 0x20
# The greatest number of characters that are repeated to the end of a line.
MOST_IN_LINE = 1000


class Sign(NamedTuple):
    """What stands in a cell: a letter, or the code of a mosaic or a glyph; how it looks; and what it counts."""

    set: str
    code: int
    rows: Rows
    at: Placed
    colour: Colour
    text: Look
    counted: int


class _Accent(NamedTuple):
    """An accent that waits for its letter."""

    code: int
    colour: Colour
    text: Look


class DotWriting:
    """Puts characters into cells, and moves the cursor."""

    def __init__(self, scale: Scale, put: Callable[[Sign], None],
                 character_at: Callable[[int], Optional[Char]]) -> None:
        self.scale, self.put, self.character_at = scale, put, character_at
        self.cursor = DotCursor()
        # The entry that is written, and the one that was the last character of a word.
        self.number, self.in_word = 0, -2
        self.accent: Optional[_Accent] = None
        self.last: Optional[Char] = None

    def flush(self) -> None:
        """An accent with no letter after it stands alone, where the cursor is."""
        accent, self.accent = self.accent, None
        if accent is not None:
            self._put(WRITTEN[1], accent.code, accent_alone(accent.code), accent.colour, accent.text)

    def character(self, entry: Char) -> None:
        """A character, and the cursor after it."""
        self.last = entry
        size = cell(entry.text)
        self._take(entry.pen, size)
        if not self._within(entry, size):
            return
        if letters.is_accent(entry.set, entry.code):
            self.flush()
            self.accent = _Accent(entry.code, entry.colour, entry.text)
            return
        rows = rows_of_character(entry.set, entry.code, self.accent.code if self.accent else 0)
        if entry.set in WRITTEN:
            self.accent = None
        else:
            self.flush()
        columns = self._put(entry.set, entry.code, rows, entry.colour, entry.text)
        self.cursor.step(size, columns)

    def move(self, entry: TextMove) -> None:
        """A move of the cursor."""
        self.flush()
        size = cell(entry.text)
        self._take(entry.pen, size)
        self.cursor.move(entry, size)

    def to_end(self, entry: ToEol) -> None:
        """The last character again, up to the end of the line."""
        last, size = self.last, cell(entry.text)
        if last is None:
            return
        self._take(entry.pen, size)
        self.cursor.wrap(size, size.wide)
        again = Char(last.set, last.code, "after", entry.colour, entry.text)
        for _ in range(MOST_IN_LINE):
            if size.wide <= 0 or size.path != RIGHT or not self.cursor.fits(size.wide):
                break
            self.character(again)

    def _take(self, pen: Pen, size: DotCell) -> None:
        if pen != "after" or not self.cursor.known:
            self.flush()
            self.cursor.take(pen, size)

    def _within(self, entry: Char, size: DotCell) -> bool:
        """Goes to the next line where the character, or its word, leaves the field; whether it is seen."""
        wide = size.wide
        if entry.text.wrap:
            if _is_blank(entry):
                if size.path == RIGHT and not self.cursor.fits(wide):
                    return False
            else:
                if self.in_word != self.number - 1 or entry.pen != "after":
                    wide = max(wide, self._word(self.number))
                self.in_word = self.number
        self.cursor.wrap(size, wide)
        return not self.cursor.scrolled

    def _word(self, number: int) -> int:
        """How wide the word is that this entry begins; of a long one, more than the side of the unit screen."""
        start = total = at = 0
        entry = self.character_at(number)
        while entry is not None and total <= SIDE and _goes_on(entry, at > 0):
            if not letters.is_accent(entry.set, entry.code):
                size = cell(entry.text)
                total = start + size.wide
                start += size.advance(_columns(entry, size))
            at += 1
            entry = self.character_at(number + at)
        return total

    def _put(self, of: str, code: int, rows: Rows, colour: Colour, text: Look) -> int:
        """Puts a sign where the cursor is; how many columns it has."""
        size, scale = cell(text), self.scale
        x, y = self.cursor.x, self.cursor.y
        skipped, columns = _extent(of, rows, size)
        at = placed(x * scale.wide // ACROSS, y * scale.high // ACROSS, size._replace(
            wide=size.wide * scale.wide // ACROSS, high=size.high * scale.high // ACROSS))
        counted = OF_ENTRY + (abs(at.wide) // DOT + 1) * (abs(at.high) // DOT + 1)
        if at.wide and at.high:
            shown = tuple(row << skipped for row in rows) if skipped else rows
            self.put(Sign(of, code, shown, at, colour, text, counted))
        return columns


def _extent(of: str, rows: Rows, size: DotCell) -> Tuple[int, int]:
    """The columns that a sign leaves out on its left, and those that it has: of letters in proportional spacing."""
    if size.spacing != PROPORTIONAL or of not in WRITTEN or not rows:
        return 0, COLUMNS - 1
    return width(rows)


def _columns(entry: Char, size: DotCell) -> int:
    return _extent(entry.set, rows_of_character(entry.set, entry.code), size)[1]


def _is_blank(entry: Char) -> bool:
    """Whether a character is a blank, after which another word begins."""
    return entry.code == BLANK and entry.set in WRITTEN


def _goes_on(entry: Char, is_later: bool) -> bool:
    """Whether a character is one of the word."""
    return (entry.text.wrap and not _is_blank(entry) and cell(entry.text).path == RIGHT
            and (entry.pen == "after" or not is_later))
