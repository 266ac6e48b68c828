"""Characters of the drawing: their cells, how wide words are, which WORD WRAP moves, and letters of one look that are
read together."""
from dataclasses import dataclass
from typing import Callable, List, NamedTuple, Optional, Sequence, Tuple

from .. import letters
from ..entry import ONE, Char, Colour, Entry, Look, Pen, Position, TextMove, ToEol
from ..letters import COLUMNS, WRITTEN, columns_of
from . import weight
from .colours import BLACK, Palette
from .measure import HEIGHT, THIN, WIDTH, fine, num
from .paper import Element, LetterCells, Paper
from .shapes import blocks, number_of_blocks

# Width and height of a cell, as parts of the side of the unit screen.
SIZES = {"small": (1 / 80, 5 / 128), "medium": (1 / 32, 3 / 64), "normal": (1 / 40, 5 / 128),
         "tall": (1 / 40, 5 / 64), "double": (1 / 20, 5 / 64)}
# How far a cell is from the next one, in its sides; the last kind of spacing is by the letters.
SPACINGS, PROPORTIONAL = (1.0, 1.25, 1.5, 1.0), 3
RIGHT, LEFT, UP, DOWN = range(4)
TOP = HEIGHT / WIDTH
# How far a cell may go out of its field.
DOT = THIN / WIDTH
# Numbers of rows and columns that APS names are offset by this.
FIRST_OF_APS = 0x20


@dataclass(frozen=True)
class Cell:
    """A cell: its size, what the bits of TEXT say of rotation, path and spacing, whether that is by the letters, and
    whether text scrolls."""

    wide: float
    high: float
    rotation: int
    path: int
    spacing: float
    by_letters: bool
    scroll: bool

    def advance(self, columns: int) -> float:
        """How far the next character is from one with so many columns."""
        return self.wide * (columns + 1) / COLUMNS if self.by_letters else self.wide * self.spacing


def cell(look: Look) -> Cell:
    """The cell of a text look."""
    if isinstance(look.size, str):
        wide, high = SIZES[look.size]
    else:
        wide, high = look.size[0] / ONE, look.size[1] / ONE
    path, spacing = look.first >> 2 & 3, look.first >> 4 & 3
    by_letters = spacing == PROPORTIONAL and path in (RIGHT, LEFT)
    return Cell(wide, high, look.first & 3, path, SPACINGS[spacing], by_letters, look.scroll)


class Saved(NamedTuple):
    """What a definition puts back at its end: the place, whether it is known and has scrolled, and the field."""

    x: float = 0.0
    y: float = 0.0
    known: bool = False
    scrolled: bool = False
    field: Tuple[float, float, float, float] = (0.0, 0.0, 1.0, TOP)


class TextCursor:
    """The place of the next character: the lower left corner of its cell, in sides of the unit screen."""

    def __init__(self) -> None:
        self.put_back(Saved())

    def saved(self) -> Saved:
        """What a definition puts back at its end."""
        return Saved(self.x, self.y, self.known, self.scrolled, self.field)

    def put_back(self, saved: Saved) -> None:
        """Goes where it was saved."""
        self.x, self.y, self.known, self.scrolled, self.field = saved

    def enter_glyph(self) -> None:
        """Goes to the corner of a glyph or a mask, whose unit screen is the field."""
        self.put_back(Saved(known=True, field=(0.0, 0.0, 1.0, 1.0)))

    def take(self, pen: Pen, size: Cell) -> None:
        """Goes where the pen is, if that is known."""
        if isinstance(pen, tuple):
            self.x, self.y = pen[0] / ONE, pen[1] / ONE
            self.scrolled = False
        elif not self.known:
            self.home(size)
        self.known = True

    def home(self, size: Cell) -> None:
        """Goes to the upper left corner of the field."""
        self.x, self.y = self.field[0], self.field[3] - abs(size.high)
        self.scrolled = False

    def lose(self) -> None:
        """Forgets its place: the next text begins at home."""
        self.known = False

    def set_field(self, corners: Optional[Tuple[Position, Position]]) -> None:
        """Sets the field in which text is arranged; None is the whole screen."""
        if corners is None:
            self.field = (0.0, 0.0, 1.0, TOP)
        else:
            (a, b), (c, d) = corners
            self.field = (min(a, c) / ONE, min(b, d) / ONE, max(a, c) / ONE, max(b, d) / ONE)
        self.lose()

    def fits(self, wide: float) -> bool:
        """Whether the line has space for this width."""
        return self.x + wide <= self.field[2] + DOT

    def go_on(self, wide: float, most: int) -> int:
        """Goes to the right by cells of this width, the most or as many as the line has room for; how many they are."""
        x, left, right = self.x, self.field[0], self.field[2] + DOT
        count = 0
        while count < most and (x <= left or x + wide <= right):
            x += wide
            count += 1
        self.x = x
        return count

    def wrap(self, size: Cell, wide: float) -> bool:
        """Goes to the next line where a cell or a word, which is so wide, leaves the field; whether it did.

        What is wider than the field begins where it is, and leaves the line cell by cell.
        """
        has_room = wide <= self.field[2] - self.field[0] + DOT
        if size.path != RIGHT or self.x <= self.field[0] or self.fits(wide if has_room else size.wide):
            return False
        self.x = self.field[0]
        self.down(size, abs(size.high))
        return True

    def down(self, size: Cell, high: float) -> None:
        """Goes a line down; from the last line of the field to its first, where text doesn't scroll."""
        low = self.field[1] - DOT
        was_within = self.y >= low
        self.y -= high
        if was_within and self.y < low:
            self.scrolled = size.scroll
            if not size.scroll:
                self.y = self.field[3] - abs(size.high)

    def step(self, size: Cell, columns: int = COLUMNS - 1) -> None:
        """Advances along the path by a cell, or in proportional spacing by so many columns."""
        wide, high = size.advance(columns), size.high * size.spacing
        if size.path == RIGHT:
            self.x += wide
        elif size.path == LEFT:
            self.x -= wide
        elif size.path == UP:
            self.y += high
        else:
            self.y -= high

    def move(self, entry: TextMove, size: Cell) -> None:
        """Obeys a move of text."""
        what = entry.move
        if what == "APF":
            self.x += size.wide * size.spacing
            self.wrap(size, size.wide)
        elif what == "APB":
            self.x -= size.wide * size.spacing
        elif what == "APD":
            self.down(size, size.high)
        elif what == "APU":
            self.y += size.high
            self.scrolled = self.scrolled and self.y < self.field[1] - DOT
        elif what == "APR":
            self.x = self.field[0]
        elif what == "APH":
            self.home(size)
        else:
            row, column = (number - FIRST_OF_APS for number in entry.bytes)
            self.x = self.field[0] + column * size.wide
            self.y = self.field[3] - (row + 1) * size.high
            self.scrolled = False


BLANK = 0x20


def is_blank(entry: Char) -> bool:
    """Whether a character is a blank, after which another word begins."""
    return entry.code == BLANK and entry.set in ("primary", "supplementary")


class WordWidths:
    """Looks ahead from the first character of a word, by the entries with these numbers; None where one is none."""

    def __init__(self, character_at: Callable[[int], Optional[Char]]) -> None:
        self.character_at = character_at

    def width(self, number: int, most: float) -> float:
        """The width of the word that this entry begins, in sides of the unit screen; of a long one, above `most`."""
        width = total = 0.0
        at, entry = number, self.character_at(number)
        while entry is not None and total <= most and _goes_on(entry, at > number):
            size = cell(entry.text)
            if not letters.is_accent(entry.set, entry.code):
                total = width + size.wide
                width += size.advance(columns_of(entry.set, entry.code) if size.by_letters else 0)
            at += 1
            entry = self.character_at(at)
        return total


def _goes_on(entry: Entry, is_later: bool) -> bool:
    """Whether a character is one of the word."""
    return (isinstance(entry, Char) and entry.text.wrap and not is_blank(entry) and cell(entry.text).path == RIGHT
            and (entry.pen == "after" or not is_later))


PEN, AFTER = " pen=", " pen=after"
# Signs by what their lines begin with, all of which are of one length.
SIGNS = {"CHAR primary %02x" % code: chr(code) for code in range(0x20, 0x7F)}
FRONT = len("CHAR primary 20")


def letters_behind(lines: Sequence[str], number: int, end: int) -> List[str]:
    """The letters of the lines from this one on, up to `end`, that differ in nothing but themselves from the character
    in the line before, each after the last."""
    before = lines[number - 1]
    rest = AFTER + before[before.find(" ", before.find(PEN) + 1):]
    signs: List[str] = []
    while number < end:
        line = lines[number]
        sign = SIGNS.get(line[:FRONT])
        if sign is None or line[FRONT:] != rest:
            break
        signs.append(sign)
        number += 1
    return signs


# The width of a letter of DejaVu Sans Mono as part of its size; other fonts are stretched to it where viewers can.
ADVANCE = 0.602
SIZE = 0.86
BASE = 0.22
Ink = Tuple[str, Optional[str]]
SCROLLS = "scrolling isn't drawn: the text that makes room for more is seen, and what comes then isn't"
# The greatest number of characters repeated to the end of a line; cells so small that there are more can't be read.
MOST_IN_LINE = 1000
# The columns that a letter is drawn with at least, where its place is narrower.
LEAST_COLUMNS = 3
# The greatest number of bytes for a letter of a run, and for what stands around a run.
A_LETTER, A_RUN = 16, 1024
# The same for a block of a mosaic, and for what stands around a row of mosaics.
A_BLOCK, A_ROW = 64, 256


@dataclass
class LetterRun:
    """Letters, or mosaics, of one look that stand one after the other; of mosaics the characters of their codes.

    In proportional spacing it is one letter, with so many columns.
    """

    look: Tuple[Ink, Cell, bool]
    text: List[str]
    entries: List[int]
    x: float
    y: float
    is_mosaic: bool
    columns: int = COLUMNS - 1

    def end(self) -> float:
        """Where the next letter would stand."""
        return self.x + len(self.text) * self.look[1].wide * WIDTH


class LetterStyle(NamedTuple):
    """What characters of one colour and one look share: these two, their cell, colours and cost, and the same of a run.

    The colour and the look are compared as objects: lines that spell them alike have the same.
    """

    colour: Colour
    text: Look
    on_page: bool
    size: Cell
    look: Tuple[Ink, Cell, bool]
    weight: weight.Weight
    # (whether they stand side by side, and words end where the line does)
    is_straight: bool


class Writing:
    """Draws the entries that state a character, and moves the cursor."""

    def __init__(self, paper: Paper, palette: Palette, words: WordWidths) -> None:
        self.paper, self.palette, self.words = paper, palette, words
        self.cursor = TextCursor()
        # The entry that was the last character of a word.
        self.in_word = -1
        self.run: Optional[LetterRun] = None
        self.accent: Optional[int] = None
        self.last: Optional[Char] = None
        self.style: Optional[LetterStyle] = None

    def flush(self) -> None:
        """Draws the letters that wait, before anything is drawn over them."""
        if self.accent is not None:
            self._end_accent()
        run, self.run = self.run, None
        if run and run.look[1].wide and run.look[1].high:
            self._draw_run(run)

    def character(self, entry: Char) -> None:
        """A character, and the cursor after it. Raises Full."""
        self.last = entry
        style = self._style(entry)
        size = style.size
        self._take(entry.pen, size)
        if not self._within(entry, size):
            return
        self.paper.spend(A_LETTER, style.weight)
        if letters.is_accent(entry.set, entry.code):
            self._end_accent()
            self.paper.spend(A_RUN, weight.RUN)  # (it may stand alone)
            self.accent = entry.code
            return
        columns = COLUMNS - 1
        if entry.set in WRITTEN:
            sign = letters.letter(entry.set, entry.code)
            accent, self.accent = self.accent, None
            if size.by_letters:
                columns = columns_of(entry.set, entry.code, accent or 0)
            self._letter(style, sign if accent is None else letters.composed(accent, sign), columns)
        elif entry.set == "mosaic":
            self._end_accent()
            self._mosaic(entry.code, style)
        else:
            self.flush()
            self._sign(entry.code, style)
        self.cursor.step(size, columns)

    def go_on(self, lines: Sequence[str], number: int, end: int) -> int:
        """Draws the letters that continue the one that was drawn last, in its look and its line; how many these are.

        They are those in the lines from this number on, up to `end`.
        """
        run, style = self.run, self.style
        if (run is None or run.is_mosaic or style is None or not style.is_straight or run.entries[-1] != number - 1
                or self.accent is not None or self.cursor.scrolled):
            return 0
        signs = letters_behind(lines, number, end)
        if not signs or not self.paper.has_room(A_LETTER * len(signs), style.weight.times(len(signs))):
            return 0
        count = self.cursor.go_on(style.size.wide, len(signs))
        self.paper.spend(A_LETTER * count, style.weight.times(count))
        run.text += signs[:count]
        run.entries += range(number, number + count)
        self.last = self.words.character_at(number + count - 1)
        return count

    def _within(self, entry: Char, size: Cell) -> bool:
        """Goes to the next line where the character, or its word, leaves the field; whether it is drawn."""
        wide = size.wide
        if entry.text.wrap:
            if is_blank(entry):
                if size.path == RIGHT and not self.cursor.fits(wide):
                    return False
            else:
                if self.in_word != self.paper.entry - 1 or entry.pen != "after":
                    wide = max(wide, self.words.width(self.paper.entry, 1.0))
                self.in_word = self.paper.entry
        if self.cursor.wrap(size, wide):
            self.flush()
        if self.cursor.scrolled:
            self.paper.note(SCROLLS)
        return not self.cursor.scrolled

    def move(self, entry: TextMove) -> None:
        """A move of the cursor."""
        self.flush()
        size = cell(entry.text)
        self._take(entry.pen, size)
        self.cursor.move(entry, size)

    def to_end(self, entry: ToEol) -> None:
        """The last character again, up to the end of the line."""
        last = self.last
        if last is None:
            return
        size = cell(entry.text)
        self._take(entry.pen, size)
        if self.cursor.wrap(size, size.wide):
            self.flush()
        again = Char(last.set, last.code, "after", entry.colour, entry.text)
        for _ in range(MOST_IN_LINE):
            if size.wide <= 0 or size.path != RIGHT or not self.cursor.fits(size.wide):
                break
            self.character(again)

    def _take(self, pen: Pen, size: Cell) -> None:
        if pen != "after" or not self.cursor.known:
            self.flush()
            self.cursor.take(pen, size)

    def _style(self, entry: Char) -> LetterStyle:
        """What the character shares with those around it; that of the last one, where it is the same."""
        style, on_page = self.style, self.paper.on_page
        if style and style.colour is entry.colour and style.text is entry.text and style.on_page == on_page:
            return style
        size, ink = cell(entry.text), ("currentColor", None) if not on_page else self._ink(entry)
        cost = weight.letter(size.wide * WIDTH, size.high * WIDTH)
        self.style = LetterStyle(entry.colour, entry.text, on_page, size, (ink, size, entry.text.underline), cost,
                                 _is_straight(size, False) and not entry.text.wrap)
        return self.style

    def _ink(self, entry: Char) -> Ink:
        front, back = self.palette.front(entry.colour), self.palette.back(entry.colour)
        return (back or BLACK, front) if entry.text.reverse else (front, back)

    def _letter(self, style: LetterStyle, sign: str, columns: int, counted: bool = False) -> None:
        x, y = self._corner(style.size)
        if self._joined(style, sign, x, y, False):
            return
        self.flush()
        if not counted:
            self.paper.spend(A_RUN, weight.RUN)
        self.run = LetterRun(style.look, [sign], [self.paper.entry], x, y, False, columns)

    def _mosaic(self, code: int, style: LetterStyle) -> None:
        ((_, back), size, _), (x, y) = style.look, self._corner(style.size)
        if not size.wide or not size.high:
            self.flush()
            return
        box = weight.box(size.wide * WIDTH, size.high * WIDTH)
        self.paper.spend(A_BLOCK * number_of_blocks(code), box.times(2) if back else box)
        if self._joined(style, chr(code), x, y, True):
            return
        self.flush()
        self.paper.spend(A_ROW, weight.Weight())
        self.run = LetterRun(style.look, [chr(code)], [self.paper.entry], x, y, True)

    def _joined(self, style: LetterStyle, sign: str, x: float, y: float, is_mosaic: bool) -> bool:
        """Whether a sign at this place continues the run; then it does."""
        run = self.run
        if (run is None or run.is_mosaic != is_mosaic or run.look != style.look
                or not _is_straight(style.size, is_mosaic) or abs(run.end() - x) >= 0.01 or abs(run.y - y) >= 0.01):
            return False
        run.text.append(sign)
        run.entries.append(self.paper.entry)
        return True

    def _corner(self, size: Cell) -> Tuple[float, float]:
        self.paper.reach(self.cursor.y + max(size.high, 0.0))
        foot = HEIGHT if self.paper.on_page else WIDTH
        return self.cursor.x * WIDTH, foot - self.cursor.y * WIDTH

    def _end_accent(self) -> None:
        """An accent with no letter after it stands alone, where the cursor is."""
        accent, self.accent = self.accent, None
        if accent is not None and self.last is not None:
            self._letter(self._style(self.last), letters.ALONE[accent], COLUMNS - 1, counted=True)

    def _draw_run(self, run: LetterRun) -> None:
        (_, back), size, _ = run.look
        wide, high = size.wide * WIDTH, size.high * WIDTH
        parts = [_cell(run.x, run.y, wide * len(run.text), high, back)] if back else []
        parts += (_row if run.is_mosaic else _letters)(run, wide, high)
        cells = LetterCells(tuple(run.entries), run.x, wide)
        for part in parts:
            self.paper.put_counted(_turned(part, run) if size.rotation and not run.is_mosaic else part, cells)

    def _sign(self, code: int, style: LetterStyle) -> None:
        ((front, back), size, _), (x, y) = style.look, self._corner(style.size)
        wide, high = size.wide * WIDTH, size.high * WIDTH
        if not wide or not high:
            return
        if back:
            self.paper.put(_cell(x, y, wide, high, back), weight.box(wide, high))
        self._glyph(code, (x, y, wide, high), front)

    def _glyph(self, code: int, box: Tuple[float, float, float, float], front: str) -> None:
        x, y, wide, high = box
        glyph = self.paper.glyph(code)
        if glyph is not None:
            where = "translate(%s %s) scale(%s %s)" % (num(x), num(y - high), fine(wide / WIDTH), fine(high / WIDTH))
            use = Element("use", {"href": f"#{glyph.name}", "color": front, "transform": where})
            self.paper.put(use, weight.USE.plus(glyph.weight.scaled(wide / WIDTH, high / WIDTH)))
            return
        path = "M%s %sh%sv%sh%sz" % (num(x + wide * 0.15), num(y - high * 0.85), num(wide * 0.7), num(high * 0.7),
                                     num(-wide * 0.7))
        shape = Element("path", {"d": path, "fill": "none", "stroke": front, "stroke-width": "2"})
        self.paper.put(shape, weight.outlined(weight.Extent(4, 2 * abs(wide) + 2 * abs(high), 0.0), 2.0, ()))


def _is_straight(size: Cell, is_mosaic: bool) -> bool:
    """Whether letters, or mosaics, stand side by side on a level line, a cell for each."""
    return size.path == RIGHT and size.rotation == 0 and size.spacing == 1.0 and (is_mosaic or not size.by_letters)


def _turned(part: Element, run: LetterRun) -> Element:
    """A part of a run whose cells are turned around their corner."""
    turn = f"rotate({-90 * run.look[1].rotation} {num(run.x)} {num(run.y)})"
    return Element("g", {"transform": turn}, (part,))


def _row(run: LetterRun, wide: float, high: float) -> List[Element]:
    """The blocks of a row of mosaics."""
    (front, _), _, apart = run.look
    path = blocks([ord(sign) for sign in run.text], (run.x, run.y, wide, high), apart)
    return [Element("path", {"d": path, "fill": front, "shape-rendering": "crispEdges"})] if path else []


def _letters(run: LetterRun, wide: float, high: float) -> List[Element]:
    """The letters of a run, and the line under them."""
    (front, _), _, underline = run.look
    text = "".join(run.text)
    parts = [_text(text, run, wide, high, front)] if text.strip(" ") else []
    if underline:
        parts.append(Element("path", {"d": f"M{num(run.x)} {num(run.y - 3)}h{num(wide * len(run.text))}",
                                      "fill": "none", "stroke": front, "stroke-width": "3"}))
    return parts


def _text(text: str, run: LetterRun, wide: float, high: float, front: str) -> Element:
    """The letters, stretched by a transform, which all viewers follow."""
    # (Chromium keeps blanks only where the text itself says so)
    size, (x, across) = abs(high) * SIZE, _place(run, wide)
    matrix = "matrix(%s 0 0 %d %s %s)" % (
        fine(across / (ADVANCE * size)), 1 if high > 0 else -1, num(x), num(run.y - high * BASE))
    return Element("text", {
        "transform": matrix, "font-size": num(size), "textLength": num(ADVANCE * size * len(run.text)), "fill": front,
        "xml:space": "preserve"}, text=text)


def _place(run: LetterRun, wide: float) -> Tuple[float, float]:
    """Where letters begin, and how wide each is: in proportional spacing as its place, or in the middle of that."""
    if not run.look[1].by_letters:
        return run.x, wide
    place, across = ((columns + 1) * wide / COLUMNS for columns in (run.columns, max(run.columns, LEAST_COLUMNS)))
    return run.x + (place - across) / 2, across


def _cell(x: float, y: float, wide: float, high: float, colour: str) -> Element:
    return Element("rect", {"x": num(min(x, x + wide)), "y": num(min(y - high, y)), "width": num(abs(wide)),
                            "height": num(abs(high)), "fill": colour})
