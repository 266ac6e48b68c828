"""The text of a page: in the order of its characters, and as lines of the screen."""
import re
from functools import lru_cache
from typing import Dict, Iterable, Iterator, List, Match, NamedTuple, Optional, Sequence, Tuple, Union

from . import letters
from .drawing.writing import DOT, RIGHT, Cell, TextCursor, cell
from .entry import (
    Char, Clear, Colour, DefEnd, Entry, Field, GlyphStart, Look, MaskStart, Pen, Position, Reset, TextMove,
)
from .letters import COLUMNS, columns_of

# Moves that leave the line.
OTHER_LINE = ("APD", "APU", "APR", "APH", "APS")


class TextLines:
    """Collects characters into lines. A new one begins where the text doesn't continue after the last character."""

    def __init__(self) -> None:
        self.lines: List[str] = []
        self.line: List[str] = []
        self.row: Union[str, Position, None] = None
        self.accent: Optional[int] = None
        self.inside = False

    def entry(self, entry: Entry) -> None:
        """Takes an entry."""
        if isinstance(entry, (GlyphStart, MaskStart, DefEnd)):
            self.inside = not isinstance(entry, DefEnd)
        elif self.inside:
            return
        elif isinstance(entry, Char):
            self._character(entry)
        elif isinstance(entry, TextMove):
            if entry.move in OTHER_LINE:
                self.end()
            elif entry.move == "APF":
                self.line.append(" ")
        elif isinstance(entry, (Clear, Reset, Field)):
            self.end()

    def _character(self, entry: Char) -> None:
        if isinstance(entry.pen, tuple):
            same = isinstance(self.row, tuple) and self.row[1] == entry.pen[1] and self.row[0] <= entry.pen[0]
            if same:
                self._space()
            else:
                self.end()
            self.row = entry.pen
        if entry.set == "mosaic":
            self._space()
        elif entry.set == "drcs":
            self.line.append(f"[glyph {entry.code:02x}]")
        elif letters.is_accent(entry.set, entry.code):
            self._end_accent()
            self.accent = entry.code
        else:
            self._letter(letters.letter(entry.set, entry.code))

    def _letter(self, sign: str) -> None:
        accent, self.accent = self.accent, None
        if sign in (letters.BLOCK, letters.UNKNOWN):
            self._space()
        else:
            self.line.append(sign if accent is None else letters.composed(accent, sign))

    def _end_accent(self) -> None:
        if self.accent is not None:
            self.line.append(letters.ALONE[self.accent])
            self.accent = None

    def _space(self) -> None:
        self._end_accent()
        if self.line and self.line[-1] != " ":
            self.line.append(" ")

    def end(self) -> None:
        """Ends the line, if it has anything."""
        self._end_accent()
        line = "".join(self.line).rstrip(" ")
        if line:
            self.lines.append(line)
        self.line = []
        self.row = None


def text_lines(entries: Iterable[Entry]) -> List[str]:
    """The lines of text that these entries write."""
    out = TextLines()
    for entry in entries:
        out.entry(entry)
    out.end()
    return out.lines


# Letters that stand one after the other and look the same, as one piece; other lines of text one by one; and the rest.
_LINES = re.compile(
    r"CHAR (primary|mosaic|drcs) (..) pen=(\S+) (colour=\S+ text=(\S+))\n((?:CHAR \1 .. pen=after \4\n)*)"
    r"|CHAR supplementary (..) pen=(\S+) colour=\S+ text=(\S+)\n"
    r"|MOVE (\S+) ?(?:(..) (..) )?pen=(\S+) colour=\S+ text=(\S+)\n"
    r"|TO-EOL pen=(\S+) colour=\S+ text=(\S+)\n"
    r"|((?:CLEAR|RESET|FIELD|GLYPH|MASK|END)[^\n]*)\n"
    r"|(?:(?:POINT|LINE|ARC|RECT|POLY)-?[^\n]*\n)+|[^\n]*\n")
_PLACES = re.compile(r"^[0-9]+ ", re.MULTILINE)
_FIELD = re.compile(r"FIELD (?:whole|(\S+) (\S+)) pen=\S+")
# RESET with such a number for the screen clears it.
_SCREEN_CLEARED = (1, 2, 5, 6, 7)
_WORD = re.compile(r"[^\W_]+")
_BLACK = Colour("own-start")
# Pieces that are so near to each other, as parts of a cell, stand in one line, or are one word.
SAME_LINE, SAME_WORD, SAME_PLACE = 0.5, 0.3, 0.5


class ScreenPiece(NamedTuple):
    """Letters that stand one after the other: their lower left corner, where they end, and the height of a cell."""

    y: float
    x: float
    end: float
    high: float
    text: str


@lru_cache(maxsize=4096)
def _cell(text: str) -> Cell:
    """The cell of a look as a line has it."""
    words, size, flags = text.split("/")
    first, second = words.split(",")
    return cell(Look(int(first), int(second), _pen(size), False, False, flags[2] != "-", flags[3] != "-"))


@lru_cache(maxsize=1024)
def _pen(text: str) -> Pen:
    if "," not in text:
        return text
    x, y = text.split(",")
    return int(x), int(y)


class Screens:
    """Puts letters on screens: a new one begins where the screen is cleared."""

    def __init__(self) -> None:
        self.cursor = TextCursor()
        self.screens: List[List[ScreenPiece]] = [[]]
        self.accent: Optional[int] = None
        self.inside = False

    def line(self, it: Match[str]) -> None:
        """Takes what a part of the list says."""
        if it[1] is not None:
            if not self.inside:
                self._letters(it)
        elif it[7] is not None:
            if not self.inside:
                self._supplementary(int(it[7], 16), _pen(it[8]), _cell(it[9]))
        elif it[10] is not None or it[15] is not None:
            if not self.inside:
                self._move(it)
        elif it[17] is not None:
            self._other(it[17])

    def _letters(self, it: Match[str]) -> None:
        """Characters of one look; of mosaics and glyphs only the places are taken."""
        more, at = it[6], len("CHAR  ") + len(it[1])
        behind = len("CHAR  41 pen=after \n") + len(it[1]) + len(it[4])
        if it[1] == "primary":
            codes = it[2] + "".join(map("".join, zip(more[at::behind], more[at + 1::behind])))
            text = bytes.fromhex(codes).decode("latin-1").replace("\x7f", " ")
        else:
            text = " " * (1 + len(more) // behind)
        accent, self.accent = self.accent, None
        if accent is not None:
            text = letters.composed(accent, text[0]) + text[1:]
        size, columns = _cell(it[5]), []
        if size.by_letters:
            read = bytes.fromhex(codes) if it[1] == "primary" else bytes(len(text))
            columns = [columns_of(it[1], code, 0 if at else accent or 0) for at, code in enumerate(read)]
        self._put(_pen(it[3]), size, text, columns)

    def _supplementary(self, code: int, pen: Pen, size: Cell) -> None:
        accent, self.accent = self.accent, None
        if letters.is_accent("supplementary", code):
            self.cursor.take(pen, size)
            self.accent = code
            return
        sign = letters.letter("supplementary", code).replace(letters.UNKNOWN, " ")
        columns = [columns_of("supplementary", code, accent or 0)] if size.by_letters else []
        self._put(pen, size, sign if accent is None else letters.composed(accent, sign), columns)

    def _put(self, pen: Pen, size: Cell, text: str, columns: Sequence[int]) -> None:
        """Puts letters where the pen is, and from there on along their path; `columns` where spacing is by them."""
        cursor = self.cursor
        cursor.take(pen, size)
        step = size.wide * size.spacing
        if size.path != RIGHT or step <= 0 or columns:
            (self._by_letters if size.path == RIGHT and step > 0 else self._along)(size, text, columns)
            return
        while text:
            room = int((cursor.field[2] + DOT - size.wide - cursor.x) / step) + 1 if cursor.fits(size.wide) else 0
            room = max(room, 1) if cursor.x <= cursor.field[0] else room
            rest = _rest(text, room) if room else ""
            self._piece(cursor.x, cursor.y, size, text[:room] + rest, step)
            cursor.x += step * len(text[:room])
            if len(text) > room:
                cursor.x = cursor.field[0] + step * len(rest)
                cursor.down(size, abs(size.high))
            text = text[room + len(rest):]

    def _by_letters(self, size: Cell, text: str, columns: Sequence[int]) -> None:
        """Letters in proportional spacing."""
        cursor, steps = self.cursor, [size.advance(each) for each in columns]
        while text:
            room = _room(cursor, size, steps)
            shown = room + len(_rest(text, room) if room else "")
            if shown:
                self._piece(cursor.x, cursor.y, size, text[:shown], sum(steps[:shown]) / shown)
            cursor.x += sum(steps[:room])
            if len(text) > room:
                cursor.x = cursor.field[0] + sum(steps[room:shown])
                cursor.down(size, abs(size.high))
            text, steps = text[shown:], steps[shown:]

    def _along(self, size: Cell, text: str, columns: Sequence[int]) -> None:
        """Letters that go to the left, up or down: those to the left as they are read, others by themselves."""
        for letter, wide in zip(text, columns or [COLUMNS - 1] * len(text)):
            self._piece(self.cursor.x, self.cursor.y, size, letter, abs(size.advance(wide) if columns else size.wide))
            self.cursor.step(size, wide)

    def _piece(self, x: float, y: float, size: Cell, text: str, step: float) -> None:
        bare = text.rstrip(" ")
        blanks = len(bare) - len(bare.lstrip(" "))
        bare = bare[blanks:]
        if bare:
            left = x + blanks * step
            self.screens[-1].append(ScreenPiece(y, left, left + step * len(bare), abs(size.high), bare))

    def _move(self, it: Match[str]) -> None:
        if it[10] is None:  # to the end of the line
            self.cursor.take(_pen(it[15]), _cell(it[16]))
            self.cursor.x = self.cursor.field[2]
            return
        size = _cell(it[14])
        numbers = (int(it[11], 16), int(it[12], 16)) if it[11] else ()
        self.cursor.take(_pen(it[13]), size)
        self.cursor.move(TextMove(it[10], numbers, "after", _BLACK, Look(0, 0, "normal", False, False, False, False)),
                         size)

    def _other(self, line: str) -> None:
        if line.startswith(("GLYPH", "MASK")):
            self.inside = True
        elif line.startswith("END"):
            self.inside = False
        elif line.startswith("CLEAR"):
            self._next_screen()
        elif line.startswith("RESET"):
            self._reset(line)
        elif line.startswith("FIELD"):
            self._field(line)

    def _reset(self, line: str) -> None:
        first, second = (int(word) for word in line.split(" ")[1:3])
        if second & 1:
            self.cursor.set_field(None)
        if first >> 3 & 7 in _SCREEN_CLEARED:
            self._next_screen()
        self.cursor.lose()

    def _field(self, line: str) -> None:
        found = _FIELD.fullmatch(line)
        one, other = (_pen(found[1]), _pen(found[2])) if found and found[1] else ("", "")
        corners = (one, other) if isinstance(one, tuple) and isinstance(other, tuple) else None
        self.cursor.set_field(corners)

    def _next_screen(self) -> None:
        if self.screens[-1]:
            self.screens.append([])
        self.cursor.lose()


def _room(cursor: TextCursor, size: Cell, steps: Sequence[float]) -> int:
    """For how many of the letters with these steps the line has room."""
    x, left, right = cursor.x, cursor.field[0], cursor.field[2] + DOT
    count = 0
    while count < len(steps) and (x <= left or x + size.wide <= right):
        x += steps[count]
        count += 1
    return count


def _rest(text: str, room: int) -> str:
    """Of a word that is cut by the right edge what stands on the next line."""
    rest = _WORD.match(text, room)
    return rest[0] if rest and _WORD.match(text, room - 1) else ""


def lines_of(listed: str) -> List[str]:
    """The lines that a page shows, given what `list` or `places` prints of it.

    A word that the right edge cuts stands whole in the line in which it begins.
    """
    if listed[:1].isdigit():
        listed = _PLACES.sub("", listed)
    screens = Screens()
    for it in _LINES.finditer(listed):
        screens.line(it)
    return [line for screen in screens.screens for line in _lines(screen)]


def _lines(pieces: List[ScreenPiece]) -> Iterator[str]:
    """The lines of a screen."""
    row: List[ScreenPiece] = []
    for piece in sorted(pieces, key=lambda each: (-each.y, each.x)):
        if row and row[0].y - piece.y >= SAME_LINE * min(row[0].high, piece.high):
            yield _joined(row)
            row = []
        row.append(piece)
    if row:
        yield _joined(row)


def _joined(row: List[ScreenPiece]) -> str:
    """The pieces of a line from left to right. What is drawn a second time at nearly the same place counts once."""
    made: List[str] = []
    end = 0.0
    seen: Dict[str, Tuple[float, float]] = {}
    for piece in sorted(row, key=lambda each: each.x):
        wide = (piece.end - piece.x) / len(piece.text)
        before = seen.get(piece.text)
        if before is not None and abs(before[0] - piece.x) < SAME_PLACE * wide:
            continue
        seen[piece.text] = piece.x, piece.end
        if made:
            made.append("" if -SAME_PLACE * wide < piece.x - end < SAME_WORD * wide else
                        " " if piece.x - end < 2 * wide else "  ")
        made.append(piece.text)
        end = max(end, piece.end)
    return "".join(made)
