"""The walk over a page's entries that makes a sketch."""
import hashlib
from dataclasses import dataclass
from typing import Dict, NamedTuple, Optional, Sequence, Tuple, Union

from ..entry import (
    Blink, BlinkMark, Char, Clear, Colour, Cursor, DefEnd, Entries, Entry, Field, GlyphStart, Line, MaskStart, Point,
    Rect, Reset, TextMove, ToEol, Wait, read_line,
)
from .colours import BLACK, Palette
from .description import describe
from .paper import Captions, Full, Paper, document
from .shapes import Shapes
from .textures import SvgAttributes
from .writing import Saved, WordWidths, Writing

Lines = Union[Sequence[str], Entries]
# The number of entries, and of their points, that are drawn.
MOST_DRAWN = 20_000
MOST_POINTS = 200_000
# A line has no more commas than these outside of its points.
MOST_COMMAS = 16
ENDS = "The picture ends before entry %d: with what follows it would be more than a picture may be."
BLINKING, PARTS_BLINK = "blinking isn't drawn", "; parts of it blink"
# How many points these entries have.
FEW_POINTS: Dict[type, int] = {Point: 1, Line: 2, Rect: 2, Char: 0}
NOTES: Dict[type, str] = {Blink: BLINKING, Wait: "waits aren't drawn", Cursor: "cursors aren't drawn"}
# RESET's codes for the screen: cleared to black, or to the colour in use.
TO_BLACK, TO_COLOUR = (1, 7), (2, 5, 6)


@dataclass(frozen=True)
class Sketch:
    """The picture as SVG, and how many of the entries are drawn."""

    svg: str
    drawn: int


class Walk:
    """Draws the entries of some lines one after another, on paper."""

    def __init__(self, lines: Lines, palette: Palette, paper: Paper) -> None:
        self.entries, self.palette, self.paper = entries_of(lines), palette, paper
        self.looks = SvgAttributes(self.paper, self.palette)
        self.shapes = Shapes(self.paper, self.looks)
        self.writing = Writing(self.paper, self.palette, WordWidths(self._character_at))
        self.colour = Colour("own-start")
        self.definition: Union[GlyphStart, MaskStart, None] = None
        self.saved = Saved()
        self.guess_start = len(self.entries)

    def draw(self) -> int:
        """Draws what the limits allow; how many entries that were. Raises NotALine."""
        number = points = 0
        lines = self.entries.lines[:MOST_DRAWN]
        try:
            while number < len(lines):
                line = lines[number]
                self.paper.entry = number
                if len(line) > MOST_POINTS and line.count(",") > MOST_POINTS + MOST_COMMAS:
                    break
                entry = self.entries[number]
                few = FEW_POINTS.get(type(entry))
                points += len(getattr(entry, "points", ())) if few is None else few
                if points > MOST_POINTS:
                    break
                if number == self.guess_start:
                    self._begin_guess()
                self.entry(entry)
                number += 1
                if isinstance(entry, Char):
                    number += self._letters(lines, number)
        except Full:
            pass
        self.writing.flush()
        return number

    def _letters(self, lines: Sequence[str], number: int) -> int:
        """Draws the letters that continue the last one at once; how many these are."""
        end = self.guess_start if number <= self.guess_start else len(lines)
        return self.writing.go_on(lines, number, min(end, len(lines)))

    def _begin_guess(self) -> None:
        """From here on the page is a guess, which may set colours of the map again."""
        self.writing.flush()
        self.writing.style = None
        self.paper.begin_guess()
        self.palette.take_from(palette_of(self.entries, len(self.entries)))

    def _character_at(self, number: int) -> Optional[Char]:
        """The character that an entry is; nothing of another entry, and after those that may be drawn."""
        is_one = number < min(len(self.entries), MOST_DRAWN) and self.entries.lines[number].startswith("CHAR ")
        entry = self.entries[number] if is_one else None
        return entry if isinstance(entry, Char) else None

    def entry(self, entry: Entry) -> None:
        """Draws an entry."""
        if self.paper.open is None:
            self.colour = getattr(entry, "colour", self.colour)
        draw = self.shapes.kinds.get(type(entry))
        if draw:
            self.writing.flush()
            draw(entry)
        elif isinstance(entry, Char):
            self.writing.character(entry)
        elif isinstance(entry, ToEol):
            self.writing.to_end(entry)
        elif isinstance(entry, TextMove):
            self.writing.move(entry)
        else:
            self.writing.flush()
            self._other(entry)

    def _other(self, entry: Entry) -> None:
        if isinstance(entry, Clear):
            self.paper.clear(BLACK)
            self.writing.cursor.lose()
        elif isinstance(entry, Reset):
            self._reset(entry)
        elif isinstance(entry, Field):
            self.writing.cursor.set_field(entry.corners)
        elif isinstance(entry, (GlyphStart, MaskStart)):
            self._begin(entry)
        elif isinstance(entry, DefEnd):
            self._end()
        elif isinstance(entry, BlinkMark) and entry.on:
            self.paper.note(BLINKING)
        elif type(entry) in NOTES:
            self.paper.note(NOTES[type(entry)])

    def _reset(self, entry: Reset) -> None:
        screen = entry.first >> 3 & 7
        if screen in TO_BLACK:
            self.paper.clear(BLACK)
        elif screen in TO_COLOUR:
            self.paper.clear(self.palette.front(self.colour))
        if entry.second & 1:
            self.writing.cursor.set_field(None)
        self.writing.cursor.lose()

    def _begin(self, entry: Union[GlyphStart, MaskStart]) -> None:
        self.definition = entry
        self.saved = self.writing.cursor.saved()
        self.writing.cursor.enter_glyph()
        self.paper.begin()

    def _end(self) -> None:
        definition, self.definition = self.definition, None
        if definition is None:
            return
        self.writing.cursor.put_back(self.saved)
        if isinstance(definition, GlyphStart):
            self.paper.end_glyph(definition.code)
        else:
            self.paper.end_mask(definition.mask)


def entries_of(lines: Lines) -> Entries:
    """The entries that lines have, each of which is read once."""
    return lines if isinstance(lines, Entries) else Entries(lines)


def palette_of(entries: Entries, end: int) -> Palette:
    """The colour map as the last of the entries before the end leaves it."""
    return Palette(entries[number] if number < MOST_DRAWN else read_line(line)
                   for number, line in enumerate(entries.lines[:end]) if line.startswith("MAP "))


class Guess(NamedTuple):
    """From which entry on the entries are a guess, and the lines that tell of it below the picture."""

    start: int
    notes: Tuple[str, ...]


@dataclass(frozen=True)
class Drawn:
    """A drawing, with what it says of itself, and how many of the entries it has."""

    paper: Paper
    captions: Captions
    drawn: int


def drawn(lines: Lines, note: str = "", guess: Optional[Guess] = None, prefix: str = "") -> Drawn:
    """The drawing of the page with these lines or entries. `note` is what else it has to say of itself. Its ids begin
    with the prefix, or with a hash of the lines."""
    entries = entries_of(lines)
    total = len(entries)
    sure, below = guess or Guess(total, ())
    walk = Walk(entries, palette_of(entries, sure), Paper(lambda: prefix or _prefix_of(entries)))
    walk.guess_start = sure
    count = walk.draw()
    caption = "Sketch of " + "; ".join(filter(None, (_counted(min(count, sure), sure), note)))
    if guess:
        caption += "; then a guess of " + _counted(max(0, count - sure), total - sure)
        walk.paper.note(" ".join(below))
    if BLINKING in walk.paper.notes:
        caption += PARTS_BLINK
    if count < total:
        below += (ENDS % (count + 1),)
    return Drawn(walk.paper, Captions(caption, below), count)


def _prefix_of(entries: Entries) -> str:
    return "n" + hashlib.sha256("\n".join(entries.lines).encode("ascii")).hexdigest()[:8]


def draw(lines: Lines, note: str = "", guess: Optional[Guess] = None) -> Sketch:
    """The sketch of the page with these lines or entries. `note` is what else it has to say of itself."""
    made = drawn(lines, note, guess)
    entries = entries_of(lines)
    described = describe([entries[number] for number in range(min(made.drawn, guess.start if guess else made.drawn))])
    return Sketch(document(made.paper, made.captions._replace(described=described.short())), made.drawn)


def empty(reason: str) -> Sketch:
    """A sketch without a drawing, which says why."""
    return Sketch(document(Paper(lambda: "n"), Captions(reason)), 0)


def _counted(drawn: int, total: int) -> str:
    all_of_them = "1 entry" if total == 1 else "%d entries" % total
    return all_of_them if drawn == total else "the first %d of %s" % (drawn, all_of_them)
