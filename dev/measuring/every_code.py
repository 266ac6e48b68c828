"""Pages with every code that a page may have: a few between letters and drawings, or, in dense pages, many.

Points and lines are runs as long as one may be, and polygons have up to 160 corners. A text has screens of lines with
accents, sizes, reverse video, underlines, repeated characters and moves of the position. A mixed page has screens that
begin with RESET and colours of the map, and have short runs of each opcode that draws, glyphs, masks, texts, waits and
blinks. Macros call others, and a run of some continues after the call.
"""
from typing import Callable, List, NamedTuple, Tuple

from dev.measuring.page_codes import (
    ARC_FILLED, ARC_OUTLINED, BLINK, CALL, DEF_DRCS, DEF_MACRO, DEF_TEXTURE, DEFP_MACRO, DOMAIN, END, FIELD, LINE_ABS,
    LINE_REL, MACROS_IN_G3, POINT_ABS, POINT_REL, POINT_SET_ABS, POINT_SET_REL, POLY_FILLED, POLY_OUTLINED, RECT_FILLED,
    RECT_OUTLINED, RESET, SELECT_COLOR, SET_ARC_FILLED, SET_ARC_OUTLINED, SET_COLOR, SET_LINE_ABS, SET_LINE_REL,
    SET_POLY_FILLED, SET_POLY_OUTLINED, SET_RECT_FILLED, SET_RECT_OUTLINED, SI, SO, TEXT, TEXTURE, WAIT, Operands,
    Place, multi,
)

SS2, SS3, CLEAR, HOME, RETURN, DOWN = b"\x19", b"\x1d", b"\x0c", b"\x1e", b"\x0d", b"\x0a"
BELL, BACK, FORWARD, UP, SET_POSITION = b"\x07", b"\x08", b"\x09", b"\x0b", b"\x1c"
REPEAT, REPEAT_TO_END = b"\x1b\x46", b"\x1b\x47"
REVERSE, NORMAL, UNDERLINE, NO_UNDERLINE = b"\x1b\x48", b"\x1b\x49", b"\x1b\x59", b"\x1b\x5a"
SMALL, MEDIUM, USUAL, TALL, DOUBLE = (b"\x1b" + bytes([code]) for code in b"JKLMO")
BLINKING, NO_BLINKING, PROTECT = b"\x1b\x4e", b"\x1b\x5e", b"\x1b\x50"
WRAP, NO_WRAP, SCROLL, NO_SCROLL = (b"\x1b" + bytes([code]) for code in b"UVWX")
CURSORS = (b"\x1b\x5b", b"\x1b\x5c", b"\x1b\x5d")
# Accents of the supplementary set, each before the letter that has it; and mosaics.
ACCENTS, MOSAICS = b"ABCDHKO", range(0x21, 0x40)
# The DRCS set into G2, and the supplementary set again.
GLYPHS_IN_G2, ACCENTS_IN_G2 = b"\x1b\x2a\x7b", b"\x1b\x2a\x7c"
GLYPH_CODES, MASKS = range(0x21, 0x31), b"ABCD"
MIDDLE: Place = (128, 128)
COLUMNS, LINES = 38, 20
# The displacements of three words in a run of at most 16,384 bytes.
LONGEST = 5461
# The macros of one kind come after one another: shapes, texts, open runs, those that call shapes.
FIRST_NAME, NAMES = 0x21, 40


class Macro(NamedTuple):
    """A macro: its body, what a call of it charges in all, and the operands that may follow the call."""

    body: bytes
    charge: int
    further: bytes


class EveryCode(Operands):
    """Pieces of pages, the same ones for the same seed."""

    # Of a thousand words, those with an accent, a repeated character, or another look; of lines, those with a move; of
    # captions, those with another look; of drawings, those of a glyph or mask; of shapes, those of a rare opcode.
    ACCENTED, REPEATED, LOOKS, MOVES, CAPTIONS, GLYPHS, OTHERS = 6, 4, 26, 25, 350, 30, 150

    def __init__(self, seed: str) -> None:
        super().__init__(seed)
        self.known: List[Macro] = []
        for number in range(NAMES):
            self.known.append((self.shape_macro, self.text_macro, self.run_macro, self.calling_macro)[number % 4]())

    def chance(self, percent: int) -> bool:
        """Whether something comes that comes so many times in a hundred."""
        return self.rarely(10 * percent)

    def rarely(self, share: int) -> bool:
        """Whether something comes that comes so many times in a thousand."""
        return self.random.randrange(1000) < share

    def near(self, low: int, high: int) -> Place:
        """A place whose coordinates are between two numbers."""
        return self.random.randint(low, high), self.random.randint(low, high)

    def placed(self, at: Place) -> bytes:
        """The pen at a place."""
        return POINT_SET_ABS + multi(*at)

    def run_of(self, opcode: bytes, count: int, most: int = 9) -> bytes:
        """A run of an opcode from where the pen is set."""
        at = self.place()
        return self.placed(at) + opcode + self.steps(at, count, most)

    def run_from(self, opcode: bytes, count: int, most: int = 9) -> bytes:
        """A run of an opcode that sets the pen itself."""
        at = self.place()
        return opcode + multi(*at) + self.steps(at, count, most)

    def places(self, opcode: bytes, count: int) -> bytes:
        """A run of places."""
        return opcode + b"".join(multi(*self.place()) for _ in range(count))

    def pairs(self, opcode: bytes, count: int) -> bytes:
        """A run of places, each with a displacement from it."""
        found = (self.place() for _ in range(count))
        return opcode + b"".join(multi(*at) + self.steps(at, 1, 40) for at in found)

    def colour(self) -> bytes:
        """A colour that is set."""
        return SET_COLOR + b"".join(self.word() for _ in range(self.random.randint(1, 3)))

    def address(self) -> bytes:
        """An address of the sixteen colours that a screen uses."""
        return bytes([0x40 | self.random.randrange(16) << 2])

    def select(self) -> bytes:
        """A colour of the map, at times with a background, or the base again."""
        if self.chance(5):
            return SELECT_COLOR
        return SELECT_COLOR + self.address() + (self.address() if self.chance(25) else b"")

    def points(self) -> bytes:
        """A run of points, as long as a run may be."""
        return SO + self.run_of(POINT_REL, LONGEST)

    def lines(self) -> bytes:
        """A run of lines, as long as a run may be."""
        return SO + self.run_of(LINE_REL, LONGEST)

    def poly(self) -> bytes:
        """A polygon, at times with its colour."""
        colour = self.colour() if self.chance(40) else b""
        opcode = self.random.choice((SET_POLY_FILLED, SET_POLY_OUTLINED))
        return SO + colour + self.run_from(opcode, self.random.randint(10, 160))

    def letters(self, count: int) -> bytes:
        """Letters of a word."""
        return bytes(self.random.randrange(0x61, 0x7B) for _ in range(count))

    def words(self, count: int) -> bytes:
        """Words with a blank after each; some have an accent, or the last character again."""
        made = bytearray()
        for _ in range(count):
            made += self.letters(self.random.randint(2, 10))
            if self.rarely(self.ACCENTED):
                made += SS2 + bytes([self.random.choice(ACCENTS)]) + b"e"
            if self.rarely(self.REPEATED):
                made += b"-" + REPEAT + self.word(12)
            made += b" "
        return bytes(made)

    def look(self) -> bytes:
        """Some words in another look, which ends after them."""
        begin, end = self.random.choice((
            (REVERSE, NORMAL), (UNDERLINE, NO_UNDERLINE), (SMALL, USUAL), (MEDIUM, USUAL), (TALL, USUAL),
            (DOUBLE, USUAL), (BLINKING, NO_BLINKING), (WRAP, NO_WRAP), (SCROLL, NO_SCROLL),
        ))
        return begin + self.words(self.random.randint(1, 3)) + end

    def moves(self) -> bytes:
        """A move of the position, or another control of texts."""
        position = SET_POSITION + bytes([self.random.randrange(0x20, 0x34), self.random.randrange(0x20, 0x46)])
        mosaic = SS3 + bytes([self.random.choice(MOSAICS)]) + REPEAT + self.word(20)
        return self.random.choice((
            position, mosaic, BACK, FORWARD, UP, BELL, PROTECT, b"." + REPEAT_TO_END, *CURSORS,
        ))

    def line(self) -> bytes:
        """A line of text."""
        made = self.words(1)
        while len(made) < COLUMNS:
            made += self.look() if self.rarely(self.LOOKS) else self.words(1)
        return made + (self.moves() if self.rarely(self.MOVES) else b"") + RETURN + DOWN

    def text(self) -> bytes:
        """A screen of text."""
        lines = [(SO + self.select() if at % 4 == 0 else b"") + SI + self.line() for at in range(LINES)]
        return CLEAR + HOME + b"".join(lines)

    def glyph(self) -> bytes:
        """A character of the page's own, or a mask, and what it is used for."""
        drawn = SET_POLY_FILLED + multi(*self.near(100, 150)) + self.steps(MIDDLE, 6, 10)
        if self.chance(25):
            mask = bytes([self.random.choice(MASKS)])
            return DEF_TEXTURE + mask + drawn + END + TEXTURE + b"\x50" + multi(8, 8)
        code = bytes([self.random.choice(GLYPH_CODES)])
        shown = GLYPHS_IN_G2 + SS2 + code + REPEAT + self.word(10) + ACCENTS_IN_G2
        return DEF_DRCS + code + drawn + END + SI + shown + SO

    def usual_shape(self) -> bytes:
        """A run of an opcode that most drawings have."""
        kinds: Tuple[Callable[[], bytes], ...] = (
            lambda: self.pairs(SET_RECT_FILLED, 1),
            lambda: self.run_from(SET_POLY_FILLED, self.random.randint(3, 22)),
            lambda: self.run_from(SET_ARC_FILLED, 2, 25),
            lambda: self.run_of(LINE_REL, self.random.randint(1, 12)),
            lambda: self.places(SET_LINE_ABS, 2 * self.random.randint(1, 3)),
            lambda: self.places(POINT_ABS, self.random.randint(1, 10)),
        )
        return self.random.choice(kinds)()

    def other_shape(self) -> bytes:
        """A run of another opcode that draws."""
        kinds: Tuple[Callable[[], bytes], ...] = (
            lambda: self.run_of(POINT_REL, self.random.randint(1, 10)),
            lambda: self.run_of(POINT_SET_REL, 1) + POINT_ABS + multi(*self.place()),
            lambda: self.run_of(LINE_ABS, 0) + multi(*self.place()),
            lambda: self.pairs(SET_LINE_REL, self.random.randint(1, 3)),
            lambda: self.run_of(self.random.choice((ARC_OUTLINED, ARC_FILLED)), 2, 25),
            lambda: self.run_from(SET_ARC_OUTLINED, 2, 25),
            lambda: self.run_of(self.random.choice((RECT_OUTLINED, RECT_FILLED)), 1, 60),
            lambda: self.pairs(SET_RECT_OUTLINED, 1),
            lambda: self.run_of(self.random.choice((POLY_OUTLINED, POLY_FILLED)), self.random.randint(3, 22)),
            lambda: self.run_from(SET_POLY_OUTLINED, self.random.randint(3, 22)),
        )
        return self.random.choice(kinds)()

    def shape(self) -> bytes:
        """A short run of any opcode that draws."""
        return self.other_shape() if self.rarely(self.OTHERS) else self.usual_shape()

    def drawing(self) -> bytes:
        """A shape with its colour, and at times another texture."""
        textured = TEXTURE + self.word(4) if self.chance(20) else b""
        return self.select() + textured + self.shape()

    def beginning(self) -> bytes:
        """What a screen begins with: RESET, the pel, colours of the map."""
        made = SO + RESET + b"\x43\x49" + DOMAIN + b"\x48" + multi(self.random.randint(0, 2), 1)
        for at in range(4):
            made += SELECT_COLOR + bytes([0x40 | at << 2]) + self.colour()
        return made

    def captions(self) -> bytes:
        """Texts at places of the drawing, in a size of their own."""
        made = TEXT + b"\x40\x40" + multi(6, 10)
        for _ in range(self.random.randint(3, 8)):
            at = self.placed(self.near(10, 200))
            made += SO + self.select() + at + SI + self.words(self.random.randint(2, 6))
            made += self.look() if self.rarely(self.CAPTIONS) else self.moves()
        return made

    def mixed(self) -> bytes:
        """A screen of drawings and texts."""
        first = CLEAR + self.beginning() + (FIELD + multi(16, 16) + multi(200, 180) if self.chance(20) else b"")
        drawn = (self.glyph() if self.rarely(self.GLYPHS) else self.drawing() for _ in range(10))
        ending = SO + WAIT + self.word() + BLINK + b"\x44\x45\x45\x40" + (BLINK if self.chance(50) else b"")
        return first + b"".join(drawn) + self.captions() + ending

    def shape_macro(self) -> Macro:
        """A polygon from the pen."""
        body = SO + POLY_FILLED + self.steps(MIDDLE, self.random.randint(4, 16), 6)
        return Macro(body, len(body), b"")

    def text_macro(self) -> Macro:
        """Some words."""
        body = SI + self.words(self.random.randint(1, 4))
        return Macro(body, len(body), b"")

    def run_macro(self) -> Macro:
        """A colour, and a run of points that continues after the call."""
        body = SO + self.colour() + POINT_REL + self.steps(MIDDLE, self.random.randint(2, 10), 3)
        return Macro(body, len(body), multi(1, 1) + multi(-1, 1))

    def calling_macro(self) -> Macro:
        """Calls of two other macros, from a place each."""
        body, charge = b"", 0
        for _ in range(2):
            other = 4 * self.random.randrange((len(self.known) + 3) // 4)
            body += SO + self.placed(self.near(100, 150)) + CALL + bytes([FIRST_NAME + other])
            charge += self.known[other].charge
        return Macro(body, len(body) + charge, b"")

    def definitions(self) -> bytes:
        """Definitions of all macros, which can be called after them; the first is presented too."""
        at_middle = SO + self.placed(MIDDLE)
        made = MACROS_IN_G3 + at_middle
        for number, macro in enumerate(self.known):
            made += (DEF_MACRO if number else DEFP_MACRO) + bytes([FIRST_NAME + number]) + macro.body
        return made + END

    def macros(self) -> bytes:
        """A call from a place, and then at least as many bytes as it charges."""
        number = self.random.randrange(NAMES)
        made = SO + self.placed(self.near(100, 150)) + CALL + bytes([FIRST_NAME + number]) + self.known[number].further
        while len(made) < self.known[number].charge:
            made += SO + self.drawing() if self.chance(50) else SI + self.words(2)
        return made


class DenseCode(EveryCode):
    """Pieces with many codes between few letters."""

    ACCENTED, REPEATED, LOOKS, MOVES, CAPTIONS, GLYPHS, OTHERS = 60, 20, 80, 150, 600, 50, 600
