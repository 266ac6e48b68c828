"""Spells streams of NAPLPS byte by byte, as senders did and as no canonical stream is: operands of chosen lengths,
relative moves, macros, and codes that are refused. For tests alone: what makes pages is naplps.writer.

Places and sizes are in sides of the unit screen.
"""
from typing import Iterable, Sequence, Tuple

Place = Tuple[float, float]
PRIMARY, PDI = 0, 1
SIZES = {"small": 0x4A, "medium": 0x4B, "normal": 0x4C, "tall": 0x4D, "double": 0x4F}
ACCENTS = {"grave": 0x41, "acute": 0x42, "circumflex": 0x43, "tilde": 0x44, "diaeresis": 0x48, "cedilla": 0x4B}


class StreamWriter:
    """Bytes of a page, made piece by piece. Operands of points have `words` words."""

    def __init__(self, words: int = 4, gl: int = PRIMARY) -> None:
        self.words = words
        self.gl = gl
        self.bytes = bytearray()

    def raw(self, *codes: int) -> "StreamWriter":
        """These bytes as they are."""
        self.bytes += bytes(codes)
        return self

    def escape(self, *codes: int) -> "StreamWriter":
        """ESC and these bytes."""
        return self.raw(0x1B, *codes)

    # -- operands

    def units(self, value: float) -> int:
        """A coordinate as a whole number of the smallest steps that the operands have."""
        return round(value * (1 << (3 * self.words - 1)))

    def spelled(self, x: int, y: int) -> bytes:
        """A point or displacement in steps."""
        bits = 3 * self.words
        x, y = x % (1 << bits), y % (1 << bits)
        return bytes(0x40 | (x >> at & 7) << 3 | (y >> at & 7) for at in range(bits - 3, -1, -3))

    def place(self, x: float, y: float) -> bytes:
        """A point or displacement in sides of the unit screen."""
        return self.spelled(self.units(x), self.units(y))

    def moves(self, places: Sequence[Place]) -> bytes:
        """The first place and the displacements from each to the next, which add up exactly."""
        steps = [(self.units(x), self.units(y)) for x, y in places]
        out = self.spelled(*steps[0])
        for (a, b), (c, d) in zip(steps, steps[1:]):
            out += self.spelled(c - a, d - b)
        return out

    def colour(self, red: float, green: float, blue: float) -> bytes:
        """A colour of parts from 0 to 1."""
        top = (1 << (2 * self.words)) - 1
        parts = [round(value * top) for value in (green, red, blue)]
        out = bytearray()
        for at in range(2 * self.words - 2, -1, -2):
            word = 0
            for half in (1, 0):
                for part in parts:
                    word = word << 1 | (part >> (at + half) & 1)
            out.append(0x40 | word)
        return bytes(out)

    # -- picture codes

    def code(self, opcode: int, operands: bytes = b"") -> "StreamWriter":
        """An opcode of the PDI set with its operands, and SO before it where it is needed."""
        if self.gl != PDI:
            self.raw(0x0E)
            self.gl = PDI
        self.bytes.append(opcode)
        self.bytes += operands
        return self

    def domain(self, pel: Place = (0.0, 0.0)) -> "StreamWriter":
        """The lengths of operands, and the pel."""
        return self.code(0x21, bytes([0x40 | (self.words - 1) << 2]) + self.place(*pel))

    def clear(self) -> "StreamWriter":
        """CS."""
        return self.raw(0x0C)

    def rgb(self, red: float, green: float, blue: float) -> "StreamWriter":
        """SET COLOR: a direct colour, or that of the map where an address is selected."""
        return self.code(0x3C, self.colour(red, green, blue))

    def select(self, *numbers: int) -> "StreamWriter":
        """SELECT COLOR with addresses of a map of sixteen; none goes back to direct colours."""
        return self.code(0x3E, bytes(0x40 | number << 2 for number in numbers))

    def texture(self, line: int = 0, fill: int = 0, edge: bool = False) -> "StreamWriter":
        """The texture word."""
        return self.code(0x23, bytes([0x40 | fill << 3 | edge << 2 | line]))

    def to(self, x: float, y: float) -> "StreamWriter":
        """The pen goes to a place."""
        return self.code(0x24, self.place(x, y))

    def line(self, *places: Place) -> "StreamWriter":
        """Lines from place to place."""
        self.to(*places[0])
        return self.code(0x28, b"".join(self.place(*each) for each in places[1:]))

    def polygon(self, places: Sequence[Place], filled: bool = True) -> "StreamWriter":
        """A polygon."""
        return self.code(0x37 if filled else 0x36, self.moves(places))

    def rectangle(self, x: float, y: float, wide: float, high: float, filled: bool = True) -> "StreamWriter":
        """A rectangle."""
        return self.code(0x33 if filled else 0x32, self.moves([(x, y), (x + wide, y + high)]))

    def circle(self, x: float, y: float, radius: float, filled: bool = True) -> "StreamWriter":
        """A circle around a place: the ends of a diameter."""
        return self.code(0x2F if filled else 0x2E, self.moves([(x - radius, y), (x + radius, y)]))

    def arc(self, places: Sequence[Place], filled: bool = False) -> "StreamWriter":
        """An arc through three places, or a curve through more."""
        return self.code(0x2F if filled else 0x2E, self.moves(places))

    def blink(self, number: int, on: int, off: int, delay: int = 0) -> "StreamWriter":
        """A blink of an address of the map, in tenths of a second."""
        return self.code(0x3F, bytes([0x40 | number << 2, 0x40 | on, 0x40 | off, 0x40 | delay]))

    # -- text

    def text(self, words: str) -> "StreamWriter":
        """Characters of the primary set, from where the page is."""
        if self.gl != PRIMARY:
            self.raw(0x0F)
            self.gl = PRIMARY
        self.bytes += words.encode("ascii")
        return self

    def at(self, x: float, y: float, words: str, size: str = "") -> "StreamWriter":
        """Text at a place, in a size."""
        self.to(x, y)
        if size:
            self.escape(SIZES[size])
        return self.text(words)

    def sign(self, code: int) -> "StreamWriter":
        """A character of the supplementary set."""
        return self.raw(0x19, code)

    def accent(self, name: str, letter: str) -> "StreamWriter":
        """A letter with an accent."""
        return self.sign(ACCENTS[name]).text(letter)

    def mosaic(self, codes: Iterable[int]) -> "StreamWriter":
        """Characters of the mosaic set."""
        for code in codes:
            self.raw(0x1D, code)
        return self

    # -- definitions

    def macro(self, name: int, body: "StreamWriter") -> "StreamWriter":
        """Defines a macro. Its body begins with PDI in use."""
        return self.escape(0x40, name).raw(*body.bytes).escape(0x45)

    def call(self, name: int) -> "StreamWriter":
        """Calls a macro; G2 has to hold the macro set."""
        return self.raw(0x19, name)

    def glyph(self, code: int, drawing: "StreamWriter") -> "StreamWriter":
        """Defines a glyph of the DRCS set, drawn with PDI in use."""
        if self.gl != PDI:
            self.raw(0x0E)
            self.gl = PDI
        return self.escape(0x43, code).raw(*drawing.bytes).escape(0x45)

    def made(self) -> bytes:
        """The page."""
        return bytes(self.bytes)
