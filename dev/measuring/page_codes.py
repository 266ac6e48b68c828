"""The codes of which pages for measurements are made, and operands that stay on the unit screen."""
import random
from typing import Tuple

SO, SI = b"\x0e", b"\x0f"
# A call after SS3, where the macro set is in G3.
MACROS_IN_G3, CALL = b"\x1b\x2b\x7a", b"\x1d"
DEF_MACRO, DEFP_MACRO, DEF_DRCS, DEF_TEXTURE, END = b"\x1b\x40", b"\x1b\x41", b"\x1b\x43", b"\x1b\x44", b"\x1b\x45"
RESET, DOMAIN, TEXT, TEXTURE = b"\x20", b"\x21", b"\x22", b"\x23"
POINT_SET_ABS, POINT_SET_REL, POINT_ABS, POINT_REL = b"\x24", b"\x25", b"\x26", b"\x27"
LINE_ABS, LINE_REL, SET_LINE_ABS, SET_LINE_REL = b"\x28", b"\x29", b"\x2a", b"\x2b"
ARC_OUTLINED, ARC_FILLED, SET_ARC_OUTLINED, SET_ARC_FILLED = b"\x2c", b"\x2d", b"\x2e", b"\x2f"
RECT_OUTLINED, RECT_FILLED, SET_RECT_OUTLINED, SET_RECT_FILLED = b"\x30", b"\x31", b"\x32", b"\x33"
POLY_OUTLINED, POLY_FILLED, SET_POLY_OUTLINED, SET_POLY_FILLED = b"\x34", b"\x35", b"\x36", b"\x37"
FIELD, SET_COLOR, WAIT, SELECT_COLOR, BLINK = b"\x38", b"\x3c", b"\x3d", b"\x3e", b"\x3f"

# Coordinates of three words have eight bits and a sign.
SIDE = 256
Place = Tuple[int, int]


def multi(x: int, y: int) -> bytes:
    """Two numbers of nine bits, in two's complement, as three words."""
    x, y = x % 512, y % 512
    return bytes(0x40 | (x >> shift & 7) << 3 | (y >> shift & 7) for shift in (6, 3, 0))


class Operands:
    """Operands by chance, the same ones for the same seed."""

    def __init__(self, seed: str) -> None:
        self.random = random.Random(seed)

    def place(self) -> Place:
        """A place in the unit screen."""
        return self.random.randrange(SIDE), self.random.randrange(SIDE)

    def steps(self, at: Place, count: int, most: int = 8) -> bytes:
        """Displacements of at most some units, of eight where no number is given, that stay in the unit screen."""
        x, y = at
        run = bytearray()
        for _ in range(count):
            next_x = min(max(x + self.random.randint(-most, most), 0), SIDE - 1)
            next_y = min(max(y + self.random.randint(-most, most), 0), SIDE - 1)
            run += multi(next_x - x, next_y - y)
            x, y = next_x, next_y
        return bytes(run)

    def word(self, number: int = 64) -> bytes:
        """A word below a number."""
        return bytes([0x40 | self.random.randrange(number)])
