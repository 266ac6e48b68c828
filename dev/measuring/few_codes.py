"""Pages of few codes: long runs, lines of letters, short pieces of each kind, and calls of macros."""
from typing import Callable, Iterator, Tuple

from dev.measuring.page_codes import (
    CALL, DEF_MACRO, END, LINE_REL, MACROS_IN_G3, POINT_REL, POINT_SET_ABS, RECT_FILLED, SET_ARC_OUTLINED, SET_COLOR,
    SET_POLY_FILLED, SI, SO, TEXTURE, Operands, multi,
)

FIRST_NAME, NAMES = 0x20, 96
LETTERS = b"abcdefghijklmnopqrstuvwxyz      "
# How many short pages there are, and the bytes of each.
SHORT_PAGES, LENGTH = 20_000, 650


class FewCodes(Operands):
    """Pieces of pages, the same ones for the same seed."""

    def __init__(self, seed: str) -> None:
        super().__init__(seed)
        self.bodies = [self.body() for _ in range(NAMES)]

    def colour(self) -> bytes:
        """A colour that is set."""
        return SET_COLOR + bytes(0x40 | self.random.randrange(64) for _ in range(2))

    def chain(self, opcode: bytes, count: int) -> bytes:
        """A run of displacements from a place."""
        at = self.place()
        return SO + POINT_SET_ABS + multi(*at) + opcode + self.steps(at, count)

    def points(self) -> bytes:
        """A run of points."""
        return self.chain(POINT_REL, 5000)

    def lines(self) -> bytes:
        """A run of lines."""
        return self.chain(LINE_REL, 5000)

    def poly(self) -> bytes:
        """A polygon with its colour."""
        at = self.place()
        return SO + self.colour() + SET_POLY_FILLED + multi(*at) + self.steps(at, self.random.randint(3, 400))

    def text(self) -> bytes:
        """A line of text."""
        words = bytes(self.random.choice(LETTERS) for _ in range(self.random.randint(20, 78)))
        return SI + words + b"\r\n"

    def mixed(self) -> bytes:
        """A piece of any kind."""
        at = self.place()
        kinds: Tuple[Callable[[], bytes], ...] = (
            self.text,
            lambda: SO + self.colour(),
            lambda: SO + TEXTURE + bytes([0x40 | self.random.randrange(64)]),
            lambda: self.chain(POINT_REL, self.random.randint(1, 8)),
            lambda: self.chain(LINE_REL, self.random.randint(1, 8)),
            lambda: SO + SET_ARC_OUTLINED + multi(*at) + self.steps(at, 2),
            lambda: SO + POINT_SET_ABS + multi(*at) + RECT_FILLED + self.steps(at, 1),
            lambda: SO + SET_POLY_FILLED + multi(*at) + self.steps(at, self.random.randint(3, 8)),
        )
        return self.random.choice(kinds)()

    def body(self) -> bytes:
        """The body of a macro."""
        kinds: Tuple[Callable[[], bytes], ...] = (
            self.text, lambda: self.chain(LINE_REL, self.random.randint(2, 8)),
        )
        return self.random.choice(kinds)()

    def definitions(self) -> bytes:
        """Definitions of all macros, which can be called after them."""
        names = range(FIRST_NAME, FIRST_NAME + NAMES)
        defined = b"".join(DEF_MACRO + bytes([name]) + body for name, body in zip(names, self.bodies))
        return defined + END + MACROS_IN_G3

    def macros(self) -> bytes:
        """A call, and as many bytes as it charges."""
        name = self.random.randrange(NAMES)
        return CALL + bytes([FIRST_NAME + name]) + self.bodies[name]


def short_pages() -> Iterator[bytes]:
    """Mixed pages of one length, each another one, with NUL after the last piece that fits."""
    pages = FewCodes("requests")
    for _ in range(SHORT_PAGES):
        made, piece = b"", b""
        while len(made) + len(piece) <= LENGTH:
            made, piece = made + piece, pages.mixed()
        yield made.ljust(LENGTH, b"\0")
