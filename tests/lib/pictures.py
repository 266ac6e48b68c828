"""Pages that are drawn by chance, all different and all accepted, for tests that need many."""
import math
from random import Random

from naplps.writer import star
from stream_writer import SIZES, StreamWriter

WORDS = ("NEWS", "WEATHER", "SPORT", "INDEX", "MAP", "PRICES", "TRAINS", "THEATRE", "CLOSED", "TODAY")


def picture(chance: Random, number: int) -> bytes:
    """A page of shapes and text, with its number in its title."""
    page = StreamWriter(chance.choice((2, 3, 3, 3, 4, 6)))
    if chance.random() < 0.7:
        page.clear()
    page.domain()
    page.rgb(chance.random(), chance.random(), chance.random()).rectangle(0, 0, 0.7, 0.6)
    for _ in range(chance.randrange(1, 9)):
        chance.choice(PARTS)(page, chance)
    return page.at(0.1, 0.65, "%s %d" % (chance.choice(WORDS), number), chance.choice(list(SIZES))).made()


def _place(chance: Random) -> "tuple[float, float]":
    return chance.random() * 0.7, chance.random() * 0.6


def _star(page: StreamWriter, chance: Random) -> None:
    page.polygon(star(0.2 + chance.random() * 0.5, 0.3, 0.15, chance.randrange(3, 8)), chance.random() < 0.5)


def _wave(page: StreamWriter, chance: Random) -> None:
    page.arc([(0.1 + 0.1 * i, 0.3 + 0.1 * math.sin(i + chance.random())) for i in range(chance.randrange(3, 7))])


def _glyph(page: StreamWriter, chance: Random) -> None:
    """A glyph of one polygon, and the glyph itself."""
    code, drawing = chance.randrange(0x21, 0x7F), StreamWriter(page.words, gl=1)
    drawing.polygon([(0, 0), (0.5, 0.25 + chance.random() / 2), (0.75, 0.1)])
    page.glyph(code, drawing).escape(0x2B, 0x7B).raw(0x1D, code).escape(0x2B, 0x7D)


PARTS = (
    lambda page, chance: page.line(_place(chance), _place(chance), _place(chance)),
    _star, _wave, _glyph,
    lambda page, chance: page.rgb(chance.random(), chance.random(), chance.random()),
    lambda page, chance: page.select(chance.randrange(16)),
    lambda page, chance: page.texture(chance.randrange(4), chance.randrange(8)),
    lambda page, chance: page.circle(0.3, 0.3, chance.random() * 0.25),
    lambda page, chance: page.at(*_place(chance), chance.choice(WORDS).lower()),
    lambda page, chance: page.at(*_place(chance), "caf").accent("acute", "e").text(" open"),
    lambda page, chance: page.at(*_place(chance), "").mosaic([chance.randrange(0x20, 0x60) for _ in range(5)]))


def writing(chance: Random, number: int) -> bytes:
    """A text file of some lines, with its number in the first."""
    lines = ["File %d" % number] + [" ".join(chance.choice(WORDS).lower() for _ in range(8)) for _ in range(12)]
    return ("\r\n" if number % 2 else "\n").join(lines).encode("ascii") + b"\n"
