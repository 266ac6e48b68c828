"""Where the cursor goes, beside a painter that goes by the words of docs/RASTER.md, in lists by chance.

RASTER_PAGES says how many lists are tried, ten for each page.
"""
from dataclasses import replace
from random import Random

import naplps as nap
import slow_cursor as slow
from dot_shapes import PAGES, U
from naplps.dots import raster
from naplps.dots.surface import BLACK

# (those that begin and end what SCROLL leaves out are the most frequent)
MOVES = ("APB", "APF", "APR", "APH", "APS", *3 * ("APD", "APU"))
BLANK, BLOCK = 0x20, 0x7F


def length(chance):
    """Less than 12 dots, half of the times whole ones."""
    return chance.choice((chance.randrange(1, 12) * U, chance.randrange(1, 12 * U)))


def look(chance):
    """How text looks: mostly upright to the right, in cells of some dots."""
    bits = [chance.choice((0, 0, 0, chance.randrange(4))) for _ in range(3)]
    wide, high = (chance.choice((1, 1, 1, -1)) * length(chance) for _ in range(2))
    size = chance.choice((*slow.SIZES, (wide, high), (wide, high), (wide, high)))
    return nap.Look(bits[0] << 4 | bits[1] << 2 | bits[2], 0, size, False, False, chance.random() < 0.4,
                    chance.random() < 0.6)


def place(chance):
    return chance.randrange(20 * U, 100 * U), chance.choice((chance.randrange(20, 100) * U, chance.randrange(100 * U)))


def field(chance, pen):
    """A field of up to 36 dots, so that lines and what scrolls end soon."""
    x, y = place(chance)
    return nap.Field(((x, y), (x + 3 * length(chance), y + 3 * length(chance))), pen)


def whole(code, text, ink):
    """A colour and a look with which a character paints its whole cell."""
    if code == BLANK:
        return nap.Colour("front", (ink,)), replace(text, reverse=True)
    return nap.Colour("pair", (ink, ink)), text


def entries(chance):
    """A list of characters, moves, TO-EOL and FIELD, whose first is one of the latter."""
    looks = [look(chance) for _ in range(2)]
    found = [field(chance, "start")]
    for _ in range(chance.randrange(4, 30)):
        kind, pen = chance.random(), place(chance) if chance.random() < 0.04 else "after"
        is_repeat = found[-1].kind == "CHAR" and kind < 0.1
        code = found[-1].code if is_repeat else chance.choice((BLANK, BLOCK, BLOCK))
        colour, text = whole(code, chance.choice(looks), chance.randrange(1, 4))
        if is_repeat:
            found.append(nap.ToEol(pen, colour, text))
        elif kind < 0.4:
            move = chance.choice(MOVES)
            numbers = (chance.randrange(32, 44), chance.randrange(32, 44)) if move == "APS" else ()
            found.append(nap.TextMove(move, numbers, pen, colour, text))
        elif kind < 0.42:
            found.append(field(chance, "after"))
        else:
            found.append(nap.Char("primary", code, pen, colour, text))
    return found


def test_cells_are_where_the_document_has_them():
    chance = Random("moves")
    for number in range(10 * PAGES):
        some = entries(chance)
        inks = {(at % 256, at // 256): ink for at, ink in enumerate(raster(some).inks) if ink != BLACK}
        assert inks == slow.paint(some), (number, [str(entry) for entry in some])
