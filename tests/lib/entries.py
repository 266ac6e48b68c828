"""Entries of all kinds by chance, often at the ends of their ranges, as docs/PROFILE.md has these; and legal lists."""
from random import Random
from typing import List

import naplps as nap
from naplps.writer import PageState

ONE = nap.ONE
COORDINATES, STEPS = (0, 1, ONE // 2, ONE - 1), (-ONE, -1, 0, 1, ONE - 1)
WORDS, ADDRESSES, PARTS = (0, 1, 62, 63), (0, 1, 1 << 20, (1 << 24) - 1), (0, 1, 257, 0x8080, 65535)
CODES = (0x20, 0x41, 0x7E, 0x7F)
SIZES, FLAGS = ("small", "medium", "normal", "tall", "double"), (False, True)
SETS, MOVES = ("primary", "supplementary", "mosaic", "drcs"), ("APB", "APF", "APD", "APU", "APR", "APH", "APS")
# Points of arcs and polygons: the fewest and the most.
LEAST, MOST_POINTS = {nap.Arc: 3, nap.Poly: 2}, 2001
# A list ends where so many entries in a row can't come.
MOST_MISFITS = 1_000


def near(chance: Random, ends, most):
    """A number at an end of its range, or anywhere in it."""
    return chance.choice(ends) if chance.random() < 0.5 else chance.randrange(ends[0], most)


def point(chance):
    """A point of the square."""
    return near(chance, COORDINATES, ONE), near(chance, COORDINATES, ONE)


def step(chance):
    """Two signed numbers."""
    return near(chance, STEPS, ONE), near(chance, STEPS, ONE)


def word(chance):
    """A number of six bits."""
    return near(chance, WORDS, 64)


def code(chance):
    """A code of a character."""
    return near(chance, CODES, 0x80)


def address(chance):
    """An address of the colour map."""
    return near(chance, ADDRESSES, 1 << 24)


def parts(chance):
    """The three parts of a colour."""
    return tuple(near(chance, PARTS, 65536) for _ in range(3))


def colour(chance):
    """A colour of any kind."""
    kind = chance.choice(("own-start", "own-reset", "reset-2", "reset-3", "direct", "front", "pair"))
    return nap.Colour(kind, {"direct": lambda: parts(chance), "front": lambda: (address(chance),),
                             "pair": lambda: (address(chance), address(chance))}.get(kind, tuple)())


def texture(chance):
    """A texture, with a mask or without."""
    return nap.Texture(word(chance), chance.choice((None, step(chance))))


def look(chance):
    """The attributes of text."""
    size = chance.choice((*SIZES, step(chance)))
    return nap.Look(word(chance), word(chance), size, *(chance.choice(FLAGS) for _ in range(4)))


def pen(chance):
    """A place of the pen."""
    return chance.choice(("start", "after", point(chance)))


def shape(chance, kind):
    """The points of an arc or a polygon, now and then as many as there may be."""
    count = MOST_POINTS if chance.random() < 0.002 else chance.randrange(LEAST[kind], 9)
    return tuple(point(chance) for _ in range(count))


def text_move(chance, *hand):
    """A move of the pen."""
    move = chance.choice(MOVES)
    return nap.TextMove(move, (code(chance), code(chance)) if move == "APS" else (), *hand)


# A maker of entries for each kind, which is given what the entry holds.
MAKERS = {
    nap.Point: lambda by, it: nap.Point(point(by), it.pel, it.colour),
    nap.Line: lambda by, it: nap.Line(point(by), point(by), it.pel, it.colour, it.texture),
    nap.Arc: lambda by, it: nap.Arc(by.choice(FLAGS), shape(by, nap.Arc), it.pel, it.colour, it.texture),
    nap.Rect: lambda by, it: nap.Rect(by.choice(FLAGS), point(by), point(by), it.pel, it.colour, it.texture),
    nap.Poly: lambda by, it: nap.Poly(by.choice(FLAGS), shape(by, nap.Poly), it.pel, it.colour, it.texture),
    nap.Char: lambda by, it: nap.Char(by.choice(SETS), code(by), it.pen, it.colour, it.text),
    nap.TextMove: lambda by, it: text_move(by, it.pen, it.colour, it.text),
    nap.ToEol: lambda by, it: nap.ToEol(it.pen, it.colour, it.text),
    nap.Map: lambda by, it: nap.Map(address(by), parts(by)),
    nap.Blink: lambda by, it: nap.Blink(address(by), word(by), word(by), word(by), it.colour),
    nap.BlinkEnd: lambda by, it: nap.BlinkEnd(it.colour),
    nap.BlinkMark: lambda by, it: nap.BlinkMark(by.choice(FLAGS), it.colour),
    nap.Wait: lambda by, it: nap.Wait(word(by)), nap.Bell: lambda by, it: nap.Bell(),
    nap.Cursor: lambda by, it: nap.Cursor(by.choice(("flash", "steady", "off"))),
    nap.Field: lambda by, it: nap.Field(by.choice((None, (point(by), point(by)))), it.pen),
    nap.Reset: lambda by, it: nap.Reset(word(by), word(by), it.pen),
    nap.Clear: lambda by, it: nap.Clear(it.pen),
    nap.GlyphStart: lambda by, it: nap.GlyphStart(code(by)),
    nap.MaskStart: lambda by, it: nap.MaskStart(by.choice("ABCD")), nap.DefEnd: lambda by, it: nap.DefEnd()}


class Holding:
    """What an entry holds: made by chance, or as it is."""

    def __init__(self, chance, stands=None, share=0.0):
        for name, make in (("pen", pen), ("pel", step), ("colour", colour), ("texture", texture), ("text", look)):
            keeps = stands is not None and chance.random() < share
            setattr(self, name, getattr(stands, name) if keeps else make(chance))


def entry(chance: Random, kind=None):
    """An entry by chance, which may be one that can't come anywhere."""
    return MAKERS[kind or chance.choice(list(MAKERS))](chance, Holding(chance))


def legal_list(chance: Random, length: int) -> List[nap.Entry]:
    """A list of entries of which each can come where it stands. What is held is often what stands, as in pages."""
    state, found, misfits = PageState(), [], 0
    kinds = chance.sample(list(MAKERS), chance.randrange(3, len(MAKERS)))
    while len(found) < length and misfits < MOST_MISFITS:  # (there may be no kind left that can come)
        made = MAKERS[chance.choice(kinds)](chance, Holding(chance, state.drawing, 0.7))
        misfits += 1
        if state.misfit(made) is None:
            found.append(made)
            state.take(made)
            misfits = 0
    return found + [nap.DefEnd()] * (state.saved is not None)
