"""Shapes by chance, with points at dots, between them and at the ends of the screen."""
import os
from random import Random
from typing import List, Tuple

import naplps as nap

SHAPES, PAGES = int(os.environ.get("RASTER_SHAPES", "300")), int(os.environ.get("RASTER_PAGES", "20"))
U, ONE = 32768, nap.ONE
OWN = nap.Colour("own-start")
KINDS = ("point", "line", "broken", "rect", "rect-filled", "poly", "poly-filled", "arc", "arc-filled", "curve",
         "curve-filled")


def coordinate(chance: Random) -> int:
    """A coordinate on the grid of dots, between them, at an end of the square, or anywhere."""
    return min(chance.choice((chance.randrange(ONE), chance.randrange(256) * U, chance.randrange(256) * U + U // 2,
                              chance.randrange(512) * U // 2, chance.choice((0, ONE - 1)))), ONE - 1)


def near(chance: Random, place: int) -> int:
    """A place near another one, often exactly at a dot or a half."""
    way = chance.choice((0, U // 2, U, -U // 2, -U, chance.randrange(-20 * U, 20 * U)))
    return min(max(place + way, 0), ONE - 1)


def pel_side(chance: Random) -> int:
    """A side of a pel: often none, a dot, or near these."""
    return chance.choice((0, 0, 1, -1, U, -U, U // 2, 3 * U // 2, 3 * U + 5, -2 * U, chance.randrange(-4 * U, 4 * U)))


def points_of(chance: Random, count: int) -> List[Tuple[int, int]]:
    """Points, a tenth of them larger than half of the screen."""
    if chance.random() < 0.1:
        return [(coordinate(chance), coordinate(chance)) for _ in range(count - 1)] + [
            (chance.choice((0, ONE - 1)), coordinate(chance))]
    x, y = coordinate(chance), coordinate(chance)
    return [(near(chance, x), near(chance, y)) for _ in range(count)]


def shape(chance: Random, kind: str) -> nap.Entry:
    """A shape by chance."""
    name, filled = kind.partition("-")[0], kind.endswith("-filled")
    word = chance.choice((1, 2, 3)) if kind == "broken" or not filled and chance.random() < 0.2 else 0
    pel, texture = (pel_side(chance), pel_side(chance)), nap.Texture(word, None)
    if name == "point":
        return nap.Point(points_of(chance, 1)[0], pel, OWN)
    if name in ("line", "broken", "rect"):
        start, end = points_of(chance, 2)
        if name == "rect":
            return nap.Rect(filled, start, end, pel, OWN, texture)
        return nap.Line(start, end, pel, OWN, texture)
    if name == "poly":
        return nap.Poly(filled, tuple(points_of(chance, chance.randrange(2, 9))), pel, OWN, texture)
    points = points_of(chance, 3 if name == "arc" else chance.randrange(4, 7))
    if name == "arc" and chance.random() < 0.2:
        points[2] = points[0]
    return nap.Arc(filled, tuple(points), pel, OWN, texture)
