"""Lengths of the drawing, how its numbers are written, and the pel, which is drawn at a point and along a line."""
from functools import lru_cache
from typing import List, NamedTuple, Sequence, Tuple

from ..entry import ONE, Position

Place = Tuple[float, float]

# The drawing has 1024 units for the side of the unit screen; 800 of them are the part that screens show.
WIDTH = 1024
HEIGHT = 800
# Steps of points in a unit of the drawing.
STEPS = ONE / WIDTH
# Of a line where the pel is 0: 1/256 of the side; in a glyph or a mask 1/16.
THIN = 4.0
THIN_IN_GLYPH = 64.0


@lru_cache(maxsize=1 << 14)
def num(value: float) -> str:
    """The number with at most two digits after the point."""
    text = (f"{value:.2f}").rstrip("0").rstrip(".")
    return "0" if text == "-0" else text


@lru_cache(maxsize=1 << 10)
def fine(value: float) -> str:
    """The number with at most five digits after the point, for factors."""
    text = (f"{value:.5f}").rstrip("0").rstrip(".")
    return "0" if text == "-0" else text


def length(units: int) -> float:
    """A length in units of points, in units of the drawing."""
    return units / STEPS


def on_page(points: Sequence[Position]) -> List[Place]:
    """Where points of the page are in the drawing: y goes down there."""
    return [(x / STEPS, HEIGHT - y / STEPS) for x, y in points]


def in_glyph(points: Sequence[Position]) -> List[Place]:
    """Where points of a glyph or a mask are: its unit screen is drawn whole."""
    return [(x / STEPS, WIDTH - y / STEPS) for x, y in points]


class Pel(NamedTuple):
    """A rectangle: how far its edges are from the point that is drawn, in units of the drawing, where y goes down."""

    left: float
    top: float
    right: float
    bottom: float

    @property
    def wide(self) -> float:
        """Its width."""
        return self.right - self.left

    @property
    def high(self) -> float:
        """Its height."""
        return self.bottom - self.top

    def corners(self) -> List[Place]:
        """Its corners as the hands of a clock go, the lower left one first."""
        return [(self.left, self.bottom), (self.left, self.top), (self.right, self.top), (self.right, self.bottom)]


@lru_cache(maxsize=1024)
def pel(size: Position, least: float) -> Pel:
    """The rectangle of a pel of this size, which may be negative: the point is at the corner that it goes out from.

    No side is shorter than the least one. The point is in the middle of a side of 0, which goes nowhere.
    """
    (left, right), (low, high) = (_side(length(part), least) for part in size)
    return Pel(left, -high, right, -low)


def _side(size: float, least: float) -> Tuple[float, float]:
    """Where a side begins and ends, seen from the point."""
    if not size:
        return -least / 2, least / 2
    return (0.0, max(size, least)) if size > 0 else (min(size, -least), 0.0)
