"""What elements cost a browser, in points: as much as it takes to draw a number of corners of a filled polygon.

The numbers come from times of Chromium, and are rounded up; docs/measurements/README.md has the times of the worst
pages.
"""
from typing import NamedTuple, Sequence, Tuple

from .measure import HEIGHT, WIDTH, Place

# For an element, for a text of any length, and for each letter of one.
ELEMENT, TEXT, LETTER = 30, 160, 20
# For a corner or a joint of an outline, and for a dash.
JOINT, DASH = 4, 10
# The units of an edge of an area, and of an outline, that cost a point.
EDGE, OUTLINE = 2.5, 5.0
# Letters around which there are fewer units than this are drawn as pictures that viewers keep.
SMALL = 300
# Points for the screen, filled once; how many times more it takes with a pattern; and for what the pattern repeats.
SCREEN, PATTERNED, TILE = 120, 60, 100
# The screen, in square units.
SQUARE = WIDTH * HEIGHT


class Weight(NamedTuple):
    """What doesn't depend on the size, in points; the units of edges; the square units that are filled."""

    points: float = 0.0
    edges: float = 0.0
    area: float = 0.0

    def plus(self, other: "Weight") -> "Weight":
        """Both together."""
        return Weight(self.points + other.points, self.edges + other.edges, self.area + other.area)

    def times(self, number: int) -> "Weight":
        """The cost a number of times."""
        return Weight(self.points * number, self.edges * number, self.area * number)

    def scaled(self, across: float, down: float) -> "Weight":
        """The same, drawn in another size."""
        across, down = abs(across), abs(down)
        return Weight(self.points, self.edges * max(across, down), self.area * across * down)

    def total(self) -> float:
        """All of it in points."""
        return self.points + self.edges / EDGE + self.area * SCREEN / SQUARE


# A text without its letters, and the element that uses a glyph.
RUN, USE = Weight(TEXT), Weight(TEXT)


class Extent(NamedTuple):
    """A shape: the number of its points, the length of its edges, and an area that it lies in."""

    points: int
    length: float
    area: float


def extent(places: Sequence[Place]) -> Extent:
    """That of straight edges from place to place and back to the first, in units."""
    length, (x, y) = 0.0, places[-1]
    for a, b in places:
        length += abs(a - x) + abs(b - y)
        x, y = a, b
    across, down = [a for a, _ in places], [b for _, b in places]
    return Extent(len(places), length, (max(across) - min(across)) * (max(down) - min(down)))


def of_line(start: Place, end: Place) -> Extent:
    """That of a straight line."""
    across, down = abs(start[0] - end[0]), abs(start[1] - end[1])
    return Extent(2, across + down, across * down)


def filled(shape: Extent) -> Weight:
    """A filled area."""
    return Weight(ELEMENT + shape.points, shape.length, shape.area)


def box(wide: float, high: float) -> Weight:
    """A filled rectangle, which has no edges that cost anything."""
    return Weight(ELEMENT, 0.0, abs(wide * high))


def outlined(shape: Extent, thick: float, dashes: Tuple[int, ...]) -> Weight:
    """An outline of this thickness, with dashes and gaps of a number of thicknesses."""
    broken = shape.length / (sum(dashes) * thick) * len(dashes) / 2 * DASH if dashes else 0.0
    return Weight(ELEMENT + shape.points * JOINT + broken, shape.length * EDGE / OUTLINE, shape.length * thick)


def letter(wide: float, high: float) -> Weight:
    """A letter of a text or another sign, in a cell of this size, and its background, if it has one."""
    around = 2 * (abs(wide) + abs(high))
    return Weight(LETTER, max(0.0, around - SMALL), 2 * abs(wide * high))
