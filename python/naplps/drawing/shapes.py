"""Shapes of the drawing: curves, and what a pel paints that is moved along them; lines, areas and mosaics."""
import math
from functools import lru_cache
from typing import Any, Callable, Dict, Iterator, List, NamedTuple, Sequence, Tuple, Union

from ..entry import ONE, Arc, Line, Point, Poly, Position, Rect
from .measure import WIDTH, Pel, Place, in_glyph, num, on_page, pel
from .paper import Element, Paper
from .textures import Stroked, SvgAttributes, dashes_of
from .weight import DASH, Extent, Weight, box, extent, filled, of_line

# A piece is taken for straight between places that are so far from each other, in units, where it has dashes.
STEP = 8.0
MOST_STEPS = 256


def _moved(place: Place, by: Place) -> Place:
    return place[0] + by[0], place[1] + by[1]


class Straight(NamedTuple):
    """A straight line."""

    start: Place
    end: Place

    def path(self) -> str:
        """The part of a path that continues from its start."""
        return f"L{num(self.end[0])} {num(self.end[1])}"

    def moved(self, by: Place) -> "Straight":
        """The same, elsewhere."""
        return Straight(_moved(self.start, by), _moved(self.end, by))

    def reversed(self) -> "Straight":
        """The same, from its end."""
        return Straight(self.end, self.start)

    def monotone(self) -> "List[Straight]":
        """Pieces, none of which turns back, neither to the left or right nor up or down."""
        return [self]

    def places(self) -> List[Place]:
        """Places along it, close to each other where it bends, without its start."""
        return [self.end]

    def length(self) -> float:
        """How long it is."""
        return math.dist(self.start, self.end)


class Round(NamedTuple):
    """A part of a circle: its turn is the angle from its start to its end, positive as the hands of a clock go."""

    start: Place
    end: Place
    centre: Place
    radius: float
    turn: float

    def path(self) -> str:
        """The part of a path that continues from its start."""
        return "A%s %s 0 %d %d %s %s" % (num(self.radius), num(self.radius), abs(self.turn) > math.pi, self.turn > 0,
                                         num(self.end[0]), num(self.end[1]))

    def moved(self, by: Place) -> "Round":
        """The same, elsewhere."""
        return Round(_moved(self.start, by), _moved(self.end, by), _moved(self.centre, by), self.radius, self.turn)

    def reversed(self) -> "Round":
        """The same, from its end."""
        return Round(self.end, self.start, self.centre, self.radius, -self.turn)

    def monotone(self) -> "List[Round]":
        """Pieces, none of which turns back, neither to the left or right nor up or down: its quarters."""
        quarter = math.pi / 2
        first = self._angle()
        low, high = sorted((first, first + self.turn))
        cuts = [quarter * number - first for number in range(math.ceil(low / quarter), math.floor(high / quarter) + 1)]
        inner = [cut for cut in cuts if 1e-9 < abs(cut) < abs(self.turn) - 1e-9]
        turns = [0.0, *sorted(inner, key=abs), self.turn]
        ends = [self.start, *map(self._at, turns[1:-1]), self.end]
        return [Round(ends[at], ends[at + 1], self.centre, self.radius, turns[at + 1] - turns[at])
                for at in range(len(turns) - 1)]

    def places(self) -> List[Place]:
        """Places along it, close to each other, without its start."""
        steps = min(max(8, math.ceil(self.length() / STEP)), MOST_STEPS)
        return [self._at(self.turn * step / steps) for step in range(1, steps)] + [self.end]

    def length(self) -> float:
        """How long it is."""
        return abs(self.turn) * self.radius

    def _angle(self) -> float:
        return math.atan2(self.start[1] - self.centre[1], self.start[0] - self.centre[0])

    def _at(self, turn: float) -> Place:
        angle = self._angle() + turn
        return self.centre[0] + self.radius * math.cos(angle), self.centre[1] + self.radius * math.sin(angle)


class Cubic(NamedTuple):
    """A curve from its start towards the first place, and from the second one to its end."""

    start: Place
    first: Place
    second: Place
    end: Place

    def path(self) -> str:
        """The part of a path that continues from its start."""
        return "C" + " ".join(num(part) for place in self[1:] for part in place)

    def moved(self, by: Place) -> "Cubic":
        """The same, elsewhere."""
        return Cubic(*(_moved(place, by) for place in self))

    def reversed(self) -> "Cubic":
        """The same, from its end."""
        return Cubic(self.end, self.second, self.first, self.start)

    def monotone(self) -> "List[Cubic]":
        """Pieces, none of which turns back, neither to the left or right nor up or down."""
        cuts = sorted(cut for side in (0, 1) for cut in _turns(*(place[side] for place in self)))
        pieces, rest, done = [], self, 0.0
        for cut in cuts:
            if cut - done > 1e-6:
                piece, rest = rest.cut((cut - done) / (1 - done))
                pieces.append(piece)
                done = cut
        return [*pieces, rest]

    def cut(self, share: float) -> "tuple[Cubic, Cubic]":
        """The part of it up to a share of its way, and the rest."""
        a, b, c, d = self
        ab, bc, cd = _between(a, b, share), _between(b, c, share), _between(c, d, share)
        abc, bcd = _between(ab, bc, share), _between(bc, cd, share)
        middle = _between(abc, bcd, share)
        return Cubic(a, ab, abc, middle), Cubic(middle, bcd, cd, d)

    def places(self) -> List[Place]:
        """Places along it, close to each other, without its start."""
        steps = min(max(8, math.ceil(self.length() / STEP)), MOST_STEPS)
        return [self.cut(step / steps)[0].end for step in range(1, steps)] + [self.end]

    def length(self) -> float:
        """How long it is at most."""
        return sum(map(math.dist, self[:3], self[1:]))


Piece = Union[Straight, Round, Cubic]


def _between(a: Place, b: Place, share: float) -> Place:
    return a[0] + (b[0] - a[0]) * share, a[1] + (b[1] - a[1]) * share


def _turns(a: float, b: float, c: float, d: float) -> List[float]:
    """The shares of the way of a curve at which one of its coordinates turns back."""
    # (where the derivative, t² (d - 3c + 3b - a) + 2t (c - 2b + a) + (b - a), is 0)
    square, linear, constant = d - 3 * c + 3 * b - a, 2 * (c - 2 * b + a), b - a
    if abs(square) < 1e-9:
        found = [-constant / linear] if abs(linear) > 1e-9 else []
    else:
        inside = linear * linear - 4 * square * constant
        root = math.sqrt(max(inside, 0.0))
        found = [(-linear - root) / (2 * square), (-linear + root) / (2 * square)] if inside > 0 else []
    return [share for share in found if 1e-6 < share < 1 - 1e-6]


# Beyond this radius an arc is drawn by points on it, since viewers are inexact there.
MOST_RADIUS = 4.0 * WIDTH
PIECES = 16


def arc_path(points: Sequence[Place], filled: bool) -> str:
    """The path of an arc through these points, three or more; a circle where the first is the third of three."""
    body = "".join(piece.path() for piece in arc_pieces(points))
    return f"M{num(points[0][0])} {num(points[0][1])}" + body + ("Z" if filled else "")


def arc_pieces(points: Sequence[Place]) -> List[Piece]:
    """The pieces of an arc."""
    if len(points) == 3:
        return _circle(points) if points[0] == points[2] else _three(points)
    return _curve(points)


def is_large(some: Sequence[Piece]) -> bool:
    """Whether there is an arc of a circle that goes far out of the unit screen."""
    return any(isinstance(piece, Round) and piece.radius > MOST_RADIUS for piece in some)


def arc_extent(points: Sequence[Place]) -> Extent:
    """The extent of an arc through these points. An arc outside of the unit screen costs nothing there."""
    if len(points) > 3:
        straight = extent(points)
        return Extent(3 * straight.points, 2 * straight.length, 2 * straight.area)
    long = min(_length(points), 4.0 * WIDTH)
    return Extent(4 * len(points), 3 * long, min(long * long / math.pi, WIDTH * WIDTH))


def _length(points: Sequence[Place]) -> float:
    """The length of a circle, or of an arc through three points."""
    a, m, e = points
    if a == e:
        return math.pi * math.dist(a, m)
    cross = _cross(points)
    if abs(cross) < 1e-9:
        return math.dist(a, m) + math.dist(m, e)
    centre, sweep = _centre(points, cross), cross > 0
    turn = abs(_turn(centre, a, m, sweep)) + abs(_turn(centre, m, e, sweep))
    return turn * math.dist(a, centre)


def _cross(points: Sequence[Place]) -> float:
    a, m, e = points
    return (m[0] - a[0]) * (e[1] - a[1]) - (m[1] - a[1]) * (e[0] - a[0])


def _circle(points: Sequence[Place]) -> List[Piece]:
    a, m, _ = points
    centre, radius = ((a[0] + m[0]) / 2, (a[1] + m[1]) / 2), math.dist(a, m) / 2
    return [Round(a, m, centre, radius, math.pi), Round(m, a, centre, radius, math.pi)]


def _three(points: Sequence[Place]) -> List[Piece]:
    """From the first to the second and on to the third, each as an arc of the circle through all three."""
    a, m, e = points
    cross = _cross(points)
    if abs(cross) < 1e-9:
        return [Straight(a, m), Straight(m, e)]
    radius = math.dist(a, m) * math.dist(m, e) * math.dist(a, e) / (2 * abs(cross))
    centre = _centre(points, cross)
    out: List[Piece] = []
    for start, to in ((a, m), (m, e)):
        turn = _turn(centre, start, to, cross > 0)
        if radius > MOST_RADIUS and abs(turn) < math.pi / 2:
            places = [start, *_on_circle(centre, start, turn)[:-1], to]
            out += map(Straight, places, places[1:])
        else:
            out.append(Round(start, to, centre, radius, turn))
    return out


def _centre(points: Sequence[Place], cross: float) -> Place:
    a, m, e = points
    bx, by, cx, cy = m[0] - a[0], m[1] - a[1], e[0] - a[0], e[1] - a[1]
    b2, c2 = bx * bx + by * by, cx * cx + cy * cy
    return a[0] + (cy * b2 - by * c2) / (2 * cross), a[1] + (bx * c2 - cx * b2) / (2 * cross)


def _turn(centre: Place, start: Place, to: Place, sweep: bool) -> float:
    """The angle from one place to the other around the centre, positive where the sweep is."""
    first = math.atan2(start[1] - centre[1], start[0] - centre[0])
    last = math.atan2(to[1] - centre[1], to[0] - centre[0])
    turn = (last - first) % (2 * math.pi)
    return turn if sweep else turn - 2 * math.pi


def _on_circle(centre: Place, start: Place, turn: float) -> List[Place]:
    """Places along the circle, after the start."""
    x, y = start[0] - centre[0], start[1] - centre[1]
    out = []
    for piece in range(1, PIECES + 1):
        # (half angles keep what a large radius would lose)
        angle = turn * piece / PIECES
        half = math.sin(angle / 2)
        dx = -2 * half * half * x - math.sin(angle) * y
        dy = -2 * half * half * y + math.sin(angle) * x
        out.append((start[0] + dx, start[1] + dy))
    return out


def _curve(points: Sequence[Place]) -> List[Piece]:
    """A smooth curve through all points: at each the direction is that from the one before to the one after."""
    out: List[Piece] = []
    last = len(points) - 1
    for i in range(last):
        before, start, to, behind = points[max(i - 1, 0)], points[i], points[i + 1], points[min(i + 2, last)]
        out.append(Cubic(start, (start[0] + (to[0] - before[0]) / 6, start[1] + (to[1] - before[1]) / 6),
                         (to[0] - (behind[0] - start[0]) / 6, to[1] - (behind[1] - start[1]) / 6), to))
    return out


# Corners of what is swept, and those that an arc of it counts as.
CORNERS, ROUND_CORNERS = 6, 24


class Sweep(NamedTuple):
    """A path, all parts of which go round as the hands of a clock do, so that what they cover is its area; its cost."""

    path: str
    weight: Weight


def sweep(pieces: Sequence[Piece], pel: Pel) -> Sweep:
    """What the pel sweeps along all the pieces."""
    parts: List[str] = []
    corners, length, area = 0, 0.0, 0.0
    for each in pieces:
        straight = isinstance(each, Straight)
        for piece in each.monotone():
            parts.append(_swept(piece, pel))
            # (what is outside of the unit screen costs nothing)
            (a, b), (c, d) = piece.start, piece.end
            across, down = min(abs(c - a), WIDTH), min(abs(d - b), WIDTH)
            corners += CORNERS if straight else ROUND_CORNERS
            length += across + down + pel.wide + pel.high
            area += (across + pel.wide) * (down + pel.high)
    return Sweep("".join(parts), filled(Extent(corners, length, area)))


def _swept(piece: Piece, pel: Pel) -> str:
    """The area of a piece that doesn't turn back: two of the pel's corners draw its sides, the others its ends."""
    (a, b), (c, d) = piece.start, piece.end
    if a == c or b == d:
        return _box(min(a, c) + pel.left, min(b, d) + pel.top, max(a, c) + pel.right, max(b, d) + pel.bottom)
    behind, one, ahead, other = _corners(pel, c > a, d > b)
    if isinstance(piece, Straight):
        return (f"M{num(a + behind[0])} {num(b + behind[1])}L{num(a + one[0])} {num(b + one[1])}"
                f"L{num(c + one[0])} {num(d + one[1])}L{num(c + ahead[0])} {num(d + ahead[1])}"
                f"L{num(c + other[0])} {num(d + other[1])}L{num(a + other[0])} {num(b + other[1])}Z")
    there, back = piece.moved(one), piece.reversed().moved(other)
    return "M%sL%s%sL%sL%s%sZ" % (_at(piece.start, behind), _at(there.start), there.path(), _at(piece.end, ahead),
                                  _at(back.start), back.path())


@lru_cache(maxsize=1024)
def _corners(pel: Pel, is_right: bool, is_down: bool) -> List[Place]:
    """The corners of a pel as the hands of a clock go, for a line to the right or left, down or up: from that which is
    after all others."""
    first = {(True, False): 0, (True, True): 1, (False, True): 2, (False, False): 3}[is_right, is_down]
    corners = pel.corners()
    return corners[first:] + corners[:first]


def _at(place: Place, by: Place = (0.0, 0.0)) -> str:
    return f"{num(place[0] + by[0])} {num(place[1] + by[1])}"


def _box(left: float, top: float, right: float, bottom: float) -> str:
    return f"M{num(left)} {num(top)}H{num(right)}V{num(bottom)}H{num(left)}Z"


def least_of_dashes(pieces: Sequence[Piece], pel: Pel, dashes: Tuple[int, ...]) -> Weight:
    """What the dashes of lines cost at least, without making them."""
    most = max(pel.wide, pel.high)
    units = sum(piece.length() / (_unit(piece.start, piece.end, pel) if isinstance(piece, Straight) else most)
                for piece in pieces)
    return Weight(units / sum(dashes) * len(dashes) / 2 * DASH)


def dashed(pieces: Sequence[Piece], pel: Pel, dashes: Tuple[int, ...]) -> Iterator[Straight]:
    """The parts of the pieces on which the pen is down, for dashes and gaps of a number of units: sides of the pel."""
    number, left = 0, float(dashes[0])
    for piece in pieces:
        at = piece.start
        for place in piece.places():
            far, unit = math.dist(at, place), _unit(at, place, pel)
            done = 0.0
            while far - done > left * unit:
                begin, done = done, done + left * unit
                if number % 2 == 0:
                    yield Straight(_on(at, place, begin / far), _on(at, place, done / far))
                number = (number + 1) % len(dashes)
                left = float(dashes[number])
            if number % 2 == 0:
                yield Straight(_on(at, place, done / far) if far else at, place)
            left -= (far - done) / unit
            at = place


def _unit(start: Place, end: Place, pel: Pel) -> float:
    """The side of the pel along a line: its width where the line goes across at least as far as up or down."""
    return pel.wide if abs(end[0] - start[0]) >= abs(end[1] - start[1]) else pel.high


def _on(start: Place, end: Place, share: float) -> Place:
    return start[0] + (end[0] - start[0]) * share, start[1] + (end[1] - start[1]) * share


class Shapes:
    """Draws the entries that state a shape."""

    def __init__(self, paper: Paper, looks: SvgAttributes) -> None:
        self.paper, self.looks = paper, looks
        self.kinds: Dict[type, Callable[[Any], None]] = {
            Point: self.point, Line: self.line, Rect: self.rectangle, Poly: self.polygon, Arc: self.arc}

    def _places(self, points: Tuple[Position, ...]) -> List[Place]:
        if self.paper.open is not None:
            return in_glyph(points)
        self.paper.reach(max([y for _, y in points]) / ONE)
        return on_page(points)

    def point(self, entry: Point) -> None:
        """A point: the pel's rectangle, from its corner."""
        (x, y), = self._places((entry.at,))
        dot = _dot(entry.pel, self.looks.thin())
        self.paper.put(Element("rect", {
            "x": num(x + dot.left), "y": num(y + dot.top), "width": dot.wide, "height": dot.high,
            "fill": self.looks.ink(entry)}), dot.weight)

    def line(self, entry: Line) -> None:
        """A line; a thin one has square ends."""
        (a, b), (c, d) = places = self._places((entry.start, entry.end))
        if entry.pel != (0, 0):
            self._sweep(entry, [Straight(*places)])
            return
        style = self.looks.of(entry, of_line(*places))
        path = f"M{num(a)} {num(b)}L{num(c)} {num(d)}"
        self.paper.put(Element("path", {"d": path, "stroke-linecap": "square", **style.attributes}), style.weight)

    def rectangle(self, entry: Rect) -> None:
        """A rectangle; a filled one without width or height has the least thickness."""
        (a, b), (c, d) = self._places(entry.points)
        if _is_swept(entry):
            self._sweep(entry, _around([(a, b), (c, b), (c, d), (a, d)]))
            return
        least = self.looks.thin() if entry.filled else 0.01
        wide, high = max(abs(c - a), least), max(abs(d - b), least)
        style = self.looks.of(entry, Extent(4, 2 * (wide + high), wide * high))
        self.paper.put(Element("rect", {"x": num(min(a, c)), "y": num(min(b, d)), "width": num(wide),
                                        "height": num(high), **style.attributes}), style.weight)

    def polygon(self, entry: Poly) -> None:
        """A polygon, closed; where its edges cross, what lies inside an even number of them isn't filled."""
        places = self._places(entry.points)
        if _is_swept(entry):
            self._sweep(entry, _around(places))
            return
        style = self.looks.of(entry, extent(places))
        points = " ".join(f"{num(x)},{num(y)}" for x, y in places)
        self.paper.put(Element("polygon", {"points": points, "fill-rule": "evenodd", **style.attributes}), style.weight)

    def arc(self, entry: Arc) -> None:
        """An arc, or a circle."""
        if len(entry.points) > 3:
            self.paper.note("an arc of more than three points is drawn as a smooth curve through them")
        places = self._places(entry.points)
        if _is_swept(entry):
            self._sweep(entry, arc_pieces(places))
            return
        style = self.looks.of(entry, arc_extent(places))
        self.paper.put(Element("path", {"d": arc_path(places, entry.filled), **style.attributes}), style.weight)

    def _sweep(self, entry: Stroked, pieces: Sequence[Piece]) -> None:
        """A line or an outline: what the pel's rectangle sweeps."""
        dot, dashes = pel(entry.pel, self.looks.thin()), dashes_of(entry)
        if dashes and not is_large(pieces):
            self.paper.require(least_of_dashes(pieces, dot, dashes))
            pieces = list(dashed(pieces, dot, dashes))
        swept = sweep(pieces, dot)
        self.paper.put(Element("path", {"d": swept.path, "fill": self.looks.ink(entry)}), swept.weight)


class Dot(NamedTuple):
    """What a point is drawn as: where its edges are from there, its sides as numbers are written, and its cost."""

    left: float
    top: float
    wide: str
    high: str
    weight: Weight


@lru_cache(maxsize=1024)
def _dot(size: Position, least: float) -> Dot:
    """What a point of a pel of this size is drawn as."""
    it = pel(size, least)
    return Dot(it.left, it.top, num(it.wide), num(it.high), box(it.wide, it.high))


def _is_swept(entry: Stroked) -> bool:
    """Whether an entry is a line or an outline that has a pel. (Without one it is as thin as can be.)"""
    return entry.pel != (0, 0) and (isinstance(entry, Line) or not entry.filled)


def _around(places: Sequence[Place]) -> List[Piece]:
    """The edges of an area with these corners."""
    return list(map(Straight, places, [*places[1:], places[0]]))


# Bits of a mosaic's code, left and right, by rows from the top.
ROWS = ((1, 2), (4, 8), (16, 64))
# How much of a block is left out around it where blocks stand apart.
GAP = 0.15


def number_of_blocks(code: int) -> int:
    """How many blocks a mosaic has."""
    return sum(1 for row in ROWS for bit in row if code & bit)


def blocks(codes: Sequence[int], box: Tuple[float, float, float, float], apart: bool) -> str:
    """The path of mosaics, the first of which has its lower left corner here and is so wide and so high.

    Blocks that touch in a row are one rectangle, and all sides are where those of their neighbours are.
    """
    x, y, wide, high = box
    across, down = wide / 2, high / 3
    gap = GAP / 2 if apart else 0.0
    path = ""
    for number, bits in enumerate(ROWS):
        top, foot = num(y - high + (number + gap) * down), num(y - high + (number + 1 - gap) * down)
        for first, end in _parts([code & bit != 0 for code in codes for bit in bits], apart):
            left = num(x + (first + gap) * across)
            path += f"M{left} {top}H{num(x + (end - gap) * across)}V{foot}H{left}Z"
    return path


def _parts(row: Sequence[bool], apart: bool) -> Iterator[Tuple[int, int]]:
    """The first block and the one after the last of each part of a row."""
    at = 0
    while at < len(row):
        first = at
        while at < len(row) and row[at] and (at == first or not apart):
            at += 1
        if at > first:
            yield first, at
        else:
            at += 1
