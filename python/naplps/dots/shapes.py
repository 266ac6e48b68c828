"""Shapes as dots: lines, arcs, areas and dashes."""
from typing import Iterable, Iterator, List, NamedTuple, Sequence, Tuple, Union

from ..entry import Arc, Line, Point, Poly, Position, Rect, Texture
from .surface import ACROSS, HALF, OF_ROW, SCREEN, UNIT, Box, Grid, Painted, Span, first, pel_box

Segment = Tuple[Position, Position]
# No line or dash is added to a part of so many spans.
MOST_SPANS = 4096


def dots_of(spans: Sequence[Span]) -> int:
    """How many dots spans have."""
    return sum([end - start for _, start, end in spans])


def swept(segments: Iterable[Segment], box: Box, grid: Grid) -> Iterator[Painted]:
    """What the pel paints along these segments, in parts: one line may be 256 dashes of 200 spans each."""
    spans: List[Span] = []
    counted = 0
    for start, end in segments:
        if len(spans) >= MOST_SPANS:
            yield Painted(spans, counted + dots_of(spans))
            spans, counted = [], 0
        before = len(spans)
        if start[0] == end[0] or start[1] == end[1]:
            _box(start, end, box, grid, spans)
        else:
            _sloping(start, end, box, grid, spans)
        counted += OF_ROW * (1 + len(spans) - before)
    yield Painted(spans, counted + dots_of(spans))


def _box(a: Position, b: Position, box: Box, grid: Grid, spans: List[Span]) -> None:
    """The spans of a level or upright line, or of a point."""
    start = max(first(min(a[0], b[0]) + box.left), 0)
    end = min(first(max(a[0], b[0]) + box.right), grid.wide)
    if start < end:
        low, top = first(min(a[1], b[1]) + box.low), first(max(a[1], b[1]) + box.high)
        spans += [(row, start, end) for row in range(max(low, 0), min(top, grid.high))]


def _sloping(a: Position, b: Position, box: Box, grid: Grid, spans: List[Span]) -> None:
    """The spans of another line, which goes up here: a row's first and last dot by whole quotients."""
    if a[1] > b[1]:
        a, b = b, a
    across, up = b[0] - a[0], b[1] - a[1]
    divisor = UNIT * up
    left, right = (a[0] + box.left - HALF) * up, (a[0] + box.right - HALF) * up
    rows = range(max(first(a[1] + box.low), 0), min(first(b[1] + box.high), grid.high))
    for row in rows:
        # (the pel passes over the row's middles after `begin` of its way and up to `end`, in parts of `up`)
        middle = UNIT * row + HALF - a[1]
        begin, end = middle - box.high, middle - box.low
        is_open = begin >= 0
        begin, end = max(begin, 0), min(end, up)
        if across > 0:
            low, high = left + begin * across, right + end * across
            start = low // divisor + 1 if is_open else -(-low // divisor)
        else:
            low, high = left + end * across, right + begin * across
            start = -(-low // divisor)
        start, stop = max(start, 0), min(-(-high // divisor), grid.wide)
        if start < stop:
            spans.append((row, start, stop))


# Parts of a whole turn, and 65536 times the cosine of each of a quarter, to the nearest whole number.
TURN, SCALE = 128, 65536
COSINES = (
    65536, 65457, 65220, 64827, 64277, 63572, 62714, 61705, 60547, 59244, 57798, 56212, 54491, 52639, 50660, 48559,
    46341, 44011, 41576, 39040, 36410, 33692, 30893, 28020, 25080, 22078, 19024, 15924, 12785, 9616, 6424, 3216, 0)
PARTS = 16
# No point is further from the first one than this, across or up.
FAR = 1 << 24


def _direction(part: int) -> Position:
    quarter, rest = divmod(part, TURN // 4)
    x, y = COSINES[rest], COSINES[TURN // 4 - rest]
    return ((x, y), (-y, x), (-x, -y), (y, -x))[quarter]


DIRECTIONS = tuple(map(_direction, range(TURN)))


def polyline(points: Sequence[Position]) -> List[Position]:
    """The points through which an arc goes in straight lines: those that it has, in order, and those between."""
    if len(points) > 3:
        return _curve(points)
    a, m, e = points
    if a == e:
        return _circle(a, m)
    bx, by, cx, cy = m[0] - a[0], m[1] - a[1], e[0] - a[0], e[1] - a[1]
    cross = bx * cy - by * cx
    if not cross:
        return [a, m, e]
    b2, c2 = bx * bx + by * by, cx * cx + cy * cy
    sign = 1 if cross > 0 else -1
    # (the centre is `middle` / `scale` from the first point)
    middle = (sign * (cy * b2 - by * c2), sign * (bx * c2 - cx * b2))
    scale = 2 * sign * cross
    return [a, *_between(a, middle, scale, sign, a, m), m, *_between(a, middle, scale, sign, m, e), e]


def _circle(a: Position, m: Position) -> List[Position]:
    """A circle by the ends of a diameter."""
    if a == m:
        return [a, m, a]
    middle = (m[0] - a[0], m[1] - a[1])
    return [a, *_between(a, middle, 2, 1, a, m), m, *_between(a, middle, 2, 1, m, a), a]


def _between(a: Position, middle: Position, scale: int, sign: int, start: Position, end: Position) -> List[Position]:
    """The points after the start, by the directions of the table from there, up to the end and without it."""
    ux, uy = (start[0] - a[0]) * scale - middle[0], (start[1] - a[1]) * scale - middle[1]
    vx, vy = (end[0] - a[0]) * scale - middle[0], (end[1] - a[1]) * scale - middle[1]
    wx, wy = ux * vx + uy * vy, sign * (ux * vy - uy * vx)
    divisor = SCALE * scale
    found: List[Position] = []
    for x, y in DIRECTIONS[1:]:
        if not _is_before(x, y, wx, wy):
            break
        px = (SCALE * middle[0] + x * ux - sign * y * uy + divisor // 2) // divisor
        py = (SCALE * middle[1] + sign * y * ux + x * uy + divisor // 2) // divisor
        found.append(_near(a, px, py))
    return found


def _is_before(x: int, y: int, other_x: int, other_y: int) -> bool:
    """Whether a direction comes before another one, counted from that of x over a whole turn."""
    is_later, is_other_later = y < 0 or (y == 0 and x < 0), other_y < 0 or (other_y == 0 and other_x < 0)
    if is_later != is_other_later:
        return is_other_later
    return x * other_y - y * other_x > 0


def _near(a: Position, x: int, y: int) -> Position:
    """The point that is so far from the first one; drawn in towards that where it is too far."""
    far = max(abs(x), abs(y))
    if far > FAR:
        x, y = x * FAR // far, y * FAR // far
    return a[0] + x, a[1] + y


def _curve(points: Sequence[Position]) -> List[Position]:
    """A smooth curve through all points: at each the direction is that from the one before to the one after."""
    last = len(points) - 1
    found: List[Position] = [points[0]]
    for number in range(last):
        four = (points[max(number - 1, 0)], points[number], points[number + 1], points[min(number + 2, last)])
        (a, b, c, d), (e, f, g, h) = zip(*four)
        across, up = _factors(a, b, c, d), _factors(e, f, g, h)
        for part in range(1, PARTS):
            found.append((_at(across, part), _at(up, part)))
        found.append(points[number + 1])
    return found


def _factors(a: int, b: int, c: int, d: int) -> Tuple[int, int, int, int]:
    """Those of the powers of the part, from none to the third."""
    return 8192 * b, 256 * (c - a), 16 * (2 * a - 5 * b + 4 * c - d), 3 * b - a - 3 * c + d


def _at(factors: Tuple[int, int, int, int], part: int) -> int:
    """The place after so many parts, to the nearest whole number."""
    none, one, two, three = factors
    return (none + part * (one + part * (two + part * three)) + 4096) // 8192


def inside(points: Sequence[Position], grid: Grid) -> Painted:
    """What an area with these corners paints: a dot is inside if an odd number of edges passes its row's middles at the
    dot's middle or to the left of it. An edge has its lower end and lacks its upper one."""
    crossings: List[List[int]] = [[] for _ in range(grid.high)]
    a = points[-1]
    for b in points:
        if a[1] != b[1]:
            _edge(*((a, b) if a[1] < b[1] else (b, a)), grid, crossings)
        a = b
    spans: List[Span] = []
    pairs = dots = 0
    for row, found in enumerate(crossings):
        if not found:
            continue
        found.sort()
        pairs += len(found) // 2
        for start, end in zip(found[::2], found[1::2]):
            start, end = max(start, 0), min(end, grid.wide)
            if start < end:
                spans.append((row, start, end))
                dots += end - start
    return Painted(spans, OF_ROW * (len(points) + pairs) + dots)


def _edge(low: Position, top: Position, grid: Grid, crossings: List[List[int]]) -> None:
    """Adds for each row that an edge passes the first dot that is at the edge or to the right of it."""
    across, up = top[0] - low[0], top[1] - low[1]
    begin, end = max(first(low[1]), 0), min(first(top[1]), grid.high)
    # (how far the middles of dots are before the edge, in parts of `up`)
    before = (HALF - low[0]) * up - across * (UNIT * begin + HALF - low[1])
    step, divisor = across * UNIT, up * UNIT
    for row in range(begin, end):
        crossings[row].append(-(before // divisor))
        before -= step


def filled_box(a: Position, b: Position, grid: Grid) -> Painted:
    """What a filled rectangle paints: each of its sides is a dot long at least."""
    left, low = min(a[0], b[0]), min(a[1], b[1])
    wide, high = max(abs(a[0] - b[0]), UNIT), max(abs(a[1] - b[1]), UNIT)
    start, end = max(first(left), 0), min(first(left + wide), grid.wide)
    rows = range(max(first(low), 0), min(first(low + high), grid.high))
    spans = [(row, start, end) for row in rows] if start < end else []
    return Painted(spans, OF_ROW * (4 + len(spans)) + dots_of(spans))


# Where the pen goes down and up in a period, and how long that is.
Marks = Tuple[Tuple[Tuple[int, int], ...], int]
# Dashes and gaps by the lowest two bits of the texture word, in units: the pel's side along the line.
DASHES = {1: (1, 2), 2: (5, 3), 3: (5, 2, 1, 2)}


def segments(points: Sequence[Position], box: Box, texture: Texture) -> Iterator[Segment]:
    """What the pen is led along, from point to point: all of it, or the dashes."""
    dashes = DASHES.get(texture.word & 3)
    pairs = zip(points, points[1:])
    if dashes is None:
        yield from pairs
        return
    at = unit = 0
    for start, end in pairs:
        across, up = abs(end[0] - start[0]), abs(end[1] - start[1])
        side = box.right - box.left if across >= up else box.high - box.low
        at, unit = at * side // unit if unit else 0, side
        yield from _dashed(start, end, at, _marks(dashes, unit))
        at = (at + max(across, up)) % (sum(dashes) * unit)


def _marks(dashes: Tuple[int, ...], unit: int) -> Marks:
    """Where in a period the pen goes down and up, and how long the period is. What a dash paints is as long
    as the dash, since the pen itself is one unit of it."""
    places, at = [], 0
    for number, long in enumerate(dashes):
        if number % 2 == 0:
            places.append((at * unit, (at + long - 1) * unit))
        at += long
    return tuple(places), at * unit


def _dashed(start: Position, end: Position, at: int, marks: Marks) -> Iterator[Segment]:
    """The dashes of one line that begins so far in a period."""
    places, period = marks
    long = max(abs(end[0] - start[0]), abs(end[1] - start[1]), 1)
    begin = -at
    while begin < long:
        for down, up in places:
            first, last = max(begin + down, 0), min(begin + up, long)
            if begin + down < long and begin + up >= 0:
                yield _on(start, end, first, long), _on(start, end, last, long)
        begin += period


def _on(start: Position, end: Position, at: int, long: int) -> Position:
    """The point of a line that is so far along its longer extent, to the nearest whole number."""
    return (start[0] + (2 * (end[0] - start[0]) * at + long) // (2 * long),
            start[1] + (2 * (end[1] - start[1]) * at + long) // (2 * long))


Shape = Union[Point, Line, Rect, Poly, Arc]
NO_PEL = (0, 0)


class Scale(NamedTuple):
    """How large the unit screen is, in dots, and which of them there are: the page's, a glyph's or a mask's."""

    wide: int
    high: int
    grid: Grid

    def point(self, at: Position) -> Position:
        """A point as it is on the grid."""
        return at[0] * self.wide // ACROSS, at[1] * self.high // ACROSS

    def pel(self, size: Position) -> Position:
        """The size of a pel as it is on the grid; a side that is not 0 stays so."""
        return _scaled(size[0], self.wide), _scaled(size[1], self.high)


PAGE = Scale(ACROSS, ACROSS, SCREEN)


def _scaled(side: int, dots: int) -> int:
    size = max(abs(side) * dots // ACROSS, 1)
    return 0 if not side else size if side > 0 else -size


def is_filled(entry: Shape) -> bool:
    """Whether a shape is an area."""
    return isinstance(entry, (Rect, Poly, Arc)) and entry.filled


def painted(entry: Shape, scale: Scale) -> Iterator[Painted]:
    """What a shape paints, in parts."""
    points = [scale.point(at) for at in entry.points] if scale is not PAGE else list(entry.points)
    if is_filled(entry):
        if isinstance(entry, Rect):
            return iter([filled_box(points[0], points[1], scale.grid)])
        return iter([inside(polyline(points) if isinstance(entry, Arc) else points, scale.grid)])
    box = pel_box(scale.pel(entry.pel) if scale is not PAGE else entry.pel)
    if isinstance(entry, Point):
        return swept([(points[0], points[0])], box, scale.grid)
    return swept(segments(_outline(entry, points), box, entry.texture), box, scale.grid)


def edge(entry: Union[Rect, Poly, Arc], scale: Scale) -> Iterator[Painted]:
    """The edge of an area, a dot thick."""
    points = [scale.point(at) for at in entry.points]
    around = _outline(entry, points)
    if isinstance(entry, Arc) and around[0] != around[-1]:
        around.append(around[0])
    return swept(zip(around, around[1:]), pel_box(NO_PEL), scale.grid)


def _outline(entry: Union[Line, Rect, Poly, Arc], points: Sequence[Position]) -> List[Position]:
    """The points through which the pen is led."""
    if isinstance(entry, Arc):
        return polyline(points)
    if isinstance(entry, Rect):
        (a, b), (c, d) = points
        return [(a, b), (c, b), (c, d), (a, d), (a, b)]
    return [*points, points[0]] if isinstance(entry, Poly) else list(points)
