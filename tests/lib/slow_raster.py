"""The raster of docs/RASTER.md, painted dot by dot from its words, by fractions. It shares nothing with naplps.dots."""
from fractions import Fraction
from math import cos, floor, pi

U = 32768
E = 60 * U
COSINES = [round(65536 * cos(2 * pi * n / 128)) for n in range(33)]
DASHES = {1: [1, 2], 2: [5, 3], 3: [5, 2, 1, 2]}
BLOCKS = {(0, 2): 1, (1, 2): 2, (0, 1): 4, (1, 1): 8, (0, 0): 16, (1, 0): 64}


def nearest(number):
    """The nearest whole number; of two the greater."""
    return floor(Fraction(number) + Fraction(1, 2))


def middle(dot):
    """The middle of a dot."""
    return dot * U + U // 2


def side(p):
    """A side of the pel: from where to where."""
    if p == 0:
        return 1 - U // 2, 1 + U // 2
    n = max(nearest(Fraction(abs(p), U)), 1)
    return (0, n * U) if p > 0 else (-n * U, 0)


class Times:
    """The times t from 0 to 1 at which start + t (end - start) is so near to a middle that it is in the pel."""

    def __init__(self, start, end, at, sides):
        low, high = sides
        self.never = False
        self.low, self.low_open, self.high, self.high_open = Fraction(0), False, Fraction(1), False
        # (low <= at - start - t d < high)
        away, d = at - start, end - start
        if d == 0:
            self.never = not low <= away < high
        else:
            first, last = Fraction(away - high, d), Fraction(away - low, d)  # (first isn't one of them, last is)
            if d > 0:
                self._above(first, True)
                self._below(last, False)
            else:
                self._above(last, False)
                self._below(first, True)

    def _above(self, t, is_open):
        if t > self.low or t == self.low and is_open:
            self.low, self.low_open = t, is_open

    def _below(self, t, is_open):
        if t < self.high or t == self.high and is_open:
            self.high, self.high_open = t, is_open

    def meets(self, other):
        """Whether two ranges have a number in common."""
        if self.never or other.never:
            return False
        low = max((self.low, self.low_open), (other.low, other.low_open))
        high = min((self.high, not self.high_open), (other.high, not other.high_open))
        return low[0] < high[0] or low[0] == high[0] and not low[1] and high[1]


def around(start, end, sides, count):
    """Dots of a row or column, more than a line can paint: the others needn't be asked about."""
    first, last = (min(start, end) + sides[0]) // U - 2, (max(start, end) + sides[1]) // U + 3
    return range(max(first, 0), min(last, count))


def line(a, b, pel, wide=256, high=200):
    """The dots that a line paints."""
    across, up = side(pel[0]), side(pel[1])
    rows = [(j, Times(a[1], b[1], middle(j), up)) for j in around(a[1], b[1], up, high)]
    rows = [(j, times) for j, times in rows if times.meets(times)]
    if not rows:
        return set()
    columns = [(i, Times(a[0], b[0], middle(i), across)) for i in around(a[0], b[0], across, wide)]
    columns = [(i, times) for i, times in columns if times.meets(times)]
    return {(i, j) for j, row in rows for i, column in columns if row.meets(column)}


def polygon(points, wide=256, high=200):
    """The dots inside a polygon."""
    dots = set()
    for j in range(high):
        y, passes = middle(j), []
        for (x1, y1), (x2, y2) in zip(points, points[1:] + points[:1]):
            if y1 > y2:
                (x1, y1), (x2, y2) = (x2, y2), (x1, y1)
            if y1 <= y < y2:
                passes.append(x1 + Fraction((x2 - x1) * (y - y1), y2 - y1))
        if passes:
            columns = around(floor(min(passes)), floor(max(passes)), (0, 0), wide)
            dots |= {(i, j) for i in columns if sum(x <= middle(i) for x in passes) % 2}
    return dots


def rectangle(a, b, wide=256, high=200):
    """The dots of a filled rectangle."""
    left, low = min(a[0], b[0]), min(a[1], b[1])
    right, top = max(a[0], b[0], left + U), max(a[1], b[1], low + U)
    return {(i, j) for i in range(wide) for j in range(high) if left <= middle(i) < right and low <= middle(j) < top}


def direction(n):
    """The direction of this number, of 128 around."""
    c, s = COSINES[n % 32], COSINES[32 - n % 32]
    return [(c, s), (-s, c), (-c, -s), (s, -c)][n // 32]


def angle_before(one, other):
    """Whether a direction comes before another one in a turn to the left from (1, 0)."""
    def half(x, y):
        return 0 if y > 0 or y == 0 and x > 0 else 1
    if half(*one) != half(*other):
        return half(*one) < half(*other)
    return one[0] * other[1] - one[1] * other[0] > 0


def arc(points):
    """The points through which an arc goes."""
    if len(points) > 3:
        return curve(points)
    a, m, e = points
    if a == e == m:
        return [a, a, a]
    if a == e:
        centre, s = (Fraction(a[0] + m[0], 2), Fraction(a[1] + m[1], 2)), 1
    else:
        bx, by, cx, cy = m[0] - a[0], m[1] - a[1], e[0] - a[0], e[1] - a[1]
        k = bx * cy - by * cx
        if k == 0:
            return [a, m, e]
        s = 1 if k > 0 else -1
        b2, c2 = bx * bx + by * by, cx * cx + cy * cy
        centre = (a[0] + Fraction(cy * b2 - by * c2, 2 * k), a[1] + Fraction(bx * c2 - cx * b2, 2 * k))
    return [a, *between(a, centre, s, a, m), m, *between(a, centre, s, m, e), e]


def between(a, centre, s, p, q):
    """The points of an arc between two of its own."""
    ux, uy, vx, vy = p[0] - centre[0], p[1] - centre[1], q[0] - centre[0], q[1] - centre[1]
    end, found = (ux * vx + uy * vy, s * (ux * vy - uy * vx)), []
    for n in range(1, 128):
        c, sine = direction(n)
        if not angle_before((c, sine), end):
            break
        # (from a, since what is rounded is the way from there)
        dx = nearest(centre[0] - a[0] + Fraction(c * ux - s * sine * uy) / 65536)
        dy = nearest(centre[1] - a[1] + Fraction(s * sine * ux + c * uy) / 65536)
        g = max(abs(dx), abs(dy))
        if g > 2 ** 24:
            dx, dy = floor(Fraction(dx * 2 ** 24, g)), floor(Fraction(dy * 2 ** 24, g))
        found.append((a[0] + dx, a[1] + dy))
    return found


def curve(points):
    """The points of a curve through these."""
    found = [points[0]]
    for at in range(len(points) - 1):
        b, c = points[at], points[at + 1]
        a = points[at - 1] if at else b
        d = points[at + 2] if at + 2 < len(points) else c
        for n in range(1, 16):
            t = Fraction(n, 16)
            found.append(tuple(nearest(
                b[k] + t * Fraction(c[k] - a[k], 2) + t * t * Fraction(2 * a[k] - 5 * b[k] + 4 * c[k] - d[k], 2)
                + t ** 3 * Fraction(3 * b[k] - a[k] - 3 * c[k] + d[k], 2)) for k in (0, 1)))
        found.append(c)
    return found


def dashed(points, pel, word):
    """The lines along which the pen is led."""
    if word & 3 == 0:
        return list(zip(points, points[1:]))
    dashes = DASHES[word & 3]
    (left, right), (low, high) = side(pel[0]), side(pel[1])
    at, unit, found = 0, None, []
    for start, end in zip(points, points[1:]):
        across, up = abs(end[0] - start[0]), abs(end[1] - start[1])
        u = right - left if across >= up else high - low
        if unit is not None:
            at = at * u // unit
        unit, L, period = u, max(across, up, 1), sum(dashes) * u
        f = -at
        while f < L:
            for number, n in enumerate(dashes):
                if number % 2 == 0 and f < L and f + (n - 1) * u >= 0:
                    ends = max(f, 0), min(f + (n - 1) * u, L)
                    found.append(tuple(tuple(start[k] + nearest(Fraction(g * (end[k] - start[k]), L)) for k in (0, 1))
                                       for g in ends))
                f += n * u
        at = (at + max(across, up)) % period
    return found


def outline(kind, points):
    """The points through which the pen goes."""
    if kind == "arc":
        return arc(points)
    if kind == "rect":
        (a, b), (c, d) = points
        return [(a, b), (c, b), (c, d), (a, d), (a, b)]
    return [*points, points[0]] if kind == "poly" else list(points)


def turned_back(i, j, cell):
    """Where the middle of a dot is in a cell, from its corner; None outside of it."""
    x, y, w, h, rotation = cell
    dx, dy = 60 * middle(i) - x, 60 * middle(j) - y
    for _ in range(rotation):
        dx, dy = dy, -dx
    dx, dy = (-dx if w < 0 else dx), (-dy if h < 0 else dy)
    return (dx, dy) if 0 <= dx < abs(w) and 0 <= dy < abs(h) else None


def shown(d, length, count):
    """The column or row of a letter that a place on a side shows; None where there is none."""
    if length >= count * E:
        z = length // (count * E)
        at = d // E - (length // E - count * z) // 2
        return at // z if 0 <= at < count * z else None
    return d * count // length


def cell_dots(cell, wide=256, high=200):
    """The dots of a cell, each with its place there."""
    x, y, w, h, _ = cell
    reach = (abs(w) + abs(h)) // E + 2
    columns = range(max(x // E - reach, 0), min(x // E + reach, wide))
    rows = range(max(y // E - reach, 0), min(y // E + reach, high))
    places = {(i, j): turned_back(i, j, cell) for i in columns for j in rows}
    return {dot: at for dot, at in places.items() if at is not None}


def letter(cell, rows, wide=256, high=200):
    """The dots of a letter, whose rows are texts of six columns, the lowest first."""
    dots = set()
    for dot, (dx, dy) in cell_dots(cell, wide, high).items():
        column, row = shown(dx, abs(cell[2]), 6), shown(dy, abs(cell[3]), 10)
        if column is not None and row is not None and rows[row][column] == "#":
            dots.add(dot)
    return dots


def underline(cell, wide=256, high=200):
    """The dots of the line below a letter."""
    return {dot for dot, (_, dy) in cell_dots(cell, wide, high).items() if shown(dy, abs(cell[3]), 10) == 0}


def mosaic(cell, code, apart, wide=256, high=200):
    """The dots of a mosaic."""
    w, h = abs(cell[2]), abs(cell[3])
    dots = set()
    for dot, (dx, dy) in cell_dots(cell, wide, high).items():
        block = dx * 2 // w, dy * 3 // h
        is_first = (dx - E < 0 or (dx - E) * 2 // w != block[0], dy - E < 0 or (dy - E) * 3 // h != block[1])
        if code & BLOCKS[block] and not (apart and any(is_first)):
            dots.add(dot)
    return dots


def glyph(cell, rows, wide=256, high=200):
    """The dots of a cell that show a dot of a glyph, whose rows are texts, the lowest first."""
    dots = set()
    for dot, (dx, dy) in cell_dots(cell, wide, high).items():
        if rows[dy * len(rows) // abs(cell[3])][dx * len(rows[0]) // abs(cell[2])] == "#":
            dots.add(dot)
    return dots
