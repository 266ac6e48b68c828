"""Pels: points are their rectangles, and lines what these sweep. Expected values come from docs/SKETCH.md."""
import math
import random

import pytest
from hypothesis import Phase, given, settings
from hypothesis import strategies as st

from naplps import drawing
from naplps.drawing.shapes import Cubic, Round, Straight, dashed, sweep
from naplps.drawing.measure import HEIGHT, WIDTH, Pel, pel
from naplps.entry import ONE
from paths import area, bezier, holds, hull, polygons
from sketches import elements, harmless

WHITE = "colour=own-start texture=%d/none"
DOT = 4.0
UNITS = st.integers(0, WIDTH).map(float)
PLACES = st.tuples(UNITS, UNITS)
PELS = st.builds(pel, st.tuples(*[st.integers(-ONE // 8, ONE // 8)] * 2), st.just(DOT))


QUICK = settings(max_examples=40, deadline=None, phases=[Phase.explicit, Phase.generate])


def steps(part):
    """A part of the side of the unit screen in steps."""
    return round(part * ONE)


def of_line(line):
    """The only path of the sketch of a line, as polygons."""
    svg = drawing.draw([line]).svg
    harmless(svg)
    path, = elements(svg, "path")
    assert path.attrib["fill"] == "#ffffff" and "stroke" not in path.attrib
    return polygons(path.attrib["d"])


def bounds(some):
    """The least and largest x, and the least and largest y, of some polygons."""
    across, down = zip(*(place for polygon in some for place in polygon))
    return min(across), max(across), min(down), max(down)


@pytest.mark.parametrize("parts, left, right, top, bottom", [
    ((0.1, 0.6, 0.9, 0.6, 0.03, 0.004), 0.1, 0.93, 0.604, 0.6),
    ((0.5, 0.1, 0.5, 0.6, -0.03, -0.004), 0.47, 0.5, 0.6, 0.096)], ids=["level", "upright"])
def test_a_line_of_a_wide_pel_is_as_high_or_wide_as_the_pel(parts, left, right, top, bottom):
    line = "LINE %d,%d %d,%d pel=%d,%d %s" % (*map(steps, parts), WHITE % 0)
    assert bounds(of_line(line)) == pytest.approx(
        (left * WIDTH, right * WIDTH, HEIGHT - top * WIDTH, HEIGHT - bottom * WIDTH), abs=0.011)


@pytest.mark.parametrize("size", [
    (0.03, 0.004), (-0.03, 0.02), (0.01, -0.02), (-0.01, -0.01), (0, 0.02), (0.001, 0.02)])
def test_points_lie_at_the_ends_of_their_line(size):
    places = "%d,%d %d,%d" % tuple(map(steps, (0.2, 0.3, 0.7, 0.5)))
    ink = "pel=%d,%d colour=own-start" % tuple(map(steps, size))
    line = of_line("LINE %s %s texture=0/none" % (places, ink))
    corners = set()
    for place in places.split():
        box = elements(drawing.draw(["POINT %s %s" % (place, ink)]).svg, "rect")[1].attrib
        x, y, wide, high = (float(box[name]) for name in ("x", "y", "width", "height"))
        corners |= {(x, y), (x + wide, y), (x, y + high), (x + wide, y + high)}
    wanted = hull(list(corners))
    assert len(wanted) == 6 and len(line) == 1
    for corner in wanted:
        assert min(math.dist(corner, each) for each in line[0]) < 0.02


@given(start=PLACES, end=PLACES, dot=PELS)
@settings(max_examples=300, deadline=None)
def test_a_straight_line_is_the_hull_of_the_rectangles_at_its_ends(start, end, dot):
    swept, = polygons(sweep([Straight(start, end)], dot).path)
    wanted = hull([(x + dx, y + dy) for x, y in (start, end) for dx, dy in dot.corners()])
    assert area(swept) == pytest.approx(abs(area(wanted)), abs=0.02 * WIDTH)
    for one, other in ((swept, wanted), (wanted, swept)):
        assert all(min(math.dist(place, each) for each in other) < 0.02 for place in one)


def outside(place, on, dot):
    """How far a place is outside of a pel's rectangle at the nearest of the places `on`; below 0 inside."""
    return min(max(x + dot.left - place[0], place[0] - x - dot.right, y + dot.top - place[1], place[1] - y - dot.bottom)
               for x, y in on)


def covers(pieces, on, dot, seed):
    """Whether a path covers a place exactly where a pel's rectangle does, at some of the places `on` a line."""
    some, chance = polygons(sweep(pieces, dot).path), random.Random(seed)
    assert all(area(each) > -0.02 for each in some)
    low, high = min(min(place) for place in on) - 60, max(max(place) for place in on) + 60
    for _ in range(40):
        place = chance.uniform(low, high), chance.uniform(low, high)
        far = outside(place, on, dot)
        if abs(far) > 2.0:
            assert holds(some, place) == (far < 0), (place, far)


@given(centre=PLACES, radius=st.floats(5, 300), first=st.floats(-3.1, 3.1), turn=st.floats(-6.2, 6.2), dot=PELS,
       seed=st.integers(0, 999))
@QUICK
def test_an_arc_covers_what_its_pel_does(centre, radius, first, turn, dot, seed):
    def on(share):
        angle = first + turn * share
        return centre[0] + radius * math.cos(angle), centre[1] + radius * math.sin(angle)
    places = [on(step / 500) for step in range(501)]
    covers([Round(places[0], places[-1], centre, radius, turn)], places, dot, seed)


@given(places=st.tuples(PLACES, PLACES, PLACES, PLACES), dot=PELS, seed=st.integers(0, 999))
@QUICK
def test_a_curve_covers_what_its_pel_does(places, dot, seed):
    covers([Cubic(*places)], [bezier(list(places), step / 900) for step in range(901)], dot, seed)


@given(places=st.lists(PLACES, min_size=2, max_size=6), dot=PELS, seed=st.integers(0, 999))
@QUICK
def test_an_outline_covers_what_its_pel_does(places, dot, seed):
    edges = [Straight(*each) for each in zip(places, places[1:] + places[:1])]
    on = [(a + (c - a) * step / 500, b + (d - b) * step / 500) for (a, b), (c, d) in edges for step in range(501)]
    covers(edges, on, dot, seed)


def test_a_rectangle_of_a_wide_pel_has_wide_and_thin_sides():
    line = "RECT-OUTLINED %d,%d %d,%d pel=%d,%d %s" % (*map(steps, (0.2, 0.2, 0.6, 0.5, 0.02, 0.004)), WHITE % 0)
    some = of_line(line)
    top = HEIGHT - 0.5 * WIDTH
    for x, y, inside in ((0.21, top + 100, True), (0.615, top + 100, True), (0.23, top + 100, False),
                         (0.4, top - 2, True), (0.4, top + 2, False), (0.4, HEIGHT - 0.2 * WIDTH - 2, True),
                         (0.4, HEIGHT - 0.2 * WIDTH + 2, False)):
        assert holds(some, (x * WIDTH, y)) == inside, (x, y)


@pytest.mark.parametrize("kind, dashes", [(1, (1, 2)), (2, (5, 3)), (3, (5, 2, 1, 2))])
def test_dashes_are_swept_too(kind, dashes):
    unit, end = 0.01 * WIDTH, 0.887 * WIDTH
    line = "LINE %d,%d %d,%d pel=%d,%d %s" % (*map(steps, (0.1, 0.5, 0.887, 0.5, 0.01, 0.005)), WHITE % kind)
    some = sorted(of_line(line))
    at, wanted = 0.1 * WIDTH, []
    while at < end:
        for number, part in enumerate(dashes):
            if number % 2 == 0 and at < end:
                wanted.append((at, min(at + part * unit, end) + unit))
            at += part * unit
    found = [bounds([each])[:2] for each in some]
    assert found == [pytest.approx(each, abs=0.03) for each in wanted]


def test_the_unit_of_a_dash_is_the_side_along_its_line():
    # (a pel of 0.02 x 0.005: 0.59 has 39.3 times 0.005 and a gap of 0.01, and 9.8 times 0.02 and a gap of 0.04)
    for ends, dots in (((0.5, 0.1, 0.5, 0.69), 40), ((0.1, 0.5, 0.69, 0.5), 10)):
        line = "LINE %d,%d %d,%d pel=%d,%d %s" % (*map(steps, (*ends, 0.02, 0.005)), WHITE % 1)
        assert len(of_line(line)) == dots, ends


@given(places=st.lists(PLACES, min_size=2, max_size=5), unit=st.floats(4, 60),
       dashes=st.sampled_from([(1, 2), (5, 3), (5, 2, 1, 2)]))
@settings(deadline=None)
def test_dashes_have_their_share_of_a_line(places, unit, dashes):
    edges = [Straight(*each) for each in zip(places, places[1:])]
    length = sum(each.length() for each in edges)
    down = sum(each.length() for each in dashed(edges, Pel(0.0, -unit, unit, 0.0), dashes))
    whole, period = length // (sum(dashes) * unit), sum(dashes[::2]) * unit
    assert whole * period - 1e-6 <= down <= (whole + 1) * period + 1e-6


@pytest.mark.parametrize("kind", ["RECT-OUTLINED", "POLY-OUTLINED", "LINE"])
def test_without_a_pel_lines_are_thin_strokes(kind):
    svg = drawing.draw(["%s 100,100 4000000,4000000 pel=0,0 %s" % (kind, WHITE % 0)]).svg
    made = (elements(svg, "path") + elements(svg, "polygon") + elements(svg, "rect")[1:])[0]
    assert made.attrib["stroke-width"] == "4" and made.attrib["fill"] == "none"


def test_a_pel_is_never_less_than_a_dot():
    assert pel((0, 0), DOT) == Pel(-2, -2, 2, 2)
    assert pel((1, -1), DOT) == Pel(0, 0, 4, 4)
    assert pel((-ONE // 4, ONE // 2), DOT) == Pel(-WIDTH / 4, -WIDTH / 2, 0, 0)


@pytest.mark.parametrize("shape", [
    "POLY-OUTLINED" + " 0,0 8388607,8388607" * 500, "ARC-OUTLINED 0,1 4000000,0 8000000,1",
    "ARC-OUTLINED 0,0 2,0 1,1", "ARC-OUTLINED" + " 0,0 8388607,8388607" * 100, "ARC-OUTLINED 5,5 5,5 5,5"],
    ids=["edges", "large arc", "small arc", "curves", "place"])
@pytest.mark.parametrize("texture", [0, 1, 3])
def test_the_cost_of_a_sweep_is_bounded(shape, texture):
    made = drawing.draw(["%s pel=9,9 %s" % (shape, WHITE % texture)] * 50)
    harmless(made.svg)
    assert len(made.svg) < 4 << 20


def test_a_sweep_in_a_glyph_has_the_dots_of_a_glyph():
    lines = ["GLYPH 21", "LINE 0,4194304 8388607,4194304 pel=9,9 " + WHITE % 0, "END",
             "CHAR drcs 21 pen=0,0 colour=own-start text=0,0/normal/----"]
    path, = elements(drawing.draw(lines).svg, "path")
    assert path.attrib["fill"] == "currentColor"
    left, right, top, bottom = bounds(polygons(path.attrib["d"]))
    assert (left, round(right), top, bottom) == (0, WIDTH + WIDTH / 16, WIDTH / 2 - WIDTH / 16, WIDTH / 2)
