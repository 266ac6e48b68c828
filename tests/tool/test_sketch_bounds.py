"""The bound of a sketch: its bytes, and what a browser has to draw, uses included; and what is seen where it ends."""
import os
import re

import pytest
from hypothesis import given, settings
from hypothesis import strategies as st

from command import COMMAND, file
from naplps import drawing
from naplps.drawing import paper
from naplps.drawing.walk import MOST_DRAWN, MOST_POINTS
from naplps.entry import ONE
from peaks import with_peak
from sketches import HAND, INK, bomb, elements, harmless

MOST_BYTES = 16 << 20
MOST_MEMORY = 300 << 20
ENDS = "The picture ends before entry %d: with what follows it would be more than a picture may be."
FULL = "0,0 %d,%d" % (ONE - 1, ONE - 1)


@pytest.mark.parametrize("kind", ["mask", "glyph"])
def test_a_small_page_makes_no_large_picture(naplps, tmp_path, kind):
    path = file(tmp_path, "bomb.nap", bomb(kind, 400))
    assert os.path.getsize(path) < 14_000
    said, memory = with_peak([COMMAND, "show", path], env=dict(os.environ, NAPLPS=naplps))
    assert said.returncode == 0 and len(said.stdout) <= MOST_BYTES and memory < MOST_MEMORY
    svg = said.stdout.decode()
    harmless(svg)
    used = svg.count("<use") if kind == "glyph" else svg.count('fill="url(')
    assert used * 95 * 2001 <= paper.MOST_WEIGHT
    assert "The picture ends before entry" in elements(svg, "text")[-1].text


COORDINATE = st.integers(0, ONE - 1)
PLACE = st.builds("{},{}".format, COORDINATE, COORDINATE)
COLOUR = st.sampled_from(["own-start", "direct:1,65535,2", "front:1048576", "pair:0,1048576"])
ATTRIBUTES = st.builds("pel={} colour={} texture={}/{}".format, PLACE, COLOUR, st.integers(0, 63),
                       st.one_of(st.just("none"), PLACE))
LINE = st.one_of(
    st.builds("{}-{} {} {} {}".format, st.sampled_from(["RECT", "POLY"]), st.sampled_from(["FILLED", "OUTLINED"]),
              PLACE, PLACE, ATTRIBUTES),
    st.builds("ARC-{} {} {} {} {}".format, st.sampled_from(["FILLED", "OUTLINED"]), PLACE, PLACE, PLACE, ATTRIBUTES),
    st.builds("LINE {} {} {}".format, PLACE, PLACE, ATTRIBUTES),
    st.builds("CHAR {} 41 pen={} colour={} text={},0/{}/ruws".format, st.sampled_from(
        ["primary", "supplementary", "mosaic", "drcs"]), st.one_of(st.just("after"), PLACE), COLOUR, st.integers(0, 63),
        st.sampled_from(["normal", "double", "8388607,8388607"])),
    st.just("TO-EOL pen=after colour=own-start text=0,0/normal/----"),
    st.sampled_from(["CLEAR pen=0,0", "BELL", "END"]))


@given(lines=st.lists(LINE, max_size=14), within=st.lists(LINE, max_size=3), most=st.floats(0, 20_000),
       size=st.integers(0, 6000))
@settings(max_examples=300, deadline=None)
def test_a_picture_that_ends_is_the_picture_of_what_comes_first(lines, within, most, size):
    page = ["GLYPH 41", *within, "END", "MASK A", *within, "END", *lines]
    whole = drawing.draw(page)
    before = paper.MOST_WEIGHT, paper.MOST_BYTES
    paper.MOST_WEIGHT, paper.MOST_BYTES = most, size + paper.AROUND
    try:
        made = drawing.draw(page)
    finally:
        paper.MOST_WEIGHT, paper.MOST_BYTES = before
    harmless(made.svg)
    assert len(made.svg.encode()) <= size + paper.AROUND
    if made.drawn == len(page):
        assert made.svg == whole.svg
    else:
        assert elements(made.svg, "text")[-1].text == ENDS % (made.drawn + 1)
        assert elements(made.svg, "text")[-2].text == "Sketch of the first %d of %d entries" % (made.drawn, len(page))


SHAPES = ["POLY-FILLED 0,0 %s 100,8000000 " % FULL[4:], "POLY-OUTLINED 0,0 %s 100,8000000 " % FULL[4:],
          "RECT-FILLED %s " % FULL, "RECT-OUTLINED %s " % FULL, "LINE %s " % FULL,
          "ARC-FILLED 100,4000000 8000000,4000000 100,4000000 ", "ARC-OUTLINED 0,0 4000000,5000000 8000000,100 "]


@pytest.mark.parametrize("shape", SHAPES)
@pytest.mark.parametrize("texture", [0, 1, 3, 4, 24, 32])
def test_what_costs_a_browser_much_is_not_drawn_without_end(shape, texture):
    lines = [shape + "pel=0,0 colour=own-start texture=%d/none" % texture] * MOST_DRAWN
    made = drawing.draw(["MASK A", lines[0], "END", *lines])
    assert 20 < made.drawn < MOST_DRAWN / 5 and ENDS % (made.drawn + 1) in made.svg


@pytest.mark.parametrize("lines, most", [
    (["CHAR primary 41 pen=%d,0 " % at + HAND for at in range(MOST_DRAWN)], 5000),
    (["CHAR primary 41 pen=0,0 " + HAND.replace("normal", "8388607,8388607")] * MOST_DRAWN, 500),
    (["GLYPH 21", "END"] + ["CHAR drcs 21 pen=0,0 " + HAND] * MOST_DRAWN, 5000),
    (["GLYPH 21", "RECT-FILLED %s %s" % (FULL, INK), "END"]
     + ["CHAR drcs 21 pen=0,0 " + HAND.replace("normal", "8388607,8388607")] * MOST_DRAWN, 5000),
    (["CHAR mosaic 7f pen=0,0 " + HAND.replace("normal", "100,8000"), "TO-EOL pen=after "
      + HAND.replace("normal", "100,8000")] * (MOST_DRAWN // 2), 100),
    (["CHAR mosaic 7f pen=0,0 " + HAND.replace("normal", "100,0"), "TO-EOL pen=after "
      + HAND.replace("normal", "100,0")] * (MOST_DRAWN // 2), 100)])
def test_characters_are_not_drawn_without_end(lines, most):
    made = drawing.draw(lines)
    assert 4 < made.drawn < most and ENDS % (made.drawn + 1) in made.svg


def test_an_entry_of_too_many_points_is_not_even_read():
    made = drawing.draw(["BELL", "POLY-FILLED" + " 1,2" * (MOST_POINTS + 100) + " not a line", "not a line"])
    assert made.drawn == 1 and ENDS % 2 in made.svg


def test_clear_begins_anew():
    some = ["RECT-FILLED %s %s" % (FULL, INK)] * 200
    assert drawing.draw([*some, "CLEAR pen=0,0"] * 20).drawn == 20 * 201
    assert drawing.draw(some * 20).drawn < 20 * 200


MASK = ["MASK A", *["POLY-FILLED%s %s" % (" 4000000,4000000 4000100,4000200" * 900, INK)] * 12, "END"]


def patterned(number):
    """Small areas, each with the mask in another colour."""
    return ["RECT-FILLED 0,%d 99,9999 pel=0,0 colour=direct:0,0,%d texture=32/none" % (at, at << 8)
            for at in range(number)]


def test_a_mask_is_copied_where_that_is_little_and_else_referred_to():
    svg = drawing.draw(MASK + patterned(8)).svg
    harmless(svg)
    found = elements(svg, "pattern")
    uses = elements(svg, "use")
    assert len(found) == 8 and 0 < len(uses) < 8 and len({each.attrib["href"] for each in uses}) == 1
    copies = len(re.findall("<polygon", svg)) // 12
    assert copies == 8 - len(uses) + 1 and (copies - 1) * 12 * 2 * 900 * 12 > paper.MOST_COPIED // 2
    assert len(svg) < paper.MOST_COPIED + len("".join(MASK)) + 10_000
    few = drawing.draw(MASK + patterned(2)).svg
    assert elements(few, "use") == [] and len(re.findall("<polygon", few)) == 24


def test_a_bounded_picture_of_a_refused_page_says_both(run, tmp_path):
    path = file(tmp_path, "bomb.nap", bomb("glyph", 400) + b"\x18")
    said = run(["show", path])
    told = [each.text for each in elements(said.stdout.decode(), "text")]
    assert said.returncode == 1 and re.fullmatch(r"Sketch of the first \d+ of \d+ entries; then refused .*", told[-2])
    assert told[-1].startswith("The picture ends before entry ")
