"""Sketches: what every one of them holds, and what some pages look like."""
import math
import re

import pytest
from hypothesis import HealthCheck, given, settings
from hypothesis import strategies as st

from naplps import drawing, letters
from naplps.answers import Accepted
from naplps.client import Client
from naplps.drawing.colours import FIRST
from naplps.drawing.measure import WIDTH, on_page
from naplps.drawing.shapes import arc_path
from naplps.drawing.walk import MOST_DRAWN
from naplps.drawing.writing import SIZES
from naplps.entry import ONE, read_line
from naplps.faults import NotALine
from sketches import HAND, INK, SVG, elements, harmless, numbers
from strategies import POINTS, pages


@pytest.fixture(scope="module")
def asked(naplps):
    program = Client(naplps)
    yield program
    program.close()


@settings(max_examples=150, deadline=None, suppress_health_check=list(HealthCheck))
@given(page=pages())
def test_sketches_are_harmless_and_the_same_from_the_canonical_page(asked, page):
    listed = asked.ask("list", page)
    assert isinstance(listed, Accepted), (listed, page.hex())
    svg = drawing.draw(listed.body.decode().splitlines()).svg
    harmless(svg)
    canonical = asked.ask("canon", page)
    again = asked.ask("list", canonical.body)
    assert drawing.draw(again.body.decode().splitlines()).svg == svg


def steps(path):
    """The letters of a path, each with its numbers, of which the last two are where it ends."""
    return [(letter, numbers(rest)) for letter, rest in re.findall(r"([MLAC])([^MLACZ]*)", path)]


@given(points=st.lists(POINTS, min_size=3, max_size=7), filled=st.booleans())
@settings(max_examples=400, deadline=None)
def test_each_point_of_an_arc_is_on_it(points, filled):
    places = on_page(points)
    path = arc_path(places, filled)
    for place in places:
        assert min(math.dist(place, values[-2:]) for _, values in steps(path)) < 0.01
    assert path.endswith("Z") == filled


@given(points=st.tuples(POINTS, POINTS, POINTS))
@settings(max_examples=400, deadline=None)
def test_an_arc_of_three_points_is_of_their_circle(points):
    at, sweeps = (), set()
    for letter, values in steps(arc_path(on_page(points), False)):
        if letter == "A":
            radius, _, _, _, sweep, *end = values
            assert math.dist(at, end) <= 2 * radius + 0.05
            sweeps.add(sweep)
        at = values[-2:]
    assert len(sweeps) <= 1


@pytest.mark.parametrize("line, path", [
    ("ARC-FILLED 2097152,4194304 6291456,4194304 2097152,4194304 ",
     "M256 288A256 256 0 0 1 768 288A256 256 0 0 1 256 288Z"),
    ("ARC-OUTLINED 2097152,0 4194304,2097152 6291456,0 ", "M256 800A256 256 0 0 1 512 544A256 256 0 0 1 768 800")],
    ids=["a circle has its diameter", "a half circle goes through its middle"])
def test_arcs(line, path):
    assert elements(drawing.draw([line + INK]).svg, "path")[0].attrib["d"] == path


def test_colours():
    assert FIRST[0] == "#000000" and FIRST[7] == "#ffffff" and FIRST[8] == "#0000ff"
    svg = drawing.draw(["RECT-FILLED 0,0 4194304,4194304 pel=0,0 colour=direct:65535,0,49152 texture=0/none"]).svg
    assert elements(svg, "rect")[1].attrib["fill"] == "#00ffc0"


def test_the_last_value_of_the_map_holds():
    lines = ["MAP 1048576 0,65535,0", "POINT 0,0 pel=0,0 colour=front:1048576", "MAP 1048576 65535,0,0"]
    assert elements(drawing.draw(lines).svg, "rect")[1].attrib["fill"] == "#00ff00"


def test_letters_stand_in_cells():
    lines = ["CHAR primary 41 pen=0,0 " + HAND, "CHAR primary 42 pen=after " + HAND, "MOVE APR pen=after " + HAND,
             "MOVE APU pen=after " + HAND, "CHAR primary 43 pen=after " + HAND]
    texts = elements(drawing.draw(lines).svg, "text")
    assert [each.text for each in texts[:-1]] == ["AB", "C"]
    up = [numbers(each.attrib["transform"])[-1] for each in texts[:2]]
    assert up[0] - up[1] == pytest.approx(SIZES["normal"][1] * WIDTH, abs=0.02)


ROW = "M0 760H64V773.33H0ZM0 773.33H51.2V786.67H0ZM0 786.67H51.2V800H0Z"


def mosaics(*codes, look=HAND):
    """The paths of mosaics that stand one after the other in the lower left corner."""
    pens = ["0,0"] + ["after"] * (len(codes) - 1)
    lines = [f"CHAR mosaic {code} pen={pen} {look}" for code, pen in zip(codes, pens)]
    return [each.get("d") for each in elements(drawing.draw(lines).svg, "path")]


def test_mosaics_of_a_row_are_one_path_without_seams():
    # (cells of 25.6 x 40 units, with blocks of 12.8 x 13.33)
    assert mosaics("7f", "7f", "21") == [ROW]
    assert mosaics("21", "20", "22") == ["M0 760H12.8V773.33H0ZM64 760H76.8V773.33H64Z"]
    apart = mosaics("7f", "7f", look=HAND.replace("----", "-u--"))
    assert len(apart) == 1 and apart[0].count("Z") == 12
    assert apart[0].startswith("M0.96 761H11.84V772.33H0.96ZM13.76 761H24.64V772.33H13.76ZM26.56 761H")


def test_mosaics_of_another_look_or_place_are_a_path_of_their_own():
    red, lines = HAND.replace("own-start", "direct:0,65535,0"), ["CHAR mosaic 7f pen=0,0 " + HAND]
    for other in ("mosaic 7f pen=after " + red, "mosaic 7f pen=400000,0 " + HAND,
                  "mosaic 7f pen=after " + HAND.replace("normal", "small")):
        assert len(elements(drawing.draw(lines + ["CHAR " + other]).svg, "path")) == 2, other
    assert len(mosaics("7f", "7f", look=HAND.replace("text=0,0", "text=16,0"))) == 2
    between = [*lines, "CHAR primary 41 pen=after " + HAND, "CHAR mosaic 7f pen=after " + HAND]
    assert re.findall("<(path|text)", drawing.draw(between).svg)[:3] == ["path", "text", "path"]


def test_an_accent_joins_its_letter():
    lines = ["CHAR supplementary 42 pen=0,0 " + HAND, "CHAR primary 65 pen=after " + HAND,
             "CHAR supplementary 42 pen=after " + HAND, "BELL"]
    texts = elements(drawing.draw(lines).svg, "text")
    assert texts[0].text == "é" + letters.ALONE[0x42]


def test_markup_in_a_page_is_text():
    lines = ["CHAR primary %02x pen=%s %s" % (ord(each), "after" if i else "0,0", HAND)
             for i, each in enumerate("</text><script>")]
    svg = drawing.draw(lines).svg
    harmless(svg)
    assert elements(svg, "text")[0].text == "</text><script>"


def test_glyphs_are_used_and_never_in_each_other():
    line = "LINE 0,0 8388607,8388607 " + INK
    drcs = "CHAR drcs 21 pen=0,0 " + HAND
    svg = drawing.draw(["GLYPH 21", line, "END", "GLYPH 22", drcs, drcs, "END", drcs]).svg
    harmless(svg)
    assert len(elements(svg, "use")) == 1
    assert "inside a glyph" in elements(svg, "desc")[0].text


def test_a_glyph_that_is_defined_again_is_another():
    line, drcs = "LINE 0,0 8388607,8388607 " + INK, "CHAR drcs 21 pen=0,0 " + HAND
    svg = drawing.draw(["GLYPH 21", line, "END", drcs, "GLYPH 21", "END", drcs]).svg
    harmless(svg)
    names = [each.attrib["href"] for each in elements(svg, "use")]
    assert len(set(names)) == 2


def test_a_mask_that_is_defined_again_is_another():
    line, area = "LINE 0,0 8388607,8388607 " + INK, "RECT-FILLED 0,0 1,1 pel=0,0 colour=own-start texture=32/none"
    svg = drawing.draw(["MASK A", line, "END", area, area, "MASK A", "END", area]).svg
    harmless(svg)
    fills = [each.attrib["fill"] for each in elements(svg, "rect")[-4:-1]]
    assert fills[0] == fills[1] != fills[2] and all(each.startswith("url(#") for each in fills)
    assert [len(each.findall(".//" + SVG + "path")) for each in elements(svg, "pattern")] == [1, 0]


def test_a_mask_that_isnt_defined_is_a_half_tone():
    svg = drawing.draw(["RECT-FILLED 0,0 1,1 pel=0,0 colour=own-start texture=32/none"]).svg
    assert elements(svg, "rect")[0].attrib["fill-opacity"] == "0.5"
    assert "half tone" in elements(svg, "desc")[0].text


def test_so_many_entries_are_drawn():
    svg = drawing.draw(["BELL"] * (MOST_DRAWN + 5)).svg
    told = [each.text for each in elements(svg, "text")]
    assert told[0] == "Sketch of the first 20000 of 20005 entries" == elements(svg, "title")[0].text
    assert told[1].startswith("The picture ends before entry 20001")


def test_the_caption_says_that_parts_blink():
    point, blink = "POINT 1,2 pel=0,0 colour=front:0", "BLINK 1048576 5,5,0 colour=front:0"
    for lines, blinks in (([point], False), ([point, blink], True), ([point, "BLINK-END colour=front:0"], False),
                          (["BLINK-START colour=own-start", point], True), (["WAIT 10", point], False)):
        [title] = elements(drawing.draw(lines).svg, "title")
        told = "1 entry" if len(lines) == 1 else "2 entries"
        assert title.text == f"Sketch of {told}" + ("; parts of it blink" if blinks else "")


def test_clear_takes_all_away():
    svg = drawing.draw(["POINT 0,0 pel=0,0 colour=own-start", "CLEAR pen=0,0"]).svg
    assert len(elements(svg, "rect")) == 2


def test_ids_dont_clash_between_sketches():
    line, drcs = "LINE 0,0 8388607,8388607 " + INK, "CHAR drcs 21 pen=0,0 " + HAND
    ids = [{each.attrib["id"] for each in elements(drawing.draw(["GLYPH 21", line, "END", drcs, *more]).svg, "g")
            if "id" in each.attrib} for more in ([], ["BELL"])]
    assert ids[0].isdisjoint(ids[1])


@given(st.integers(0, ONE - 1), st.integers(0, 63), st.sampled_from([
    "small", "medium", "normal", "tall", "double", "0,0", "-8388608,8388607", "1,1"]))
@settings(deadline=None)
def test_any_look_is_drawn(x, word, size):
    hand = "colour=pair:0,1048576 text=%d,0/%s/ruws" % (word, size)
    lines = ["CHAR primary 41 pen=%d,0 %s" % (x, hand), "CHAR primary 41 pen=after " + hand, "TO-EOL pen=after " + hand,
             "CHAR mosaic 7f pen=after " + hand, "CHAR drcs 21 pen=after " + hand, "MOVE APS 41 42 pen=after " + hand]
    harmless(drawing.draw(lines).svg)


def test_blanks_are_kept():
    lines = ["CHAR primary 20 pen=0,0 " + HAND, "CHAR primary 20 pen=after " + HAND,
             "CHAR primary 41 pen=after " + HAND]
    text = elements(drawing.draw(lines).svg, "text")[0]
    assert text.text == "  A" and text.attrib["{http://www.w3.org/XML/1998/namespace}space"] == "preserve"


def test_lines_are_read():
    entry = read_line("FIELD 1,2 3,4 pen=start")
    assert entry.points == ((1, 2), (3, 4)) and entry.pen == "start"


@pytest.mark.parametrize("line", [
    "", "CHAR", "NOTHING", "BELL BELL", "LINE 0,0 x " + INK, "LINE 0,0 " + INK, "ARC-FILLED 0,0 1,1 " + INK, "MAP 1",
    "LINE 0,0 1,1 pel=0,0 colour=own-start", "CHAR primary zz pen=after " + HAND, "CHAR greek 41 pen=after " + HAND,
    "MOVE APS pen=after " + HAND, "MOVE APB 41 pen=after " + HAND, "BELL colour=own-start",
    "POINT 0,0 pel=0,0 colour=red", "CHAR primary 41 pen=after colour=own-start text=0,0/huge/----",
    "POINT 0,0 pel=0,0 colour=front:" + "9" * 5000])
def test_lines_that_the_program_doesnt_print(line):
    with pytest.raises(NotALine):
        read_line(line)
