"""The raster in JavaScript beside that in Python: every dot of shapes, of the gallery, and of pages and lists by chance
is the same.

RASTER_SHAPES says how many shapes of each kind are tried, and RASTER_PAGES how many pages by chance.
"""
import hashlib
import json
import os
import subprocess
from array import array
from pathlib import Path
from random import Random

import naplps as nap
import pytest
from command import LIB, TOP
from dot_shapes import KINDS, shape
from dot_vectors import DRAWN
from entries import legal_list
from gallery import pages
from naplps import letters
from naplps.dots import shapes
from naplps.dots.walk import DotWalk
from naplps.entry import read_line
from pictures import picture
from samples import needs_node

pytestmark = needs_node
SHAPES, PAGES = int(os.environ.get("RASTER_SHAPES", "1000")), int(os.environ.get("RASTER_PAGES", "200"))
TOGETHER = 50


def said_of(lists, *words):
    """What raster_answers.mjs says of each list of lines."""
    asked = "".join(json.dumps(lines) + "\n" for lines in lists)
    said = subprocess.run(["node", os.path.join(LIB, "raster_answers.mjs"), *words], input=asked.encode("ascii"),
                          capture_output=True)
    assert (said.returncode, said.stderr) == (0, b"")
    return said.stdout.decode("ascii").splitlines()


def numbers(entry):
    """Of each part of a shape how much it counts, how many spans it paints, and these."""
    return [number for spans, counted in shapes.painted(entry, shapes.PAGE)
            for number in (counted, len(spans), *(each for span in spans for each in span))]


@pytest.mark.parametrize("kind", KINDS)
def test_shapes(kind):
    chance = Random("in both " + kind)
    for _ in range(0, SHAPES, 20 * TOGETHER):
        groups = [[shape(chance, kind) for _ in range(TOGETHER)] for _ in range(min(20, SHAPES // TOGETHER))]
        said = said_of([[str(entry) for entry in group] for group in groups], "shapes")
        for group, hashed in zip(groups, said):
            mine = b"".join(array("I", numbers(entry)).tobytes() for entry in group)
            assert hashlib.sha256(mine).hexdigest() == hashed, [str(entry) for entry in group]


def page_of(entries):
    """What the script says of a page with these entries."""
    walk = DotWalk(entries)
    drawn = sum(1 for _ in walk.steps())
    colours = json.dumps([list(each) for each in sorted(walk.colour_map.items())], separators=(",", ":"))
    hashed = hashlib.sha256(walk.page.canvas.inks.tobytes()).hexdigest()
    return f"{hashed} {drawn} {walk.page.canvas.counted} {colours}"


def assert_same(lists):
    said = said_of(lists)
    assert len(said) == len(lists)
    for lines, told in zip(lists, said):
        assert page_of([read_line(line) for line in lines]) == told, lines[:50]


def lines_of(page):
    try:
        return [str(entry) for entry in nap.entries(page)]
    except nap.Refused:
        return []


def test_the_vectors():
    assert_same([it.lines for it in DRAWN])


def test_the_gallery():
    assert_same([lines_of(page) for page in pages().values()])


def test_pages_by_chance():
    assert_same([lines_of(picture(Random(number), number)) for number in range(PAGES)])


def test_lists_by_chance():
    chance = Random("lists")
    assert_same([[str(entry) for entry in legal_list(chance, chance.randrange(1, 60))] for _ in range(PAGES)])


def test_pages_that_end_by_the_bound():
    star = nap.Poly(True, tuple((number * 8191, number % 2 * 200 * 32768) for number in range(1024)), (0, 0),
                    nap.Colour("own-start"), nap.Texture(0, None))
    glyph = ["GLYPH 21", *[str(star)] * 30, "END"]
    use = "CHAR drcs 21 pen=0,0 colour=own-start text=0,0/8388607,6553600/----"
    assert_same([[str(star)] * 50, [*glyph, *[use] * 20]])


def test_both_have_one_font():
    text = Path(TOP, "browser", "raster", "font_table.js").read_text("utf-8")
    for name in ("SIGNS", "MARKS"):
        told = text[text.index(f"const {name} = [") + len(f"const {name} = "):]
        lines = json.loads(told[:told.index("\n];")].rstrip(",") + "]")
        assert lines == getattr(letters, name).strip("\n").split("\n"), name
