"""The raster: its rows beside a painter that goes dot by dot by docs/RASTER.md, and what a page has in it.

RASTER_SHAPES says how many shapes of each kind are tried, and RASTER_PAGES how many pages.
"""
import hashlib
from random import Random

import naplps as nap
import pytest
import slow_raster as slow
from dot_shapes import KINDS, ONE, OWN, PAGES, SHAPES, U, shape
from naplps import letters
from naplps.dots import characters, raster, shapes
from naplps.dots.characters import DOT, PART, SIZES
from naplps.dots.shapes import PAGE, Scale
from naplps.dots.surface import Grid, Painted
from naplps.entry import read_line
from pictures import picture


def slowly(entry, wide=256, high=200):
    """The dots that a shape paints, by the words of the document."""
    name = entry.kind.partition("-")[0].lower()
    points = [tuple(at) for at in entry.points]
    if getattr(entry, "filled", False):
        if name == "rect":
            return slow.rectangle(*points, wide, high)
        return slow.polygon(slow.arc(points) if name == "arc" else points, wide, high)
    if name == "point":
        return slow.line(points[0], points[0], entry.pel, wide, high)
    dots = set()
    for start, end in slow.dashed(slow.outline(name, points), entry.pel, entry.texture.word):
        dots |= slow.line(start, end, entry.pel, wide, high)
    return dots


def spans_of_parts(parts):
    return [span for part in parts for span in part.spans]


def dots_of(spans):
    return {(dot, row) for row, start, end in spans for dot in range(start, end)}


@pytest.mark.parametrize("kind", KINDS)
def test_shapes_as_the_document_has_them(kind):
    chance = Random("raster " + kind)
    # (many lines of an arc cost the slow painter much)
    for number in range(SHAPES if kind in KINDS[:7] else SHAPES // 10 + 10):
        entry = shape(chance, kind)
        assert dots_of(spans_of_parts(shapes.painted(entry, PAGE))) == slowly(entry), (number, str(entry))


def texts(rows):
    """The rows of a letter as texts."""
    return [format(row, "06b").replace("1", "#").replace("0", ".") for row in rows]


def cells(chance):
    """The five named sizes and ten given ones, each at odd places, turned four ways."""
    given = [(chance.choice((-1, 1)) * chance.randrange(1, 40 * U) * PART,
              chance.choice((-1, 1)) * chance.randrange(1, 40 * U) * PART) for _ in range(8)]
    for wide, high in [*SIZES.values(), *given, (6 * DOT, 10 * DOT), (12 * DOT, 15 * DOT)]:
        for rotation in range(4):
            x, y = (chance.choice((chance.randrange(256) * DOT, chance.randrange(256 * DOT))) for _ in "xy")
            yield characters.Placed(x, y, wide, high, rotation)


ALL = [("primary", code) for code in range(0x20, 0x80)] + [("supplementary", code) for code in range(0x20, 0x80)]


def test_letters_as_the_document_has_them():
    chance, screen = Random("letters"), PAGE.grid
    for cell in cells(chance):
        every = SHAPES >= 5000
        for name, code in ALL if every else chance.sample(ALL, 12):
            rows = letters.rows_of(letters.letter(name, code))
            found = dots_of(characters.letter(cell, rows, screen))
            assert found == slow.letter(tuple(cell), texts(rows)), (cell, name, code)
        assert dots_of(characters.underline(cell, screen)) == slow.underline(tuple(cell)), cell
        assert dots_of(characters.whole(cell, screen)) == set(slow.cell_dots(tuple(cell))), cell
        for code in range(0x20, 0x80) if every else chance.sample(range(0x20, 0x80), 6):
            for apart in (False, True):
                found = dots_of(characters.mosaic(cell, code, apart, screen))
                assert found == slow.mosaic(tuple(cell), code, apart), (cell, code, apart)
        rows = tuple(chance.getrandbits(16) for _ in range(11))
        told = [format(row, "016b").replace("1", "#").replace("0", ".") for row in rows]
        assert dots_of(characters.glyph(cell, rows, 16, screen)) == slow.glyph(tuple(cell), told), cell


def spans_of(dots):
    return Painted([(j, i, i + 1) for i, j in sorted(dots)], 0)


def paint_slowly(monkeypatch):
    """From here on all is painted by the slow painter."""
    def box(pel):
        return pel

    def segments(points, pel, texture):
        return slow.dashed(list(points), pel, texture.word)

    def swept(parts, pel, grid):
        dots = set()
        for start, end in parts:
            dots |= slow.line(start, end, pel, *grid)
        return iter([spans_of(dots)])
    monkeypatch.setattr(shapes, "pel_box", box)
    monkeypatch.setattr(shapes, "segments", segments)
    monkeypatch.setattr(shapes, "swept", swept)
    monkeypatch.setattr(shapes, "polyline", lambda points: slow.arc(list(points)))
    monkeypatch.setattr(shapes, "inside", lambda points, grid: spans_of(slow.polygon(list(points), *grid)))
    monkeypatch.setattr(shapes, "filled_box", lambda a, b, grid: spans_of(slow.rectangle(a, b, *grid)))
    monkeypatch.setattr(characters, "letter", lambda cell, rows, grid: spans_of(
        slow.letter(tuple(cell), texts(rows), *grid)).spans)
    monkeypatch.setattr(characters, "mosaic", lambda cell, code, apart, grid: spans_of(
        slow.mosaic(tuple(cell), code, apart, *grid)).spans)
    monkeypatch.setattr(characters, "whole", lambda cell, grid: spans_of(slow.cell_dots(tuple(cell), *grid)).spans)
    monkeypatch.setattr(characters, "underline", lambda cell, grid: spans_of(slow.underline(tuple(cell), *grid)).spans)
    monkeypatch.setattr(characters, "glyph", lambda cell, rows, wide, grid: spans_of(slow.glyph(
        tuple(cell), [format(row, "0%db" % wide).replace("1", "#").replace("0", ".") for row in rows], *grid)).spans)


def test_pages_as_the_document_has_them(monkeypatch):
    pages = [list(nap.entries(picture(Random(number), number))) for number in range(PAGES)]
    fast = [raster(entries) for entries in pages]
    paint_slowly(monkeypatch)
    for number, entries in enumerate(pages):
        assert raster(entries).inks == fast[number].inks, number


def test_shapes_in_a_glyph_have_its_grid():
    half = nap.Point((ONE // 2, ONE // 2), (0, 0), OWN)
    scale = Scale(8, 10, Grid(8, 10))
    # (it is at the lower left corner of dot 4, 5 of 8 x 10 dots, and so in that dot)
    assert spans_of_parts(shapes.painted(half, scale)) == [(5, 4, 5)]


RED, GREEN, WHITE, BLACK = 1 << 24 | 0xFF0000, 1 << 24 | 0x00FF00, 1 << 24 | 0xFFFFFF, 1 << 24
INK = "pel=0,0 colour=%s texture=%s"
TEXT = "colour=own-start text=0,0/%s/----"


def painted(*lines):
    return raster([read_line(line) for line in lines])


def at(i, j):
    """A point in the middle of a dot."""
    return "%d,%d" % (i * U + U // 2, j * U + U // 2)


def corner(i, j):
    return "%d,%d" % (i * U, j * U)


def test_a_pel_of_0_is_one_dot():
    for place in (at(3, 5), corner(3, 5), "%d,%d" % (4 * U - 1, 6 * U - 1)):
        it = painted("POINT %s pel=0,0 colour=direct:0,65535,0" % place)
        assert it.ink(3, 5) == RED and list(it.inks).count(BLACK) == 51199
        assert (it.drawn, it.total, it.colour_map) == (1, 1, {})


def test_a_frame_has_edges_of_one_thickness_wherever_it_stands():
    for x in range(0, U, 4096):
        it = painted("RECT-OUTLINED %d,%d %d,%d pel=%d,%d colour=own-start texture=0/none" % (
            10 * U + x, 10 * U + x, 60 * U + x, 50 * U + x, 3 * U // 2, 3 * U // 2))
        row = [i for i in range(256) if it.ink(i, 30) == WHITE]
        column = [j for j in range(200) if it.ink(35, j) == WHITE]
        assert (len(row), len(column)) == (4, 4), x


def test_the_last_entry_is_seen_and_clear_takes_all_away():
    box = "RECT-FILLED %s %s " % (corner(0, 0), corner(10, 10))
    it = painted(box + INK % ("direct:0,65535,0", "0/none"), box + INK % ("direct:65535,0,0", "0/none"))
    assert {it.ink(i, j) for i in range(10) for j in range(10)} == {GREEN} and it.ink(10, 9) == BLACK
    assert set(painted(box + INK % ("own-start", "0/none"), "CLEAR pen=0,0").inks) == {BLACK}
    # (RESET with 2 for the screen fills with the colour of the entry before)
    red = box + INK % ("direct:0,65535,0", "0/none")
    assert set(painted(red, "RESET 16 0 pen=0,0").inks) == {RED}
    # (BLINK, BLINK-END and the marks hold a colour too; no entry of a definition counts)
    green = "colour=direct:65535,0,0"
    for line in ("BLINK 1048576 1,1,0 " + green, "BLINK-END " + green, "BLINK-STOP " + green):
        assert set(painted(red, line, "RESET 16 0 pen=0,0").inks) == {GREEN}, line
        assert set(painted(red, "MASK A", line, "END", "RESET 16 0 pen=0,0").inks) == {RED}, line


def test_inks_of_the_map_take_the_last_colour():
    it = painted("RECT-FILLED %s %s " % (corner(0, 0), corner(1, 1)) + INK % ("front:1048576", "0/none"),
                 "MAP 1048576 0,65535,257")
    assert it.ink(0, 0) == 1048576 and it.colour_map == {1048576: 0xFF0001}
    assert it.colours() == {1048576: 0xFF0001, BLACK: 0}
    # (the second of eight greys is 255 / 7 to the nearest)
    assert painted("POINT 0,0 pel=0,0 colour=front:1048577").colours()[1048577] == 0x242424


def test_textures_hang_on_the_corner_of_the_raster():
    for start in (0, 1, 5):
        it = painted("RECT-FILLED %s %s " % (corner(start, 7), corner(60, 60)) + INK % ("pair:1,2", "8/none"))
        assert [i for i in range(start, 60) if it.ink(i, 20) == 1] == [i for i in range(start, 60) if i % 6 == 0]
        assert {it.ink(i, 20) for i in range(start, 60)} == {1, 2}
    it = painted("RECT-FILLED %s %s " % (corner(0, 0), corner(9, 9)) + INK % ("own-start", "32/none"))
    assert {(i + j) % 2 for i in range(9) for j in range(9) if it.ink(i, j) == WHITE} == {0}


def test_a_mask_fills_by_its_dots():
    mask = ["MASK A", "RECT-FILLED 0,0 4194304,4194304 " + INK % ("own-start", "0/none"), "END"]
    it = painted(*mask, "RECT-FILLED %s %s " % (corner(0, 0), corner(40, 40)) + INK % (
        "own-start", "32/%s" % corner(10, 4)))
    assert all((it.ink(i, j) == WHITE) == (i % 10 < 5 and j % 4 < 2) for i in range(40) for j in range(40))


def letter_at(it, x, y, wide=6, high=10):
    return ["".join("#" if it.ink(i, j) == WHITE else "." for i in range(x, x + wide))
            for j in reversed(range(y, y + high))]


L_SHAPE = ["......", "#.....", "#.....", "#.....", "#.....", "#.....", "#.....", "#####.", "......", "......"]


def test_a_letter_stands_in_its_cell():
    it = painted("CHAR primary 4c pen=%s " % corner(20, 30) + TEXT % "normal")
    assert letter_at(it, 20, 30) == L_SHAPE
    # (double cells are 12.8 x 20 dots, and its dots two by two)
    it = painted("CHAR primary 4c pen=%s " % corner(20, 30) + TEXT % "double")
    assert letter_at(it, 20, 30, 12, 20) == ["".join(2 * each for each in row) for row in L_SHAPE for _ in range(2)]
    # (turned to the left, what was right is above, and the corner stays)
    it = painted("CHAR primary 4c pen=%s colour=own-start text=1,0/normal/----" % corner(20, 30))
    turned = ["".join(row[5 - k] for row in L_SHAPE) for k in range(6)]
    assert letter_at(it, 10, 30, 10, 6) == turned


def test_text_follows_text_and_proportional_text_by_its_letters():
    two = ["CHAR primary 4c pen=%s " % corner(20, 30), "CHAR primary 4c pen=after "]
    it = painted(*[line + TEXT % corner(8, 12) for line in two])
    # (8 x 12 dots: a letter is one dot from each side, and the next one 8 dots on)
    assert letter_at(it, 21, 31) == letter_at(it, 29, 31) == L_SHAPE
    it = painted("CHAR primary 69 pen=%s colour=own-start text=48,0/%s/----" % (corner(20, 30), corner(6, 10)),
                 "CHAR primary 4c pen=after colour=own-start text=48,0/%s/----" % corner(6, 10))
    # (i has the second to the fourth column, so it begins in the first, and L is four further)
    assert letter_at(it, 24, 30) == L_SHAPE and it.ink(21, 38) == WHITE


def test_what_blinks_is_marked_and_the_hash_has_no_marks():
    point = "POINT 0,0 pel=0,0 colour=own-start"
    marked = painted("BLINK-START colour=own-start", point)
    assert marked.ink(0, 0) == WHITE | 1 << 25
    assert marked.hash() == painted(point).hash() != painted().hash()


def test_the_hash_by_hand():
    numbers = [1] + [5 << 20] + 51199 * [BLACK] + [5 << 20, 0x123456]
    data = b"".join(number.to_bytes(4, "big") for number in numbers)
    it = painted("MAP 5242880 %d,%d,%d" % (0x34 << 8, 0x12 << 8, 0x56 << 8), "POINT 0,0 pel=0,0 colour=front:5242880")
    assert it.hashed() == data and it.hash() == hashlib.sha256(data).hexdigest()


def test_hostile_pages_end_by_the_bound():
    chance = Random("hostile")
    star = tuple((chance.randrange(ONE), number % 2 * 200 * U) for number in range(1024))
    # (each has 1,024 edges in 200 rows, and counts 256 + 16 * 1,024 + 16 * 512 * 200 and what is inside)
    entries = [nap.Poly(True, star, (0, 0), OWN, nap.Texture(0, None))] * 400_000
    drawn = raster(entries).drawn
    least = 256 + 16384 + 1638400
    assert (1 << 26) // (least + 51200) <= drawn <= (1 << 26) // least + 1
    whole = [nap.Rect(True, (0, 0), (ONE - 1, 200 * U), (0, 0), OWN, nap.Texture(0, None))] * 400_000
    assert raster(whole).drawn == -(-(1 << 26) // (256 + 64 + 16 * 200 + 51200))
