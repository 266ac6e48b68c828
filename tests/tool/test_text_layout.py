"""Where text stands in a sketch: lines, words, fields. Expected places come from docs/SKETCH.md and its cells."""
from random import Random

import pytest
from hypothesis import given, settings
from hypothesis import strategies as st

from naplps import drawing
from naplps.dots.characters import SIDE
from naplps.dots.walk import DotWalk
from naplps.drawing.colours import Palette
from naplps.drawing.measure import HEIGHT, WIDTH
from naplps.drawing.paper import Paper
from naplps.drawing.walk import MOST_DRAWN, Walk
from naplps.entry import ONE, Entries, read_line
from naplps.faults import NotALine
from sketches import elements, harmless, numbers

# The cell of normal text, as parts of the side of the unit screen.
WIDE, HIGH = 1 / 40, 5 / 128
DOT = 1 / 256
SCROLLS = "scrolling isn't drawn"


def place(x, y):
    """A place, by parts of the side."""
    return "%d,%d" % (round(x * ONE), round(y * ONE))


def field(x, y, columns, rows):
    """A field for a number of columns and rows, by its lower left corner."""
    return ["FIELD %s %s pen=after" % (place(x, y), place(x + columns * WIDE, y + rows * HIGH))]


def typed(text, flags="----", pen="after", first=0):
    """The entries of some text."""
    lines = []
    for sign in text:
        lines.append(f"CHAR primary {ord(sign):02x} pen={pen} colour=own-start text={first},0/normal/{flags}")
        pen = "after"
    return lines


def moved(what):
    """The entry of a move."""
    return ["MOVE %s pen=after colour=own-start text=0,0/normal/----" % what]


def rows(lines, x, top):
    """The text of a drawing: row, column and letters of each piece, by the corner at which the first row begins."""
    svg = drawing.draw(lines).svg
    harmless(svg)
    out = []
    for each in elements(svg, "text")[:-1]:
        left, base = numbers(each.attrib["transform"])[-2:]
        size = HIGH * WIDTH
        row = (base + 0.22 * size - (HEIGHT - top * WIDTH)) / size - 1
        out.append((round(row, 2), round((left / WIDTH - x) / WIDE, 2), each.text))
    return out


def notes(lines):
    """What the drawing's description says."""
    return "".join(each.text for each in elements(drawing.draw(lines).svg, "desc"))


def test_a_word_goes_to_the_next_line_whole():
    lines = field(0.1, 0.3, 10, 4) + typed("THE FERRY ANNOUNCED IT", "--w-")
    assert rows(lines, 0.1, 0.3 + 4 * HIGH) == [(0, 0, "THE FERRY "), (1, 0, "ANNOUNCED "), (2, 0, "IT")]


@pytest.mark.parametrize("columns, entries, wanted", [
    (10, typed("THE FERRY ANNOUNCED IT"), ["THE FERRY ", "ANNOUNCED ", "IT"]),
    (8, typed("THE FERRY ANNOUNCED IT"), ["THE FERR", "Y ANNOUN", "CED IT"]),
    (9, typed("THE FERRY  GOES", "--w-"), ["THE FERRY", "GOES"]),
    (9, typed("THE FERRY ", "--w-") + moved("APR") + moved("APD") + typed("GOES", "--w-"), ["THE FERRY", "GOES"]),
    (8, typed("A LONGESTWORD B", "--w-"), ["A LONGES", "TWORD B"])],
    ids=["without the flag", "words are split", "a blank that has no room is left out", "and where moves follow it",
         "a word longer than a line is split"])
def test_lines_of_a_field(columns, entries, wanted):
    lines = field(0.1, 0.3, columns, 4) + entries
    assert rows(lines, 0.1, 0.3 + 4 * HIGH) == [(row, 0, text) for row, text in enumerate(wanted)]


def test_a_word_is_one_over_colours_and_accents():
    lines = field(0.1, 0.3, 8, 4) + typed("ICE CAF", "--w-")
    lines += ["CHAR supplementary 42 pen=after colour=own-start text=0,0/normal/--w-"]
    lines += [line.replace("own-start", "direct:0,65535,0") for line in typed("ES", "--w-")]
    found = rows(lines, 0.1, 0.3 + 4 * HIGH)
    assert [(row, column) for row, column, _ in found][:2] == [(0, 0), (1, 0)]
    assert [text for _, _, text in found] == ["ICE ", "CAF", "\u00c9S"]


def test_a_word_ends_where_text_begins_elsewhere():
    lines = field(0.1, 0.3, 8, 4) + typed("ICE CAF", "--w-") + typed("XXX", "--w-", place(0.7, 0.7))
    assert rows(lines, 0.1, 0.3 + 4 * HIGH)[0] == (0, 0, "ICE CAF")


def test_text_stays_in_its_field():
    lines = field(0.1, 0.3, 5, 3) + typed("AAAAABBBBBCCCCCDDDDDE")
    assert rows(lines, 0.1, 0.3 + 3 * HIGH) == [
        (0, 0, "AAAAA"), (1, 0, "BBBBB"), (2, 0, "CCCCC"), (0, 0, "DDDDD"), (1, 0, "E")]
    assert SCROLLS not in notes(lines)


def test_a_move_down_from_the_last_line_goes_to_the_first():
    lines = field(0.1, 0.3, 5, 2) + typed("A") + moved("APD") + typed("B") + moved("APD") + typed("C")
    assert rows(lines, 0.1, 0.3 + 2 * HIGH) == [(0, 0, "A"), (1, 1, "B"), (0, 2, "C")]


def test_text_that_scrolls_ends_at_the_last_line():
    lines = field(0.1, 0.3, 5, 2) + typed("AAAAABBBBBCCCCC", "---s")
    assert rows(lines, 0.1, 0.3 + 2 * HIGH) == [(0, 0, "AAAAA"), (1, 0, "BBBBB")]
    assert SCROLLS in notes(lines)
    again = lines + typed("Z", "---s", place(0.1, 0.3))
    assert rows(again, 0.1, 0.3 + 2 * HIGH)[-1] == (1, 0, "Z")


def test_text_below_a_field_that_was_put_there_is_drawn():
    lines = field(0.1, 0.3, 5, 2) + typed("AB", "---s", place(0.1, 0.1))
    assert rows(lines, 0.1, 0.1 + HIGH) == [(0, 0, "AB")] and SCROLLS not in notes(lines)


def test_text_of_the_screen_stays_on_it():
    lines = typed("A", pen=place(0, 0.01)) + moved("APD") + typed("B")
    assert rows(lines, 0, HEIGHT / WIDTH)[1] == (0, 1, "B")


@given(text=st.text("AB ", max_size=60), columns=st.integers(1, 12), count=st.integers(1, 6),
       flags=st.sampled_from(["----", "--w-", "---s", "--ws"]))
@settings(max_examples=200, deadline=None)
def test_all_text_lies_in_its_field(text, columns, count, flags):
    lines = field(0.1, 0.3, columns, count) + typed(text, flags)
    for row, column, some in rows(lines, 0.1, 0.3 + count * HIGH):
        assert -0.01 <= row <= count - 0.99 and column >= -0.01
        assert column + len(some) <= columns + DOT / WIDE


@given(text=st.text("ABC   ", max_size=60), columns=st.integers(6, 20))
@settings(max_examples=200, deadline=None)
def test_words_that_fit_are_never_split(text, columns):
    lines = field(0.1, 0.1, columns, 15) + typed(text, "--w-")
    words = text.split()
    if all(len(word) <= columns for word in words):
        assert "".join(some + "\n" for _, _, some in rows(lines, 0.1, 0.1 + 15 * HIGH)).split() == words


# The word of TEXT for proportional spacing, and the columns of some letters, from the first dot to the last one.
PROPORTIONAL, COLUMNS = 48, {"W": 5, "i": 3, "l": 3, " ": 3, ".": 2, "!": 1}


@pytest.mark.parametrize("path, sign", [(0, 1), (4, -1)])
def test_letters_in_proportional_spacing_advance_by_their_columns(path, sign):
    text, x, wanted = "Wi!. lW", 0.5, []
    for letter in text:
        place_wide, wide = ((columns + 1) / 6 * WIDE for columns in (COLUMNS[letter], max(3, COLUMNS[letter])))
        wanted.append((letter, x + (place_wide - wide) / 2, wide))
        x += sign * place_wide
    found = elements(drawing.draw(typed(text, pen=place(0.5, 0.5), first=PROPORTIONAL + path)).svg, "text")[:-1]
    drawn = [(each.text, numbers(each.attrib["transform"])) for each in found]
    full = drawn[0][1][0] / WIDE
    assert [(letter, round(left / WIDTH, 4), round(across / full, 4)) for letter, (across, *_, left, _) in drawn] == [
        (letter, round(x, 4), round(wide, 4)) for letter, x, wide in wanted if letter != " "]


def test_words_in_proportional_spacing_are_measured_so():
    # (1 for W, 4/6 for the blank, and 3 for llll, of which the last needs a cell)
    for first, wanted in ((PROPORTIONAL, [0.0] * 5), (0, [0.0, 1.0])):
        svg = drawing.draw(field(0.1, 0.3, 5, 2) + typed("W llll", "--w-", first=first)).svg
        bases = [numbers(each.attrib["transform"])[-1] for each in elements(svg, "text")[:-1]]
        assert [round((base - bases[0]) / (HIGH * WIDTH), 2) for base in bases] == wanted


def test_mosaics_in_proportional_spacing_are_one_path():
    look = "colour=own-start text=48,0/normal/----"
    svg = drawing.draw([f"CHAR mosaic 7f pen={pen} {look}" for pen in ("0,0", "after", "after")]).svg
    assert len(elements(svg, "path")) == 1


def test_the_sketch_and_the_raster_put_proportional_letters_at_the_same_places():
    chance, compared = Random(93), 0
    for _ in range(300):
        first = 48 + chance.choice([0, 0, 4, 8, 12])
        lines = field(0.2, 0.2, chance.randrange(3, 20), chance.randrange(1, 8))
        for _ in range(chance.randrange(1, 60)):
            of = chance.choice(["primary"] * 6 + ["supplementary", "supplementary", "mosaic", "drcs"])
            flags, code = chance.choice(["----", "--w-"]), chance.choice([0x20, chance.randrange(0x20, 0x80)])
            lines.append(f"CHAR {of} {code:02x} pen=after colour=own-start text={first},0/normal/{flags}")
        walk = Walk(lines, Palette([]), Paper(lambda: "n"))
        walk.draw()
        dots = DotWalk([read_line(line) for line in lines])
        compared += sum(1 for _ in dots.steps())
        for mine, theirs in ((walk.writing.cursor.x, dots.page.writing.cursor.x),
                             (walk.writing.cursor.y, dots.page.writing.cursor.y)):
            assert abs(mine - theirs / SIDE) < 1e-6
    assert compared > 5_000


def test_a_glyph_has_a_field_of_its_own():
    lines = field(0.5, 0.5, 2, 1) + ["GLYPH 21"] + typed("AB", pen="start") + ["END"] + typed("C")
    texts = [each.text for each in elements(drawing.draw(lines).svg, "text")]
    assert texts[:2] == ["AB", "C"]


def test_lines_are_read_once(monkeypatch):
    read = []

    def read_line(line, reads=drawing.walk.read_line):
        read.append(line)
        return reads(line)
    monkeypatch.setattr("naplps.entry.read_line", read_line)
    lines = field(0.1, 0.3, 5, 2) + typed("AB CD", "--w-") + ["MAP 1048576 0,65535,0", "BELL"]
    entries = Entries(lines)
    drawing.draw(entries)
    assert len(list(entries)) == len(lines) and sorted(read) == sorted(lines)


def test_no_more_entries_are_kept_than_are_drawn():
    entries = Entries(["BELL"] * (MOST_DRAWN + 5) + ["not a line"])
    assert drawing.draw(entries).drawn == MOST_DRAWN
    with pytest.raises(NotALine):
        list(entries)
