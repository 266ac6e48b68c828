"""Pages in words: each letter once, in the order of the screen; areas, places, colours and changes; the command."""
import os
import re
import time
import unicodedata
from collections import Counter
from random import Random

import pytest
from hypothesis import given
from hypothesis import strategies as st

import entries as listed
import gallery
import naplps as nap
from command import file
from naplps import letters
from naplps.drawing.description import MOST_SHORT, colour_name, describe, place_name
from naplps.drawing.paper import escaped
from naplps.entry import read
from naplps.limits import MOST_LISTED
from naplps_pages.nearness import keys_of
from samples import BOMB, OUTSIDE
from strategies import pages

CHANCE = st.randoms(use_true_random=False)
PLACES = {(0.1, 0.9): "top left", (0.5, 0.5): "middle", (0.9, 0.1): "bottom right", (0.5, 1.0): "top",
          (0.0, 0.5): "left", (0.5, 1.2): "off the screen", (-0.1, 0.5): "off the screen"}
COLOURS = {"#000000": "black", "#ffffff": "white", "#ff0000": "red", "#00ff00": "green", "#0000ff": "blue",
           "#ffff00": "yellow", "#00ffff": "cyan", "#ff00ff": "magenta", "#808080": "grey"}
LOOK, INK = "colour=own-start text=0,0/{}/----", "pel=0,0 colour={} texture=0/none"


def described(*lines):
    return describe(list(read(lines))).lines()


def text(pen, words, size="normal"):
    """The lines of some letters."""
    return [f"CHAR primary {ord(letter):02x} pen={'after' if number else pen} {LOOK.format(size)}"
            for number, letter in enumerate(words)]


# An accent is counted by the sign that it is alone, also where it is on a letter.
ALONE = {mark: letters.ALONE[code] for code, mark in letters.COMBINING_MARKS.items()}


def signs_of(entries):
    """How often each sign is written: letters and accents apart, without blanks."""
    found: Counter = Counter()
    for entry in entries:
        if isinstance(entry, nap.Char) and entry.set in ("primary", "supplementary"):
            is_mark = letters.is_accent(entry.set, entry.code)
            found[letters.ALONE[entry.code] if is_mark else letters.letter(entry.set, entry.code)] += 1
    return Counter({sign: count for sign, count in found.items() if sign != " "})


def written(description):
    """How often each sign stands in a description, as `signs_of` counts."""
    rows = [row.text for screen in description.screens for row in screen.rows]
    rows += description.defined
    found: Counter = Counter()
    for sign in "".join(rows).replace(" ", ""):
        found.update(ALONE.get(part, part) for part in unicodedata.normalize("NFD", sign))
    return found


def test_rows_come_from_top_to_bottom_and_from_left_to_right():
    assert described(*text("419430,838860", "LOW"), *text("5033164,5872025", "B  C"), *text("838860,5872025", "A"),
                     *text("838860,3355443", "MIDDLE")) == ["top: A B C", "left: MIDDLE", "bottom left: LOW"]


def test_a_letter_that_is_drawn_twice_stands_twice_and_accents_join():
    assert described(*text("838860,5872025", "AB"), *text("838862,5872027", "AB")) == ["top left: AB AB"]
    accent = f"CHAR supplementary 42 pen=838860,5872025 {LOOK.format('normal')}"
    assert described(accent, *text("after", "e")[:1]) == ["top left: é"]
    assert described(accent) == ["top left: ´"]


def test_screens_definitions_and_what_changes():
    assert described(
        *text("838860,5872025", "ONE"), "CLEAR pen=after", *text("838860,838860", "TWO"), "GLYPH 41",
        *text("start", "IN"), "END", "BLINK-START colour=own-start", "WAIT 5", "WAIT 10",
        "BLINK 0 1,2,3 colour=front:8388608") == [
        "Screen 1 of 2", "top left: ONE", "Screen 2 of 2", "bottom left: TWO", "in a definition: IN",
        "parts of the page blink", "what is blue blinks", "the page waits 2 times, 1.5 seconds in all"]
    assert described() == described("BELL") == ["nothing is drawn"]
    assert described("WAIT 20") == ["the page waits once, 2 seconds in all"]


def test_mosaics_and_glyphs_are_counted():
    signs = [f"CHAR {name} {code} pen={'after' if number else '0,0'} {LOOK.format('normal')}" for number, (name, code)
             in enumerate((("mosaic", "21"), ("mosaic", "20"), ("mosaic", "7f"), ("drcs", "41")))]
    assert described(*signs) == ["a picture of 2 mosaics", "a picture of 1 glyph"]
    assert described("GLYPH 41", signs[0].replace("pen=0,0", "pen=start"), "END") == ["nothing is drawn"]


def test_areas_by_size_colour_and_place():
    blue, red = INK.format("direct:0,0,65535"), INK.format("direct:0,65535,0")
    assert described(
        f"RECT-FILLED 0,0 8388607,6553600 {blue}", f"RECT-FILLED 0,0 1677721,1310720 {red}",
        f"RECT-FILLED 6710886,0 8388607,1310720 {red}", f"RECT-FILLED 6290000,0 8388607,1310720 {red}",
        f"POLY-FILLED 0,6553600 8388607,6553600 0,3276800 {red}", f"LINE 0,0 1,1 {red}",
        f"RECT-FILLED 0,0 9,9 {red}", f"ARC-FILLED 2097152,3276800 6291456,3276800 2097152,3276800 {blue}") == [
        "blue over the whole screen", "a large blue area, middle", "a large red area, top",
        "a medium-sized red area, bottom right", "a small red area, bottom left", "a small red area, bottom right",
        "2 smaller shapes and lines"]
    assert described(*[f"RECT-FILLED 0,0 1677721,1310720 {red}"] * 3) == ["3 small red areas, bottom left"]


def test_names_of_places_and_of_colours():
    assert {place: place_name(*place) for place in PLACES} == PLACES
    assert {colour: colour_name(colour) for colour in COLOURS} == COLOURS


@given(CHANCE, st.integers(0, 60))
def test_each_letter_stands_once(chance, length):
    entries = listed.legal_list(chance, length)
    assert written(describe(entries)) == signs_of(entries)


CELLS = st.sets(st.tuples(st.integers(0, 20), st.integers(0, 10)), min_size=1, max_size=40)


@given(CELLS, CHANCE, st.sampled_from("ps"))
def test_letters_stand_in_the_order_of_the_screen(cells, chance, which):
    """Letters of both sets, one in each of some cells that don't touch, in whatever order these were written."""
    base, sets = (0x41, "primary") if which == "p" else (0x21, "supplementary")
    wanted = sorted(cells, key=lambda cell: (-cell[1], cell[0]))
    lines = [f"CHAR {sets} {base + number % 20:02x} pen={x * 400000},{y * 590000} {LOOK.format('normal')}"
             for number, (x, y) in enumerate(wanted)]
    chance.shuffle(lines)
    rows = describe(list(read(lines))).screens[0].rows
    assert "".join(row.text for row in rows).replace(" ", "") == "".join(
        letters.letter(sets, base + number % 20) for number in range(len(wanted)))
    assert [len(row.text.split()) for row in rows] == [
        len([cell for cell in cells if cell[1] == y]) for y in sorted({y for _, y in cells}, reverse=True)]


@given(pages())
def test_a_page_as_it_was_spelled_and_its_canonical_stream_have_one_description(library, page):
    assert describe(nap.entries(page)) == describe(nap.entries(nap.canon(page)))


def test_each_letter_of_long_lists_stands_once():
    for seed in range(40):
        entries = listed.legal_list(Random(seed), 400)
        found = describe(entries)
        assert written(found) == signs_of(entries)
        assert len(escaped(found.short()).encode("utf-8")) <= MOST_SHORT


def test_a_page_and_its_canonical_stream_have_one_description(run):
    page = os.path.join(gallery.FOLDER, "weather.nap")
    said = run(["show", "--format", "words", page])
    assert (said.returncode, said.stderr) == (0, b"") and said.stdout.startswith(b"top left: WEATHER MON 14 JAN\n")
    assert said.stdout == run(["show", "--format", "words", "-"], run(["canon", page]).stdout).stdout


INSIDE = LOOK.format("normal")
# Lists that take most of what is read of one: long runs, letters that stand apart or in one place, polygons, glyphs,
# screens, blinking colours.
MANY = {
    "a run": lambda at: f"CHAR primary {0x41 + at % 26:02x} pen={'after' if at else '0,0'} {INSIDE}",
    "letters": lambda at: f"CHAR primary 41 pen={at * 37 % 8388608},{at * 7919 % 6553600} {INSIDE}",
    "one place": lambda at: f"CHAR primary 41 pen=0,0 {INSIDE}",
    "polygons": lambda at: f"POLY-FILLED {at},{at} {at * 3},5 7,{at * 5} 9,9 {INK.format(f'direct:{at % 65536},0,0')}",
    "glyphs": lambda at: (f"GLYPH {0x21 + at % 90:02x}", f"CHAR primary 41 pen=start {INSIDE}", "END")[at % 3],
    "screens": lambda at: ("CLEAR pen=start", f"CHAR primary 41 pen=start {INSIDE}")[at % 2],
    "blinks": lambda at: f"BLINK {at * 64} 1,2,3 colour=front:{at * 64}"}
# Entries, a part of those that are read at most, and seconds of the processor for them.
ENTRIES, MOST_SECONDS = MOST_LISTED // 12 * 3, 60


@pytest.mark.parametrize("name", MANY)
def test_lists_of_most_entries_take_little(name):
    lines = [MANY[name](at) for at in range(ENTRIES)]
    began = time.process_time()
    found = describe(list(read(lines)))
    assert len(escaped(found.short()).encode("utf-8")) <= MOST_SHORT and found.lines()
    assert len(keys_of("".join(line + "\n" for line in lines).encode("ascii")).prefixes) == len(lines) * 8
    assert time.process_time() - began < MOST_SECONDS


def test_a_sketch_has_its_description(run, tmp_path):
    page = file(tmp_path, "page.nap", run(["make", "-"], b'TEXT pen=.1,.1 "A<B"\nWAIT 5').stdout)
    assert re.search("<desc>(.*?)</desc>", run(["show", page]).stdout.decode("utf-8"))[1] == (
        "bottom left: A&lt;B; the page waits once, 0.5 seconds in all; waits aren't drawn")


def test_pages_without_a_description(run, tmp_path):
    said = run(["show", "--format", "words", file(tmp_path, "refused.nap", OUTSIDE)])
    assert said.returncode == 1 and b"the description is of what comes before" in said.stderr
    bomb = run(["show", "--format", "words", file(tmp_path, "bomb.nap", BOMB)])
    assert (bomb.returncode, bomb.stdout) == (3, b"") and b"more than 200000 entries" in bomb.stderr
