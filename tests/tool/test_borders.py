"""Bytes that draw, and borders between pages: tables of streams that are written by hand from the rules."""
from pathlib import Path

import pytest
from hypothesis import given
from hypothesis import strategies as st

import gallery
from command import TOP
from naplps.treating.borders import clears_again, codes, content, draws, outside, pages_in, pieces, text_length, tokens
from old_files import in_eight_bits
from samples import MACRO, POINT, with_parity
from spelled import logo

from dev.vectors.crate_rows import rows_of
from dev.vectors.notation import bytes_of
from dev.vectors.rows import files, vectors_of

LOGO = logo()
# What draws, and what doesn't, each read as from the beginning of a page.
DRAW = {
    "a point": "0E 26 52", "points of macros' end": "0E 27 40 40 40", "a line": "0E 28 52 40 40", "an arc": "0E 2C 49",
    "a rectangle": "0E 30 49", "a polygon": "0E 37 52 40 40 49", "RESET and a point": "0E 20 40 26 52",
    "a mosaic by single shift": "1D 41", "a mosaic by locking shift": "1B 6F 41", "a mosaic in G0": "1B 28 7D 41",
    "a DRCS in G1": "1B 29 7B 0E 41", "DEF MACRO": "1B 40 41 42 1B 45", "DEFP MACRO": "1B 41 41 07 1B 45",
    "DEF DRCS": "1B 43 41 1B 45", "DEF TEXTURE": "1B 44 41 1B 45", "PDI in G0": "1B 28 57 26 52",
    "PDI in G2": "1B 2A 20 57 1B 6E 26 52", "text before SO": "41 0E", "text behind ESC": "1B 48 41",
    "an accent": "19 42", "text and SS3": "41 1D 41", "text behind SO and SI": "0E 0F 41", "a space": "1B 59 20",
    "text by a set": "1B 6E 41", "a byte above 7F before": "FF 0E 26 52 FF", "among fills": "E5 E5 0E 26 52 40 40 E5",
    "with a stray word": "0E 40 26 52", "with a code left out": "0E 39 52 26 52", "behind CAN": "18 0E 26 52",
    "a broken escape before": "1B 1B 0E 26 52"}
NOT = {
    "nothing": "", "text alone": "48 45 4C 4C 4F 0D 0A", "NUL": "00 00", "a place and SI": "1C 41 42 0F",
    "RESET alone": "0E 20 7F 4F", "DOMAIN, SET, colour": "0E 21 48 24 52 3C 52", "FIELD": "0E 38", "WAIT": "0E 3D 41",
    "a point without its place": "0E 26", "SS3 of SI": "1D 0F", "END": "1B 45", "ESC of an unknown set, no text":
    "1B 28 41", "DEF TEXTURE of no mask": "1B 44 51", "CS": "0C", "SO": "0E", "announcer": "1B 22 46",
    "separators": "18 1F 41 42 1A",
    "E5": "E5 E5 E5", "noise": "00 FF 1B 9F 41 E2 19 80", "text in PDI's place": "52 40",
    "PDI in SS3": "1B 2B 57 1D 26", "cut": "1B", "cut SS3": "41 1D", "text among bytes above 7F": "E5 1B 48 41 E5",
    "two bytes of SO and of a shape": "26 52 0F"}
ONE, TWO, TEXT = "0E 26 52 40 40 ", "0C 0E 33 49 40 40 49 40 40 0F ", "48 45 4C 4C 4F "
# Captures: how many pages each holds, and where its parts are: offset, length, the bytes before, why, whether it draws.
CAPTURES = {
    "NSR": (ONE + "1F " + TWO, [(0, 5, 0, "the beginning", 1), (6, 10, 1, "NSR", 1)]),
    "NSR with its place": (ONE + "1F 41 52 " + TWO, [(0, 5, 0, "the beginning", 1), (8, 10, 3, "NSR", 1)]),
    "CAN": (ONE + "18 " + TWO, [(0, 5, 0, "the beginning", 1), (6, 10, 1, "CAN", 1)]),
    "1A": (ONE + "1A " + TWO, [(0, 5, 0, "the beginning", 1), (6, 10, 1, "1A", 1)]),
    "1B 22": (ONE + "1B 22 46 " + TWO, [(0, 5, 0, "the beginning", 1), (8, 10, 3, "1B 22", 1)]),
    "1B 25": (ONE + "1B 25 41 " + TWO, [(0, 5, 0, "the beginning", 1), (8, 10, 3, "1B 25", 1)]),
    "several": (ONE + "18 1F 1B 22 46 " + TWO, [(0, 5, 0, "the beginning", 1), (10, 10, 5, "NSR", 1)]),
    "fills": (ONE + "1A 00 E5 F6 18 " + TWO, [(0, 5, 0, "the beginning", 1), (10, 10, 5, "CAN", 1)]),
    "fills before": (ONE + "E5 E5 1A " + TWO, [(0, 5, 0, "the beginning", 1), (8, 10, 3, "1A", 1)]),
    "line ends": (ONE + "1A 0D 0A 1A " + TWO, [(0, 5, 0, "the beginning", 1), (9, 10, 4, "1A", 1)]),
    "in front and at the end": ("18 " + ONE + "18 " + TWO + "1A 1A", [(1, 5, 1, "the beginning", 1),
                                                                      (7, 10, 1, "CAN", 1)]),
    "text in front": (TEXT + "18 " + ONE + "18 " + TWO, [(6, 5, 6, "the beginning", 1), (12, 10, 1, "CAN", 1)]),
    "text between": (ONE + "18 " + TEXT + "18 " + TWO, [(0, 5, 0, "the beginning", 1), (6, 5, 1, "CAN", 0),
                                                       (12, 10, 1, "CAN", 1)]),
    "text behind": (ONE + "18 " + TWO + "1A " + TEXT, [(0, 5, 0, "the beginning", 1), (6, 10, 1, "CAN", 1)]),
    "three": (ONE + "1F " + ONE + "18 " + ONE, [(0, 5, 0, "the beginning", 1), (6, 5, 1, "NSR", 1),
                                                (12, 5, 1, "CAN", 1)])}
NO_CAPTURES = {
    "a page": ONE, "pages without a separator": TWO + TWO, "a separator in front": "18 " + ONE,
    "a separator behind": ONE + "1A", "text and a page": TEXT + "18 " + ONE, "a page and text": ONE + "1A " + TEXT,
    "in the body of a macro": ONE + "1B 40 41 1F 0E 26 52 1B 45 " + ONE,
    "in a body that isn't ended": ONE + "1B 40 41 1F " + ONE, "RESET alone behind": ONE + "18 0E 20 7F",
    "E5 behind": ONE + "1A E5 E5", "noise": "FF 8E A0 FF 18 C0 9F FF 1F E0 FF " + ONE,
    "an announcer that isn't whole": ONE + "1B 22"}


@pytest.mark.parametrize("name", DRAW)
def test_bytes_that_draw(name):
    assert draws(bytes.fromhex(DRAW[name]))


@pytest.mark.parametrize("name", NOT)
def test_bytes_that_do_not_draw(name):
    assert not draws(bytes.fromhex(NOT[name]))


@pytest.mark.parametrize("name", CAPTURES)
def test_a_capture_is_cut_at_its_borders(name):
    data, wanted = bytes.fromhex(CAPTURES[name][0]), CAPTURES[name][1]
    assert [tuple(each) for each in pieces(data)] == wanted
    assert pages_in(data) == sum(each[4] for each in wanted)
    for odd in (False, True):
        if not any(byte >= 0x80 for byte in data):
            assert [tuple(each) for each in pieces(with_parity(data, odd))] == wanted


@pytest.mark.parametrize("name", NO_CAPTURES)
def test_nothing_else_is_a_capture(name):
    data = bytes.fromhex(NO_CAPTURES[name])
    assert pieces(data) == [] and pages_in(data) == 0


def test_captures_of_the_eight_bit_form():
    wide = in_eight_bits(LOGO)
    assert draws(wide) and [each[:2] for each in pieces(wide + b"\x1f\x41\x42" + wide)] == [
        (0, len(wide)), (len(wide) + 3, len(wide))]
    assert not pieces(wide) and not pieces(wide + b"\x1a\x1a")


def test_no_page_of_the_examples_no_vector_and_no_row_is_a_capture():
    for name, data in {**gallery.pages(), "logo": LOGO, "macro": MACRO}.items():
        assert pages_in(data) == 0 and draws(data), name
    streams = [bytes_of(vector.stream) for file in files() for vector in vectors_of(file)]
    streams += [row.stream for row in rows_of(Path(TOP, "crates", "nap_rows", "data"))]
    assert len(streams) > 4000 and [data.hex() for data in streams if pages_in(data)] == []


@pytest.mark.parametrize("text, wanted", [
    (ONE + "0C", True), (ONE + "20 48", True), (ONE + "0F 48 0E 20 7F", True), (TWO + TWO, True),
    (ONE + "20 40", False), (ONE + "20 58", False), (ONE + "20", False), ("0C " + ONE, False),
    ("0E 20 7F 26 52", False), (TEXT + "0C", False), (ONE + "1B 40 41 0C 1B 45", False), (ONE + "0F 20 48", False)])
def test_a_page_that_clears_the_screen_again(text, wanted):
    assert clears_again(bytes.fromhex(text)) is wanted and not pieces(bytes.fromhex(text))


def test_what_is_text_alone():
    assert text_length(b"\x18CONNECT 1200\r\n\x18") == 12 and text_length(b"\x1aNO CARRIER\r\n\x1a\0\0") == 10
    for other in (b"", b"\x18\x1a", b"\r\n", b"A\x0e", b"A\xe0", POINT):
        assert text_length(other) == 0
    assert content(b"\x18\0\xe5A\x1f\x41\x42\x0e\x1a\0") == b"A\x1f\x41\x42\x0e"


SOME = st.lists(st.one_of(st.sampled_from([POINT, b"\x1f", b"\x18", b"\x1a", b"\x1b\x22\x46", b"\x1b\x40A", b"\x1b\x45",
                                           b"\0", b"\xe5", b"AB", b"\x0e", b"\x0f", b"\x1dA"]), st.binary(max_size=4)),
                max_size=30).map(b"".join)


@given(SOME)
def test_codes_have_all_bytes_and_are_found_outside_of_bodies(data):
    at = 0
    for each in codes(data):
        assert each.start == at < each.end
        at = each.end
    assert at == len(data)
    for found in outside(data, tokens(rb"\x1f")):
        assert data[found.start()] == 0x1F


@given(SOME)
def test_parts_and_what_is_between_them_are_the_source(data):
    at, some = 0, pieces(data)
    for each in some:
        assert each.offset - each.before == at
        at = each.end
    assert at <= len(data) and len(some) != 1 and (not some or some[0].draws and some[-1].draws)
    assert not any(draws(data[each.offset - each.before:each.offset]) for each in some if not data.count(b"\x1b\x40"))
