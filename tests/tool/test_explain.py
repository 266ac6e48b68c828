"""Explanations: entries beside the bytes that added them, and reasons."""
import json

import pytest
from hypothesis import given
from hypothesis import strategies as st

from command import file
from naplps_pages import refusals
from naplps_pages.codes import MOST_STEPS, cut, rows_with_lines
from naplps_pages.explaining import hexdump
from samples import MACRO, OUTSIDE, POINT_AND_BELL


def rows_of(run, data):
    """The rows of an explanation, as (offset, bytes, name, entry)."""
    lines = run(["check", "--explain", "-"], data).stdout.decode().splitlines()
    return [(line[:8].strip(), line[10:33].strip(), line[35:61].strip(), line[62:]) for line in lines[1:]]


def test_the_point_stands_beside_its_operands_and_the_bell_beside_its_byte(run):
    assert rows_of(run, POINT_AND_BELL) == [
        ("0", "0e", "SO", ""), ("1", "26 52 40 40", "POINT ABS", "POINT 4194304,4194304 pel=0,0 colour=own-start"),
        ("5", "07", "BEL", "BELL")]


@pytest.mark.parametrize("data, at, wanted", [
    (MACRO, -1, ("19 41", "call of macro 41")), (bytes.fromhex("0E 26 52 49"), 1, ("26 52 49", "POINT ABS")),
    (bytes.fromhex("1B 40 41 0E 26 1B 45 1B 2A 7A 19 41 52 40 40"), -1, ("52 40 40", "POINT ABS"))],
    ids=["of a macro", "at the end", "a run that begins in a macro"])
def test_a_point_stands_beside_the_bytes_that_add_it(run, data, at, wanted):
    rows = rows_of(run, data)
    assert rows[at][1:3] == wanted and rows[at][3].startswith("POINT ")
    if data == MACRO:
        assert [row[2] for row in rows] == ["DEF MACRO", "body", "END", "macro set into G2", "call of macro 41"]


def test_long_runs_have_several_lines_and_each_entry_one(run):
    rows = rows_of(run, bytes.fromhex("0E 26") + bytes.fromhex("52 40 40") * 5)
    assert [row[0] for row in rows] == ["0", "1", "9", "", "", ""]
    assert sum(row[3].startswith("POINT") for row in rows) == 5


def test_codes_without_effect_share_a_row(run):
    assert [(row[0], row[2]) for row in rows_of(run, b"\0" * 11 + b"\x07\x01\x02\0")] == [
        ("0", "NUL"), ("8", ""), ("11", "BEL"), ("12", "control without effect"), ("14", "NUL")]


def test_of_very_many_codes_the_rest_is_told(run):
    page = b"\0" * MOST_STEPS + b"\0" * 999 + POINT_AND_BELL
    rows = rows_of(run, page)
    assert rows[-3][:3] == (str(MOST_STEPS), "00 00 00 00 00 00 00 00", "the rest, which isn't cut")
    at = str(len(page) - 1)
    assert [(row[0], row[3][:5]) for row in rows[-2:]] == [(at, "POINT"), (at, "BELL")]


def test_a_refused_page(run, tmp_path):
    said = run(["check", "--explain", file(tmp_path, "page", OUTSIDE)])
    text = said.stdout.decode()
    assert said.returncode == 1 and "page: refused 10 Outside at 3" in text
    assert "       1  26 52                    POINT ABS                  POINT 4194304,4194304" in text
    lines = text.splitlines()
    at = lines.index("The bytes around 3:")
    assert lines[at + 1] == "       0  0e 26 52 28 7f                                   |.&R(.|"
    assert lines[at + 2].index("^^") == lines[at + 1].index("28")
    assert lines[at + 2].rindex("^") == lines[at + 1].index("|") + 1 + 3
    assert "The code there: LINE ABS" in lines
    known = refusals.load()[10]
    flat = " ".join(text.split())
    assert "What it means: " + known.means in flat and "What can be done: " + known.do in flat


@pytest.mark.parametrize("data, name", [
    ("18", "CAN"), ("1B 22 46", "designation of a C1 set"), ("1B 25 41", "switch to another coding system"),
    ("0E 3A 52", "INCREMENTAL LINE"), ("1B 5F", "UNPROTECT"), ("FF", "byte of the eight-bit code"),
    ("0E 40", "word without an opcode"), ("1B 40 41", "none, the page has ended"), ("1B 42 41", "DEFT MACRO")])
def test_the_code_at_the_place_is_named(run, data, name):
    assert "\nThe code there: %s\n" % name in run(["check", "--explain", "-"], bytes.fromhex(data)).stdout.decode()


@pytest.mark.parametrize("length, place", [(0, 0), (5, 0), (5, 4), (16, 16), (40, 16), (32, 31), (33, 32)])
def test_the_caret_is_under_the_byte(length, place):
    data = b"A" * length
    lines = list(hexdump(data, 0, place))
    carets = [i for i, line in enumerate(lines) if "^" in line]
    assert len(carets) == 1
    above, caret = lines[carets[0] - 1], lines[carets[0]]
    column = place - (carets[0] - 1) * 16
    assert caret.index("^^") == 10 + 3 * column and caret.rindex("^") == above.index("|") + 1 + column


@given(st.binary(max_size=60))
def test_codes_have_no_gap_and_stay_in_the_page(data):
    assert b"".join(data[row.start:row.end] for row in rows_with_lines(data, [], None)) == data
    for code in cut(data):
        assert 0 <= code.start <= code.end <= len(data) and code.acts <= len(data)


def test_macros_that_call_themselves_end():
    data = bytes.fromhex("1B 2A 7A 1B 40 41 19 41 19 41 1B 45 19 41")
    assert rows_with_lines(data, [], None)[-1].name == "call of macro 41"


def test_a_row_for_each_code_in_json(run):
    page = MACRO + b"\x0fHI" + POINT_AND_BELL
    row = json.loads(run(["check", "--explain", "--json", "-"], page).stdout)
    lines = run(["list", "-"], page).stdout.decode().splitlines()
    assert (row["name"], row["status"], row["entries"], row["help"]) == ("-", "accepted", len(lines), None)
    codes = row["codes"]
    assert b"".join(bytes.fromhex(code["bytes"]) for code in codes) == page
    assert [code["offset"] for code in codes] == [
        sum(len(code["bytes"]) // 2 for code in codes[:at]) for at in range(len(codes))]
    assert [line for code in codes for line in code["entries"]] == lines and len(codes) > len(lines)


def test_json_of_a_refused_page_has_what_the_manual_says(run):
    row = json.loads(run(["check", "--explain", "--json", "-"], OUTSIDE).stdout)
    known = refusals.load()[10]
    assert (row["status"], row["number"], row["place"]) == ("refused", 10, 3)
    assert (row["help"]["means"], row["help"]["do"]) == (known.means, known.do)
    assert b"".join(bytes.fromhex(code["bytes"]) for code in row["codes"]) == OUTSIDE[:3]
