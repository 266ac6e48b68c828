"""Rows of characters: what is told together, and that all of it is told."""
import json
import os
import re

import pytest
from hypothesis import given
from hypothesis import strategies as st

from naplps_pages.listing import MOST_IN_ROW, folded
from naplps_pages.report.drawing import shortened
from reports import held
from scans import tree

LOOK = "colour=own-start text=0,0/normal/----"
OTHER = "colour=front:1048576 text=0,0/normal/----"
ROW = re.compile(r'CHAR (?:"(?P<text>(?:[^"\\]|\\.)*)"|(?P<set>\w+)(?P<codes>(?: [0-9a-f]{2})+)) x(?P<count>\d+) '
                 r'(?P<pen>pen=\S+) (?P<rest>.+)')
LINES = st.lists(st.one_of(
    st.builds("CHAR {} {:02x} pen={} {}".format, st.sampled_from(["primary", "mosaic"]), st.sampled_from(
        [0x20, 0x22, 0x41, 0x5C, 0x78, 0x31, 0x7F]), st.sampled_from(["after", "after", "1,2"]),
        st.sampled_from([LOOK, LOOK, OTHER])),
    st.sampled_from(["BELL", "MOVE APF pen=after " + LOOK])), max_size=40)


def unfolded(row):
    """The lines that a row tells."""
    told = ROW.fullmatch(row)
    if told is None:
        return [row]
    if told["text"] is not None:
        some = json.loads('"%s"' % told["text"].replace("\\x7f", "\\u007f"))
        name, codes = "primary", ["%02x" % ord(sign) for sign in some]
    else:
        name, codes = told["set"], told["codes"].split()
    assert len(codes) == int(told["count"])
    pens = [told["pen"]] + ["pen=after"] * (len(codes) - 1)
    return ["CHAR %s %s %s %s" % (name, code, pen, told["rest"]) for code, pen in zip(codes, pens)]


@given(LINES)
def test_rows_tell_all_lines(lines):
    rows = [*folded(lines)]
    assert [line for row in rows for line in unfolded(row.line)] == lines
    assert [len(unfolded(row.line)) for row in rows] == [row.entries for row in rows]


def typed(text, pen="1,2", look=LOOK):
    return ["CHAR primary %02x pen=%s %s" % (ord(sign), "after" if at else pen, look) for at, sign in enumerate(text)]


def test_letters_of_one_look_are_a_row():
    assert [row.line for row in folded([*typed("CITY COUNCIL"), "BELL", *typed("A", "after")])] == [
        'CHAR "CITY COUNCIL" x12 pen=1,2 ' + LOOK, "BELL", "CHAR primary 41 pen=after " + LOOK]


@pytest.mark.parametrize("lines, count", [
    (typed("AB") + typed("CD", "after", OTHER), 2), (typed("AB") + typed("CD", "3,4"), 2),
    (typed("AB") + ["CHAR mosaic 41 pen=after " + LOOK] * 2, 2), (typed("AB") + typed("CD", "after"), 1),
    (typed("A" * (MOST_IN_ROW + 1)), 2), ([], 0), (["CHAR"] * 3, 3), (["CHAR primary"] * 3, 3)])
def test_a_row_ends_where_anything_differs(lines, count):
    assert len([*folded(lines)]) == count


PAGE = bytes.fromhex("0E 24 52 40 40 0F") + b'CITY "HALL"' + bytes.fromhex("07 41 1B 46 43")


def test_explain_tells_letters_in_a_row(run):
    lines = run(["check", "--explain", "-"], PAGE).stdout.decode().splitlines()
    entry = 'CHAR "CITY \\"HALL\\"" x11 pen=4194304,4194304 ' + LOOK
    assert lines[4] == "       6  43 49 54 59 20 22 48 41  characters                 " + entry
    assert lines[5] == "      14  4c 4c 22"
    assert lines[6].split()[-1] == "BELL"
    assert lines[-1].endswith('REPEAT                     CHAR "AAA" x3 pen=after ' + LOOK)


def test_each_letter_is_told_where_all_is_asked_for(run):
    codes = json.loads(run(["check", "--explain", "--json", "-"], PAGE).stdout)["codes"]
    assert sum(line.startswith("CHAR primary ") for row in codes for line in row["entries"]) == 11 + 1 + 3
    assert [row["entries"] for row in codes if row["offset"] == 7] == [["CHAR primary 49 pen=after " + LOOK]]
    assert len(run(["list", "-"], PAGE).stdout.splitlines()) == 11 + 1 + 1 + 3


def test_a_report_tells_letters_in_a_row(run, tmp_path):
    store, html = (os.path.join(str(tmp_path), name) for name in ("pages.db", "report.html"))
    assert run(["scan", tree(str(tmp_path / "pages"), {"page.nap": PAGE}), "-o", store]).returncode == 0
    assert run(["report", store, "-o", html]).returncode == 0
    block = held(html)[1][0]
    assert block["counts"] == [[11, 1, 4]] and block["entries"] == [16] and block["first"] == [0]
    told = block["lines"][0].split("\n")
    assert told[0] == 'CHAR "CITY\u00a0\\"HALL\\"" x11 pen=4194304,4194304 ' + LOOK and told[1] == "BELL"


def test_blanks_in_quotation_marks_are_kept_apart():
    assert shortened(['CHAR "A  B" x4 pen=1,2 look', 'CHAR "A  B" x5 pen=1,2 look']) == [
        'CHAR "A\u00a0\u00a0B" x4 pen=1,2 look', "CHAR  x5  "]
