"""The census: which codes stop pages, how often, and on how many pages alone."""
import csv
import io
import json

import pytest
from hypothesis import given
from hypothesis import strategies as st

from naplps.answers import Refusal
from naplps.client import Client
from naplps_pages.codes import MOST_AFTER_REFUSAL, stops
from samples import LEFT_OUT, OUTSIDE, POINT, with_parity
from scans import store_of

PAGES = {
    "fine": POINT, "one": POINT + b"\x18", "twice": b"\x18" + POINT + b"\x18", "both": POINT + b"\x18\x0fA\x1a",
    "line": b"\x0e\x3a\x52\x0f", "escapes": b"\x1b\x22\x46" + POINT + b"\x1b\x25\x41\x1b\x22\x46",
    "outside": OUTSIDE + b"\x0f\x1a", "bits": b"\xf1\xf2A\x18", "transparent": b"\x0e\x3c\x0f" + POINT}
# By what the pages were made of: first, pages, alone, times.
WANTED = {
    "CAN": (3, 4, 2, 5), "SDC": (0, 2, 0, 2), "INCREMENTAL-LINE": (1, 1, 1, 1),
    "1B 22 46 (designation of a C1 set)": (1, 1, 0, 2), "1B 25 41 (switch to another coding system)": (0, 1, 0, 1),
    "Outside": (1, 1, 0, 1), "eighth bit": (1, 1, 0, 2), "SET COLOR without a colour": (1, 1, 1, 1)}


def census(run, folder, pages, *words):
    """What the census of a store of these pages prints."""
    said = run(["files", "--census", store_of(run, folder, pages), *words])
    assert (said.stderr, said.returncode) == (b"", 0)
    return said.stdout.decode()


def test_what_stops_pages(run, tmp_path):
    row = json.loads(census(run, tmp_path, PAGES, "--json"))
    codes = row.pop("codes")
    assert row == {"accepted": 1, "refused": 8, "no_answer": 0, "in_part": 0, "other_formats": 0}
    assert {each["code"]: tuple(each[key] for key in ("first", "pages", "alone", "times")) for each in codes} == WANTED
    assert [each["code"] for each in codes[:4]] == ["CAN", "INCREMENTAL-LINE", "SET COLOR without a colour", "SDC"]


def test_for_people(run, tmp_path):
    lines = census(run, tmp_path, PAGES).splitlines()
    assert lines[0] == "9 pages: 1 accepted, 8 refused"
    assert lines[1].split() == ["What", "stops", "pages", "first", "pages", "alone", "times"]
    alone = {name: row for name, row in WANTED.items() if row[2]}
    assert {line[:44].rstrip(): tuple(map(int, line[44:].split())) for line in lines[2:-2]} == alone
    assert lines[-2] == "5 more codes stop no page alone; --json prints them."
    assert "an estimate" in lines[-1]
    assert census(run, tmp_path / "fine", {"fine": POINT}) == "1 page: 1 accepted, 0 refused\n"


def test_as_csv(run, tmp_path):
    table = list(csv.DictReader(io.StringIO(census(run, tmp_path, PAGES, "--csv"))))
    assert {row.pop("code"): tuple(map(int, row.values())) for row in table} == WANTED
    assert list(table[0]) == ["first", "pages", "alone", "times"]


@pytest.mark.parametrize("word", ["--refused", "--reason=CAN", "--kind=page", "-0"])
def test_it_is_of_all_files(run, word):
    said = run(["files", "--census", "x.db", word])
    assert said.returncode == 2 and b"--census and --" in said.stderr and b" exclude each other\n" in said.stderr


@pytest.mark.parametrize("name", LEFT_OUT)
def test_each_code_is_counted_by_its_name(run, tmp_path, name):
    code = bytes.fromhex(LEFT_OUT[name])
    row = json.loads(census(run, tmp_path, {"page": POINT + code + b"\x0f\x0e" + code + b"\x0f"}, "--json"))
    assert row["codes"] == [{"code": name, "first": 1, "pages": 1, "alone": 1, "times": 2}]


def test_files_of_other_formats_are_counted_and_not_in_the_table(run, tmp_path):
    some = {"page": POINT + b"\x18", "gif": b"GIF89a\x81\x18\x1b\x22\x46",
            "latin": "\u00e9t\u00e9 \u00e0 la mer\n".encode("latin-1") * 9}
    row = json.loads(census(run, tmp_path, some, "--json"))
    assert (row["refused"], row["other_formats"]) == (3, 2) and [each["code"] for each in row["codes"]] == ["CAN"]
    assert census(run, tmp_path, some).splitlines()[:2] == [
        "3 pages: 0 accepted, 3 refused", "2 of the refused files are of other formats, and aren't in the table."]


def test_long_and_hostile_pages_are_read_in_part(run, tmp_path):
    deep = b"\x1b\x2b\x7a\x1b\x40A\x1d\x41\x1d\x41\x1b\x45\x1d\x41\x18"
    for number, (data, codes) in enumerate((
            (POINT + b"\x18" * (MOST_AFTER_REFUSAL + 9), {"CAN"}), (deep, {"Budget"}), (b"\x18" * (4 << 20), {"CAN"}),
            (b"\x18" + deep, {"CAN"}))):
        row = json.loads(census(run, tmp_path / str(number), {"page": data}, "--json"))
        assert {each["code"] for each in row["codes"]} == codes and row["in_part"] == 1
    assert census(run, tmp_path, {"page": b"\x18" + deep}).endswith(
        "\n1 of the refused pages were read on in part, or not at all.\n")


SOME = st.lists(st.one_of(st.sampled_from([POINT, b"\x18", b"\x1a", b"\x1b\x5f", b"\x1b\x22\x46", b"\x0e\x3a\x52",
                                           b"\xff", b"\x1b\x28\x41", b"\x0e\x3c", b"\x1f\x41\x42", OUTSIDE,
                                           b"\x1b\x40A",
                                           b"\x1b\x45", b"\x1b\x2b\x7a\x1d\x41", b"A\x1b\x46\x42"]),
                          st.binary(max_size=3)), max_size=12).map(b"".join)


@given(SOME)
def test_the_first_is_the_refusals_own(naplps, data):
    program = Client(naplps)
    try:
        answer = program.ask("check", data)
    finally:
        program.close()
    if isinstance(answer, Refusal):
        first, *rest = stops(data, answer)
        if answer.code:
            assert first == answer.code
        elif answer.fault == "EighthBit":
            assert first == "eighth bit"
        elif answer.fault == "BadEscape":
            assert first.startswith("1B ") or first == "BadEscape"
        else:
            assert first in (answer.fault, "SET COLOR without a colour")
        assert all(rest)


def test_parity_is_told_as_eighth_bits(run, tmp_path):
    row = json.loads(census(run, tmp_path, {"page": with_parity(b"caf" * 9)}, "--json"))
    assert [each["code"] for each in row["codes"]] == ["eighth bit"]
