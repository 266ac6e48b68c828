"""Captures, cut into their pages."""
import hashlib
import json
import os
import re
from pathlib import Path
from random import Random

import pytest
from hypothesis import given
from hypothesis import strategies as st

from box_runs import note_of
from command import file
from naplps.treating.borders import pieces
from pictures import picture
from samples import POINT, POINT_AND_BELL, with_parity

CLEAR = b"\x0c" + POINT
SPLIT = ["fix", "--only", "split"]
FRONTS = {"NSR": b"\x1f", "NSR and place": b"\x1f\x41\x42", "CAN, NSR": b"\x18\x1f", "1B 22": b"\x1b\x22\x46",
          "1B 25": b"\x1b\x25\x41", "CAN, 1B 22, 1B 25": b"\x18\x1b\x22\x46\x1b\x25\x41",
          "NSR, 1B 22": b"\x1f\x1b\x22\x46"}


@pytest.mark.parametrize("name", FRONTS)
def test_a_capture_is_cut_where_its_pages_begin(run, tmp_path, name):
    chance, front = Random(5), FRONTS[name]
    some = [front + b"\x0c" + picture(chance, number).lstrip(b"\x0c") for number in range(20)]
    path, to = file(tmp_path, "capture.nap", b"".join(some)), os.path.join(str(tmp_path), "to")
    for _ in range(2):                                          # (what is there with the same bytes stays)
        said = run([*SPLIT, path, "-o", to])
        assert (said.stderr, said.returncode) == (b"", 0)
    made = ["capture-%03d.nap" % number for number in range(1, 21)]
    assert sorted(os.listdir(to)) == sorted(made + [each + ".json" for each in made])
    offset = 0
    for number, (each, data) in enumerate(zip(made, some), 1):
        data, offset = data[len(front):], offset + len(front)
        assert Path(to, each).read_bytes() == data
        row, whole = note_of(to, each), b"".join(some)
        assert row["source_name"] == path and row["source"] == {
            "bytes": len(whole), "sha256": hashlib.sha256(whole).hexdigest()}
        assert (row["page"], row["pages"], row["offset"]) == (number, 20, offset)
        assert row["copy"] == {"bytes": len(data), "sha256": hashlib.sha256(data).hexdigest()}
        assert set(row) >= {"program", "tool", "cut_at"} and (row["before"], row["after"]) == (front.hex(), "")
        offset += len(data)
    lines = said.stdout.decode().splitlines()
    assert lines[-1] == "20 parts: 20 accepted, 0 refused" and len(lines) == 21
    assert run(["check", *(os.path.join(to, each) for each in made)]).returncode == 0


def test_what_is_told(run, tmp_path):
    file(tmp_path, "tape", b"HELLO\x18" + CLEAR + b"\x1f\x41\x42" + CLEAR + b"\x1b\x22\x46BYE\x1a" + CLEAR + b"\x1aEND")
    said = run([*SPLIT, "tape", "-o", "to"], cwd=str(tmp_path))
    assert said.stdout.decode().splitlines() == [
        "to/tape-001.nap: 6 bytes at 6, cut at the beginning, 5 bytes of text before it: accepted 2 entries",
        "to/tape-002.nap: 6 bytes at 15, cut at NSR: accepted 2 entries",
        "to/tape-003.nap: 3 bytes at 24, cut at 1B 22: accepted 3 entries (text)",
        "to/tape-004.nap: 6 bytes at 28, cut at 1A, 3 bytes of text after it: accepted 2 entries",
        "4 parts: 4 accepted, 0 refused"]
    assert run([*SPLIT, "tape"], cwd=str(tmp_path)).stdout == said.stdout.replace(b"to/", b"")
    said = run([*SPLIT, "tape", "-o", "to", "--json"], cwd=str(tmp_path))
    rows = [json.loads(line) for line in said.stdout.splitlines()]
    assert [(row["name"], row["status"], row["offset"], row["bytes"], row["cut_at"], row["before"], row["after"])
            for row in rows] == [
        ("to/tape-001.nap", "accepted", 6, 6, "the beginning", "48454c4c4f18", ""),
        ("to/tape-002.nap", "accepted", 15, 6, "NSR", "1f4142", ""),
        ("to/tape-003.nap", "accepted", 24, 3, "1B 22", "1b2246", ""),
        ("to/tape-004.nap", "accepted", 28, 6, "1A", "1a", "1a454e44")]


def test_pages_with_parity_are_cut_and_then_repaired(run, tmp_path):
    pages = [with_parity(POINT + b"\x0f" + some) for some in (b"one", b"two")]
    path = file(tmp_path, "line", pages[0] + with_parity(b"\x18\x1f") + pages[1])
    said = run([*SPLIT, path, "-o", str(tmp_path / "to")])
    assert said.returncode == 0 and b"2 parts: 0 accepted, 2 refused" in said.stdout
    assert [(tmp_path / "to" / ("line-%03d.nap" % at)).read_bytes() for at in (1, 2)] == pages
    read = run(["fix", "--only", "repair", str(tmp_path / "to" / "line-001.nap")])
    assert b"parity, around" in read.stdout and read.returncode == 0


def test_nothing_is_written_where_no_part_is_a_page(run, tmp_path):
    path = file(tmp_path, "tape", (CLEAR + b"\x1b\x51\x1f") * 3)
    said = run([*SPLIT, path, "-o", str(tmp_path / "to")])
    assert said.stdout == b"nothing is written: of 3 parts none is accepted as a page\n" and said.returncode == 1
    assert os.listdir(str(tmp_path)) == ["tape"]
    said = run([*SPLIT, "--json", path, "-o", str(tmp_path / "to")])
    assert said.stdout == b"" and b"none is accepted" in said.stderr and said.returncode == 1


@pytest.mark.parametrize("data", [
    CLEAR + CLEAR, CLEAR + b"\x18A", b"\x1f" + CLEAR, CLEAR + b"\x1b\x22\x46A", b"HELLO\x18" + CLEAR,
    b"", CLEAR + b"\x1b\x40A\x1f\x1b\x45" + CLEAR, b"\x18\x1b\x22\x46" + CLEAR])
def test_nothing_else_is_a_place_to_cut(run, tmp_path, data):
    assert len(pieces(data)) < 2
    said = run([*SPLIT, file(tmp_path, "page", data), "-o", str(tmp_path / "to")])
    assert said.stdout == (b"no page is cut: there is no border, which is NSR, CAN, 1A or an announcer with bytes that "
                           b"draw on both sides of it\n")
    assert said.returncode == 1 and not (tmp_path / "to").exists()


def test_nothing_is_written_over_and_nothing_too_long_is_read(run, tmp_path):
    to = os.path.join(str(tmp_path), "to")
    os.mkdir(to)
    file(to, "tape-002.nap", b"mine")
    said = run([*SPLIT, file(tmp_path, "tape", CLEAR + b"\x1f" + CLEAR), "-o", to])
    assert said.returncode == 3 and said.stderr.endswith(b"is there already with other bytes, and isn't written over\n")
    assert Path(to, "tape-002.nap").read_bytes() == b"mine"
    said = run([*SPLIT, file(tmp_path, "long", b"\x1f" * ((16 << 20) + 1)), "-o", to])
    assert said.returncode == 3 and said.stderr.endswith(b"long: the capture is longer than 16 MiB\n")


def test_a_capture_of_too_many_pages(run, tmp_path):
    path = file(tmp_path, "many", POINT + (b"\x1f" + POINT) * 100_000)
    said = run([*SPLIT, path, "-o", str(tmp_path / "to")])
    assert said.returncode == 3 and said.stderr.endswith(
        b"many: it would be cut into 100001 pages, and 100000 are the most\n")


SOME = st.one_of(st.sampled_from([*FRONTS.values(), b"\x1b\x40A", b"\x1b\x45", b"\x0c", b"\x0e\x26", POINT,
                                  POINT_AND_BELL]), st.binary(max_size=4))


@given(st.lists(SOME, max_size=20).map(b"".join))
def test_pieces_begin_behind_codes_that_stand_before_a_page(data):
    some = pieces(data)
    for each in some[1:]:
        before = data[each.offset - each.before:each.offset]
        assert re.search(rb"\x18|\x1a|\x1f|\x1b[\x20-\x27]", before)
    assert b"".join(data[each.offset - each.before:each.end] for each in some) == data[:some[-1].end if some else 0]
