"""Treatments: what each takes away, and that the least is chosen."""
import hashlib
import json
import os
from pathlib import Path
from random import Random

import pytest
from hypothesis import given
from hypothesis import strategies as st

from command import file
from folders import files_in
from naplps.answers import Refusal
from naplps.treating.changes import AROUND, WITHIN
from naplps.treating.treatments import MOST_ASKED, TREATMENTS, TreatmentSearch, grade_of, treated, untreated
from naplps_pages.notes import change_members
from old_files import in_eight_bits, sauce
from samples import POINT, with_parity
from spelled import logo

PAGE = logo()
AT = PAGE.rindex(b"\x0f")                                       # (before the last text of the page)
SICK = {
    "parity": with_parity(PAGE), "odd": with_parity(PAGE, odd=True), "tail": PAGE + b"\x1a" * 40,
    "front": b"\x18\x1f\x1b\x22\x46" + PAGE, "announcers": b"\x1b\x25\x41\x1b\x20\x43" + PAGE,
    "place": b"\x1f\x45\x52" + PAGE,
    "header": b"\x00\x08logo.nap" + bytes(40) + b"\x1a\xff\x80" + PAGE,
    "parity, tail": with_parity(PAGE + b"\x1a" * 5), "tail, parity": with_parity(PAGE) + b"\x1a\x1a\x1a",
    "tail and zeros": PAGE + b"\x1a\x1a\0\0", "tail, front": b"\x18" + PAGE + b"\x1a",
    "mark": bytes(byte | 0x80 for byte in PAGE), "tail and rest": PAGE + b"\x1a" + b"\xe5" * 1023,
    "tail and lines": PAGE + b"\r\n\x1a\0\xff", "sauce": sauce(PAGE), "sauce and comments": sauce(PAGE, lines=40),
    "can": PAGE[:AT] + b"\x18" + PAGE[AT:] + b"\x18", "nsr": PAGE[:AT] + b"\x1f" + PAGE[AT:],
    "nsr and place": PAGE[:AT] + b"\x1f\x41\x42" + PAGE[AT:], "designations": PAGE[:AT] + b"\x1b\x22\x46" + PAGE[AT:],
    "unknown set": PAGE[:AT] + b"\x1b\x28\x41" + PAGE[AT:], "eight-bit": in_eight_bits(PAGE),
    "sauce, parity, front": sauce(with_parity(b"\x18" + PAGE)), "tail, can, nsr": PAGE[:AT] + (
        b"\x1f\x41\x42\x18" + PAGE[AT:] + b"\x1a")}
NAMES = {"odd": "parity", "announcers": "front", "place": "front", "tail and zeros": "tail", "tail and rest": "tail",
         "tail and lines": "tail", "sauce and comments": "sauce", "nsr and place": "nsr", "unknown set": "designations"}
# What is left after the page.
LEFT = {"tail and lines": b"\r\n"}


@pytest.mark.parametrize("name", SICK)
def test_each_is_found_and_its_note_applied_backwards_gives_the_source(run, tmp_path, to, name):
    path, copy = file(tmp_path, "page", SICK[name]), PAGE + LEFT.get(name, b"")
    said = run(["fix", "--only", "repair", "--json", path])
    cure = json.loads(said.stdout)["cure"]
    assert said.returncode == 0
    names = [each["treatment"] for each in cure["treatments"]]
    assert sorted(names) == sorted(NAMES.get(name, name).split(", "))
    grades = [each["grade"] for each in cure["treatments"]]
    assert grades == [TREATMENTS[each].grade for each in names] == sorted(grades)      # (around comes first)
    assert cure["grade"] == grade_of("+".join(names)) == grades[-1]
    said = run(["fix", "--only", "repair", path, "-o", to])
    data, row = Path(to, "page").read_bytes(), json.loads(Path(to, "page.json").read_bytes())
    assert (data == copy or name == "eight-bit") and undone(data, row["treatments"]) == SICK[name]
    assert row["copy"] == cure["copy"] == summary(data) and row["source"] == summary(SICK[name])
    assert ("The copy is a guess: " in said.stdout.decode()) == ("The copy is a guess: " in row["note"]) == (
        row["grade"] == "within")
    assert run(["check", to + "/page"]).returncode == 0


WITH_BIT = {"mark": lambda byte: byte | 0x80, "even": lambda byte: byte | (bin(byte).count("1") % 2 << 7),
            "odd": lambda byte: byte | ((bin(byte).count("1") + 1) % 2 << 7)}


def undone(data, treatments):
    """The source of a copy, by what its note says of each treatment."""
    for each in reversed(treatments):
        if each["parity"]:
            data = bytes(map(WITH_BIT[each["parity"]], data))
        for edit in reversed(each["edits"]):
            # (after the later edits are as they were; the earlier ones have moved this one)
            moved = sum(len(other["put"]) - len(other["taken"]) for other in each["edits"]
                        if other["offset"] < edit["offset"]) // 2
            at, put = edit["offset"] + moved, bytes.fromhex(edit["put"])
            assert data[at:at + len(put)] == put
            data = data[:at] + bytes.fromhex(edit["taken"]) + data[at + len(put):]
    return data


def test_what_was_taken_is_told(run, tmp_path):
    assert run(["fix", "--only", "repair", file(tmp_path, "page", SICK["front"])]).stdout.decode().splitlines() == [
        "refused 6 LeftOut CAN at 0", "front, around: taken away: 5 bytes at the front: CAN, NSR, 1B 22 46",
        "then: accepted 36 entries", "before: %d bytes, sha256 %s" % (len(PAGE) + 5, sha(SICK["front"])),
        "after: %d bytes, sha256 %s" % (len(PAGE), sha(PAGE)),
        "The copy is another page. That it is equal to the original, or draws what was meant there, isn't claimed; "
        "keep the original."]


def sha(data):
    return hashlib.sha256(data).hexdigest()


def summary(data):
    """What notes say of some bytes."""
    return {"bytes": len(data), "sha256": sha(data)}


def test_copies_are_written_with_their_provenance_and_only_when_asked(run, tmp_path, to):
    path = file(tmp_path, "page", SICK["tail, parity"])
    assert run(["fix", "--only", "repair", path, "-o", to]).returncode == 0
    assert sorted(os.listdir(to)) == ["page", "page.json"]
    note, row = Path(to, "page.json"), json.loads(Path(to, "page.json").read_bytes())
    assert Path(to, "page").read_bytes() == PAGE
    assert row["source_name"] == path and row["refusal"] == "refused 1 EighthBit at 1"
    assert row["source"] == summary(SICK["tail, parity"]) and row["copy"] == summary(PAGE)
    assert [(each["treatment"], each["offset"], each["bytes"]) for each in row["treatments"]] == [
        ("tail", len(PAGE), "1a1a1a"), ("parity", 0, "")]
    assert set(row) >= {"program", "tool", "time", "budget", "note"}
    earlier = json.dumps({**row, "time": "2026-01-01T00:00:00Z"})
    note.write_text(earlier, "ascii")
    again = run(["fix", "--only", "repair", path, "-o", to])                  # (what is there stays, with its time)
    assert (again.stderr, again.returncode) == (b"", 0) and note.read_text("ascii") == earlier


def test_a_copy_of_another_page_is_not_written_over(run, tmp_path, to):
    os.mkdir(to)
    file(to, "page", b"mine")
    said = run(["fix", "--only", "repair", file(tmp_path, "page", SICK["tail"]), "-o", to])
    assert said.returncode == 3 and said.stderr.endswith(b"is there already with other bytes, and isn't written over\n")
    assert files_in(to) == {b"page": b"mine"}


def test_a_page_that_is_accepted_or_stays_refused_gets_no_copy(run, tmp_path, to):
    good, bad = file(tmp_path, "good", PAGE), file(tmp_path, "bad", PAGE + b"\x1b\x51A")
    said = run(["fix", "--only", "repair", good, bad, "-o", to])
    assert not os.path.exists(to) and said.returncode == 1
    # (a page whose start draws is no header)
    page = PAGE + b"\x1b\x5f" + PAGE
    assert json.loads(run(["fix", "--only", "repair", "--json", "-"], page).stdout)["cure"] is None
    assert said.stdout.decode().splitlines() == [
        "%s: accepted 36 entries" % good, "%s: refused 6 LeftOut EDC1 at %d" % (bad, len(PAGE) + 1),
        "%s: no repair makes it readable" % bad]


BODY = POINT + b"\x1b\x40A\x1a\x1b\x45"


@pytest.mark.parametrize("name, data, copies", [
    # Parity needs one parity of all bytes; a mark isn't taken off what may be picture codes.
    ("parity", b"\x80\x81", []), ("parity", b"AAC", []), ("parity", b"\x81A", [b"\x01A"]),
    ("mark", b"\xa6\xd2\xc0\xc0", []), ("mark", b"\xc8\xc5\xcc\xcc\xcf", [b"HELLO"]),
    ("mark", b"\x8e\xa6\xd2", [b"\x0e\x26\x52"]),
    # The end of a file is no byte of a body.
    ("tail", BODY, []), ("tail", BODY + b"\x1aB", [BODY]), ("tail", POINT + b"\x1a" + b"A" * 1024, []),
    ("tail", POINT + b"\x1a" + b"A" * 1023, [POINT])])
def test_copies_of_a_treatment(name, data, copies):
    assert [each.data for each in treated(untreated(data), 0, (name,))] == copies


@pytest.mark.parametrize("name, code", [("can", b"\x18"), ("nsr", b"\x1f"), ("designations", b"\x1b\x22\x46")])
def test_bodies_of_macros_stay_as_they_are(name, code):
    body = b"\x1b\x40A" + code + b"\x1b\x1b" + code + b"\x1b\x41" + b"\x18\x1f" + code + b"\x1b\x45"
    (made,) = treated(untreated(b"A" + code + body + code), 0, (name,))
    assert made.data == b"A" + body


def test_the_record_is_told(run, tmp_path):
    said = run(["fix", "--only", "repair", file(tmp_path, "page", sauce(PAGE, lines=2))])
    assert said.stdout.decode().splitlines()[1] == (
        "sauce, around: taken away: 262 bytes at the end: SAUCE, title 'A logo', author 'Caf\u00e9', group 'None', "
        "date '19840114'")
    row = json.loads(run(["fix", "--only", "repair", "--json", "page"], cwd=str(tmp_path)).stdout)
    (each,) = row["cure"]["treatments"]
    assert each["record"] == {"title": "A logo", "author": "Caf\u00e9", "group": "None", "date": "19840114"}


def test_why_a_treatment_is_not_sure_is_told(run, tmp_path):
    page = b"\xa6\xd2\xc0\xc0\x80A\xa6\xd2\x85\x1b\x7d"
    said = run(["fix", "--only", "repair", file(tmp_path, "page", page)]).stdout.decode().splitlines()
    why = "macros stand beside locking shifts at 9"
    assert said[1:] == ["no repair makes it readable", "eight-bit: not tried, since it isn't sure: " + why]
    row = json.loads(run(["fix", "--only", "repair", "--json", "page"], cwd=str(tmp_path)).stdout)
    assert row["cure"] is None and row["unsure"] == [{"treatment": "eight-bit", "reason": why}]
    assert json.loads(run(["fix", "--only", "repair", "--json", "-"], POINT).stdout)["unsure"] is None


SPECIAL = (b"\x1a", b"\x18", b"\x1f", b"\x1f\x41\x42", b"\x1b\x22\x46", b"\x1b\x28\x41", b"\x1b\x40A", b"\x1b\x45",
           b"\x0e\x26", b"\0", b"\r\n", b"\xa6\xd2", b"\x9b", b"\x1b", b"SAUCE00", b"COMNT", b"\x0c", POINT,
           b"\x80A\xff\x85")
PIECES = st.lists(st.one_of(st.sampled_from(SPECIAL), st.binary(max_size=12)), max_size=30).map(b"".join)
DATA = st.one_of(PIECES, PIECES.map(lambda data: data + bytes(128)), PIECES.map(with_parity), PIECES.map(sauce))


@given(DATA, st.integers(0, 80))
def test_a_treatment_does_what_it_tells_and_nothing_else(data, place):
    for each in treated(untreated(data), min(place, len(data))):
        (change,) = each.changes
        assert change.treatment in TREATMENTS and each.source is data
        told = change_members(change, data)
        assert undone(each.data, [told]) == data
        if change.grade == AROUND and not change.parity:
            (edit,) = told["edits"]
            assert edit["put"] == "" and (edit["offset"] == 0 or edit["offset"] + edit["length"] == len(data)
                                          if "length" in edit else True)
            assert each.data in data and len(each.data) == len(data) - told["length"]
        elif change.treatment in ("can", "nsr", "designations"):
            assert all(edit["put"] == "" and edit["taken"] for edit in told["edits"])
        elif change.parity:
            assert change.bits == sum(byte >= 0x80 for byte in data)


@given(DATA, st.randoms(use_true_random=False))
def test_a_search_ends_whatever_the_answers(data, chance):
    asked = []

    def ask(command, some):
        asked.append(some)
        return Refusal(6, "LeftOut", "CAN", chance.randrange(len(some) + 1))
    assert TreatmentSearch(ask).find(data, chance.randrange(len(data) + 1)) is None
    assert len(asked) <= 2 * MOST_ASKED and len(set(asked)) == len(asked)


@pytest.mark.parametrize("piece", [b"\x18", b"\x1a", b"\x1f\x41\x42", b"\x1b\x40A", b"\x1b\x22\x46", b"\xa6\xd2A",
                                   b"\x0e\x26", b"\x1b", b"\xff\x0c", b"\x1b\x1b\x45", b"\x80A"])
def test_long_pages_made_to_do_harm_end(run, tmp_path, piece):
    some = piece * ((1 << 20) // len(piece))
    for data in (b"\x18" + some, Random(1).randbytes(1000) + some + b"\x1a"):
        said = run(["fix", "--only", "repair", "--json", file(tmp_path, "page", data)])
        assert said.returncode in (0, 1) and said.stderr == b""


@given(PIECES)
def test_least_change_comes_first(data):
    some = treated(untreated(data), 0)
    assert [each.cost for each in some] == sorted(each.cost for each in some)
    assert [each.is_guess for each in some] == sorted(each.changes[0].grade == WITHIN for each in some)
