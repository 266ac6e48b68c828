"""The grade of what is cut off around a page: no copy that is graded around may lack what acts in its page.

DAMAGED names how many pages are damaged by chance.
"""
import json
import os
import sqlite3
from random import Random

import pytest

from command import file
from damaged import damage
from naplps.answers import Accepted, Refusal
from naplps.treating.treatments import GUESSES, TREATMENTS, TreatmentSearch, grade_of
from naplps_pages import messages
from old_files import sauce
from samples import with_parity
from scans import tree

PAGES = int(os.environ.get("DAMAGED", "20000"))
# A page that clears the screen, and draws a line of points; one that sets a colour of the map too; and one of a word.
CLEARED = bytes.fromhex("0C 0E 26 52 40 40 26 49 40 40")
WHITE = bytes.fromhex("0C 0E 3E 44 33 49 40 40 49 40 40")
HELLO = bytes.fromhex("0C 0E 26 52 40 40 26 49 40 40 0F 48 49")
NSR = b"\x1f\x41\x52"


def cure_of(program, data):
    """The treated copy of a refused page."""
    answer = program.ask("check", data)
    assert isinstance(answer, Refusal)
    return TreatmentSearch(program.ask).find(data, answer.place)


def outcome(cure):
    """The treatments, and the grade of the copy."""
    return "+".join(each.treatment for each in cure.changes), "within" if cure.treated.is_guess else "around"


# What acts before the refused byte, and that byte.
ACTING = {
    "two colours of the map": "0E 3E 44 3C 52 FE", "another colour": "0E 3E 44 3C 49 FE", "domain": "0E 21 4C FE",
    "set": "1B 29 7C FE", "macro and call": "1B 40 41 0F 48 49 1B 45 1B 2B 7A 1D 41 FE",
    "colour and UNPROTECT": "0E 3E 44 3C 52 1B 5F", "domain and CAN": "0E 21 44 18",
    "set into G0 and CAN": "1B 28 7C 18", "macros into G0 and CAN": "1B 28 7A 18",
    "text and CAN": "0E 22 40 40 49 40 40 18", "colour and CAN": "0E 3C 52 18",
    "texture and CAN": "0E 23 54 18", "field and UNPROTECT": "0E 38 49 40 40 49 40 40 1B 5F",
    "size and CAN": "1B 4F 18", "sign and FE": "19 41 FE", "mosaic and FE": "1D 41 FE", "CS and FE": "0C FE"}


@pytest.mark.parametrize("page", [CLEARED, WHITE], ids=["points", "colour"])
@pytest.mark.parametrize("name", ACTING)
def test_what_acts_before_the_page_is_cut_as_a_guess(program, name, page):
    front = bytes.fromhex(ACTING[name])
    cure = cure_of(program, front + page)
    assert outcome(cure) == ("beginning", "within")
    assert cure.data == page and cure.changes[0].taken(front + page) == [front]


FIELD = bytes.fromhex("0E 38 40 5B 49 52 40 1B 51 40 0C 0F 0E 32 49 43 4F 40 6A 69")


@pytest.mark.parametrize("data, names, copy", [
    (with_parity(FIELD), "parity+beginning", FIELD[10:]), (with_parity(NSR + HELLO), "parity+front", HELLO),
    (bytes.fromhex("1F C1 52 8C 0E 26 52 40 40 26 49 40 40 8F C8 49"), "parity+front", HELLO),
    (NSR + with_parity(HELLO, odd=True), "beginning+parity", HELLO[1:]),
    (with_parity(HELLO, odd=True) + b"\x1a\xe5\xe5\xe5", "parity+end", HELLO)],
    ids=["a field that acts", "NSR with its place", "odd parity", "CS with parity", "fills that are letters with it"])
def test_parity_and_what_is_around_a_page(program, data, names, copy):
    cure = cure_of(program, data)
    assert outcome(cure) == (names, "around" if names == "parity+front" else "within") and cure.data == copy
    if names == "beginning+parity":
        assert cure.changes[0].taken(data) == [bytes.fromhex("1F 41 52 8C")]


# What comes before a page without CS, and whether that can be none of it.
BEFORE = {
    "a byte": ("FE", True), "letters before it": ("48 49 FE", True), "letters after it": ("FE 48 49", False),
    "no effect after it": ("48 FE 00 06 0F 10 17", True), "a bell after it": ("FE 07", False),
    "a line end after it": ("FE 0D 0A", False), "a place after it": ("FE 1C 41 41", False),
    "NSR": ("48 1F", True), "NSR with its place": ("48 1F 41 52", True), "NSR and a letter": ("48 1F 41", False),
    "NSR and three letters": ("48 1F 41 52 41", False), "CAN": ("48 49 18", True), "1A": ("48 49 1A", True),
    "a designation of a C1 set": ("48 1B 22 46", True), "an announcer": ("48 1B 20 43", True),
    "a syntax": ("48 1B 25 41", True), "one of four bytes": ("48 1B 24 29 46", True),
    "a record": ("00 08 48 49 20 20 80 03 1A FF", True), "letters after a syntax": ("48 1B 25 41 48", False),
    "CS in a record": ("00 0C 48 49 80", False), "SO in a record": ("01 0E 48 80", False)}


@pytest.mark.parametrize("name", BEFORE)
def test_what_may_come_before_a_page(program, name):
    front, is_around = bytes.fromhex(BEFORE[name][0]), BEFORE[name][1]
    cure = cure_of(program, front + HELLO[1:])
    assert cure.data == HELLO[1:] and outcome(cure) == (("header", "around") if is_around else ("beginning", "within"))


@pytest.mark.parametrize("end, is_around", [
    *((b"\x1a" + bytes((fill,)) * 5, True) for fill in b"\x1a\x00\xe5\xf6\xff\r\n"),
    (b"\x1a\r\n\xff\x00", True), (sauce(b"\x1a\x1a"), True), (sauce(b"\x1a\0", 2), True),
    (b"\x1aNO CARRIER", False), (b"\x1a\x07", False), (b"\x1a\xe4", False), (b"\x1a \x1a", False),
    (sauce(b"\x1aA"), False)], ids=lambda each: each[:9].hex() if isinstance(each, bytes) else None)
def test_what_may_come_after_a_page(program, end, is_around):
    cure = cure_of(program, HELLO + end)
    names, grade = outcome(cure)
    assert cure.data == HELLO and (grade, "end" in names.split("+")) == (
        ("around", False) if is_around else ("within", True))


def test_the_names_of_guesses_have_their_grade():
    assert not set(GUESSES) & set(TREATMENTS)
    assert [grade_of(name) for name in ("beginning", "tail+end", "beginning+parity")] == ["within"] * 3
    assert [grade_of(name) for name in ("header", "tail+header", "parity+front")] == ["around"] * 3


def test_a_guess_is_reported_as_one(run, tmp_path, to):
    front = bytes.fromhex(ACTING["colour and UNPROTECT"])
    path = file(tmp_path, "map.nap", front + WHITE)
    said = run(["fix", "--only", "repair", path, "-o", to]).stdout.decode().splitlines()
    assert said[1:3] == ["beginning, within: taken away: 7 bytes before the first code", "then: accepted 2 entries"]
    assert said[5].startswith("The copy is a guess: ")
    with open(os.path.join(to, "map.nap.json"), encoding="ascii") as written:
        note = json.load(written)
    assert note["grade"] == "within" and note["note"].startswith("The copy is a guess: ")
    assert [(each["treatment"], each["grade"], each["bytes"]) for each in note["treatments"]] == [
        ("beginning", "within", front.hex())]


FRONTS = [bytes.fromhex(ACTING[name]) for name in list(ACTING)[:5]]


@pytest.fixture
def store(run, tmp_path):
    """The store of a page as it is, with a record before it, and with codes that act before it."""
    pages = tree(str(tmp_path / "pages"), {
        "plain": CLEARED, "record": b"\0\x08\xfe" + CLEARED,
        **{f"front {at}": front + CLEARED for at, front in enumerate(FRONTS)}})
    store = str(tmp_path / "pages.db")
    assert run(["scan", pages, "-o", store], keeps="repair").returncode == 0
    return store


def names_of(group):
    """The names of the files of a group."""
    return sorted(os.path.basename(each["name"]) for some in group["spellings"] for each in some["files"])


def test_equal_joins_no_pages_that_lack_what_acted(run, store):
    (group,) = map(json.loads, run(["equal", store, "--include", "treated", "--json"]).stdout.splitlines())
    assert names_of(group) == ["plain", "record"]
    _, guessed = map(json.loads, run(["equal", store, "--include", "guesses", "--json"]).stdout.splitlines())
    assert guessed["others"] == 2 and names_of(guessed) == [f"front {at}" for at in range(len(FRONTS))]
    assert {(each["treatments"], each["grade"]) for each in guessed["spellings"]} == {("beginning", "within")}
    said = run(["files", store, "--reason", "EighthBit"]).stdout.decode().splitlines()
    assert sum(line.endswith("readable by beginning (within, a guess)") for line in said) == len(FRONTS)


def test_equal_verifies_the_grade_of_an_earlier_scan(run, store):
    connection = sqlite3.connect(store)
    connection.execute("UPDATE cures SET treatments = 'header', grade = 0 WHERE treatments = 'beginning'")
    connection.commit()
    connection.close()
    said = run(["equal", store, "--include", "treated", "--verify", "--json"])
    assert [names_of(json.loads(line)) for line in said.stdout.splitlines()] == [["plain", "record"]]
    assert said.returncode == 1 and said.stderr.decode().count(messages.OTHER_COPY_OF_IT) == len(FRONTS)


def test_a_capture_whose_page_is_a_guess_is_cut_as_before(run, tmp_path, to):
    capture = bytes.fromhex(ACTING["two colours of the map"]) + CLEARED + b"\x1a" + CLEARED + b"\x1b\x51"
    said = run(["fix", "--only", "split", file(tmp_path, "capture", capture), "-o", to])
    assert (said.returncode, said.stderr) == (0, b"") and len(os.listdir(to)) == 4


def test_pages_damaged_by_chance(program):
    chance, is_right = Random(1983), {"around": [], "within": []}
    for _ in range(PAGES):
        page = damage(chance, program)
        answer = program.ask("check", page.data)
        cure = TreatmentSearch(program.ask).find(page.data, answer.place) if isinstance(answer, Refusal) else None
        if cure is None or not cure.is_cut:
            continue
        canon = program.ask("canon", cure.data)
        assert isinstance(canon, Accepted)
        is_right[outcome(cure)[1]].append(canon.body in page.right)
    right, wrong = is_right["around"].count(True), is_right["around"].count(False)
    print(f"{right} right and {wrong} wrong of the grade around; within: {is_right['within'].count(True)} right and "
          f"{is_right['within'].count(False)} wrong")
    assert 100 * wrong <= 5 * (right + wrong) and right + wrong >= PAGES // 4
    assert 100 * right >= 60 * (right + is_right["within"].count(True))
