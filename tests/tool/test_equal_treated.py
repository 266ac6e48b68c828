"""equal with treated copies, which are marked beside pages that draw the same; and with guesses, by themselves."""
import csv
import hashlib
import io
import json
import os
from random import Random

import pytest

from naplps_pages.collection import equal
from naplps_pages.collection.store import open_to_read
from old_files import in_eight_bits, midst
from pictures import picture
from samples import OUTSIDE, POINT, with_parity
from scans import alter, store_of
from stores import earlier

PAGE, OTHER = picture(Random(5), 1), picture(Random(6), 2)
WIDE = in_eight_bits(PAGE)
FILES = {"a": PAGE, "b/copy": PAGE, "c spelled": b"\0" + PAGE, "parity": with_parity(PAGE),
         "end": b"\0" + PAGE + b"\x1a", "end again": b"\0" + PAGE + b"\x1a", "wide": WIDE,
         "wide end": WIDE + b"\x1a\x1a", "cancel": midst(OTHER, b"\x18"),
         "cancelled": midst(OTHER, b"\x18\x18"), "out": OUTSIDE, "hello": b"hi", "hi end": b"hi\x1a"}


@pytest.fixture
def store(run, tmp_path):
    return store_of(run, tmp_path, FILES, keeps="repair")


def groups(said, pages):
    """The groups as they are printed: the heads without hashes, and the files without the folder."""
    assert (said.stderr, said.returncode) == (b"", 0)
    found = []
    for line in said.stdout.decode().splitlines():
        if line.startswith("  "):
            number, name = line.strip().split(": ", 1)
            found[-1][1].append((int(number), name.replace(pages + "/", "")))
        else:
            found.append((line.split(": canonical ")[0], []))
    return found


def spelled(group):
    """The files of a group, by spellings, in an order."""
    return sorted(sorted(name for number, name in group[1] if number == at)
                  for at in {number for number, _ in group[1]})


def test_treated_copies_stand_beside_others(run, store, pages):
    found = groups(run(["equal", store, "--include", "treated"]), pages)
    assert [head for head, _ in found] == ["4 spellings, 6 files, 10 entries", "2 spellings, 2 files, 2 entries"]
    assert spelled(found[0]) == [["a", "b/copy"], ["c spelled"], [
        "end again: treated by tail (around)", "end: treated by tail (around)"], ["parity: treated by parity (around)"]]
    assert spelled(found[1]) == [["hello"], ["hi end: treated by tail (around)"]]
    assert groups(run(["equal", store, "--include", "treated", "--verify"]), pages) == found


def test_guesses_stand_by_themselves(run, store, pages):
    treated, found = (groups(run(["equal", store, "--include", word]), pages) for word in ("treated", "guesses"))
    assert found[:2] == treated
    found[2:] = sorted(found[2:])  # (else by their hashes)
    assert [head for head, _ in found[2:]] == ["2 spellings, 2 files, 10 entries, by guess, the same as 6 other files",
                                               "2 spellings, 2 files, 22 entries, by guess"]
    assert spelled(found[2]) == [["wide end: treated by tail+eight-bit (within, a guess)"],
                                 ["wide: treated by eight-bit (within, a guess)"]]
    assert spelled(found[3]) == [["cancel: treated by can (within, a guess)"],
                                 ["cancelled: treated by can (within, a guess)"]]
    assert sorted(groups(run(["equal", store, "--include", "guesses", "--verify"]), pages)) == sorted(found)


def test_one_guess_with_which_others_draw_the_same(run, store, pages):
    os.unlink(os.path.join(pages, "wide end"))
    assert run(["scan", pages, "-o", store], keeps="repair").returncode == 0
    words = ["equal", store, "--include", "guesses"]
    found = groups(run(words), pages)
    assert ("1 spelling, 1 file, 10 entries, by guess, the same as 6 other files", [
        (1, "wide: treated by eight-bit (within, a guess)")]) in found
    assert groups(run([*words, "--verify"]), pages) == found


def test_copies_of_a_treated_page_alone(run, tmp_path):
    store = store_of(run, tmp_path, {"x": with_parity(POINT), "y": with_parity(POINT)}, keeps="repair")
    pages = str(tmp_path / "pages")
    assert groups(run(["equal", store, "--include", "treated", "--skip", "copies"]), pages) == []
    said = run(["equal", store, "--include", "treated"])
    assert groups(said, pages) == [("1 spelling, 2 files, 1 entry", [
        (1, "x: treated by parity (around)"), (1, "y: treated by parity (around)")])]


def test_for_programs(run, store, pages):
    group, *_ = map(json.loads, run(["equal", store, "--include", "treated", "--json"]).stdout.splitlines())
    canon = run(["canon", pages + "/a"]).stdout
    assert group["canonical"] == hashlib.sha256(canon).hexdigest() and "others" not in group
    found = {os.path.basename(file["name"]): {key: value for key, value in each.items() if key != "files"}
             for each in group["spellings"] for file in each["files"]}
    own = {name: hashlib.sha256(data).hexdigest() for name, data in FILES.items()}
    assert found["a"] == {"hash": own["a"]} and found["parity"] == {
        "hash": own["parity"], "treatments": "parity", "grade": "around", "copy": own["a"]}
    rows = list(csv.DictReader(io.StringIO(run(["equal", store, "--include", "guesses", "--csv"]).stdout.decode())))
    wide, = (row for row in rows if row["name"] == pages + "/wide")
    assert [wide[name] for name in ("hash", "treatments", "grade", "others")] == [
        own["wide"], "eight-bit", "within", "6"]
    names = run(["equal", store, "--include", "treated", "-0"]).stdout.split(b"\0")
    assert os.fsencode(pages) + b"/parity" in names


def test_what_is_not_known_is_told(run, store, pages, tmp_path):
    plain = str(tmp_path / "plain.db")
    assert run(["scan", pages, "-o", plain]).returncode == 0
    said = run(["equal", plain, "--include", "treated"])
    assert said.stdout == run(["equal", plain]).stdout and said.stderr.decode() == (
        f"naplps-pages: {plain}: of 8 refused pages no repairs are known: a scan into a new store tries them\n")
    old = earlier(store, str(tmp_path / "old.db"))
    said = run(["equal", old, "--include", "treated"])
    assert said.stderr.decode().endswith("it isn't known what they draw: a scan into a new store finds out\n")
    assert b"treated by tail" not in said.stdout and b"treated by parity (around)" in said.stdout
    said = run(["equal", store, plain, "--include", "treated"])
    assert said.returncode == 3 and b"treated copies are joined in one store" in said.stderr


def test_a_copy_that_is_another_now(run, store, pages):
    alter(store, "UPDATE cures SET copy = zeroblob(32) WHERE treatments = 'parity'")
    said = run(["equal", store, "--include", "treated", "--verify"])
    assert said.returncode == 1 and said.stderr.decode() == (
        f"naplps-pages: {pages}/parity: the treatments make another copy of it than when it was scanned\n")


def test_nothing_is_searched_row_by_row(store):
    connection = open_to_read(store)
    list(equal.guesses(connection, True))
    for words in (equal.JOINED.format("within"), equal.OTHERS, equal.TREATED_MEMBERS):
        plan = [row[3] for row in connection.execute("EXPLAIN QUERY PLAN " + words.replace(
            "CREATE TEMP TABLE joined AS ", ""))]
        assert sum(row.startswith("SCAN") for row in plan) == 1, plan
