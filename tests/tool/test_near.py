"""Pages that are almost equal: by words, colours and places, and beginnings.

NAPLPS_NEAR_BOX says how many pages the box of planted ones has at least; without it they are some dozens.
"""
import json
import os
from random import Random

import pytest

import entries as listed
import near_box
from alike import BASE, VARIANTS, fill, make, near_found
from command import file
from lines import line_of
from naplps_pages.near_keys import LEAST_ENTRIES
from naplps_pages.nearness import (
    ListedPage, PageName, beginnings, keys_of, numbers_of, without_colours, without_places, without_words,
)
from naplps_pages.report.questions import Questions
from naplps_pages.report.files import load_roots
from naplps_pages.report.making import Table
from samples import BOMB, with_parity
from scans import rows, store_of

PAGES = int(os.environ.get("NAPLPS_NEAR_BOX", "60"))
@pytest.fixture
def box(run, tmp_path):
    """A folder with a page and pages near it, and one that is spelled otherwise."""
    return fill(run, tmp_path / "box", {"base.nap": BASE, **VARIANTS})


def test_as_text(run, box, store):
    names = ("base.nap", "words.nap", "more.nap", "cut.nap")
    assert run(["scan", *(os.path.join(box, name) for name in names), "-o", store]).returncode == 0
    said = run(["equal", "--nearly", store])
    assert said.returncode == 0 and said.stdout.decode().replace(box + os.sep, "") == (
        "2 pages differ in words alone:\n  base.nap: MON 14: WET\n  words.nap: TUESDAY 15: DRY\n"
        "base.nap is a beginning of more.nap, with its last entry\n"
        "cut.nap is a beginning of more.nap, but for its last entry\n")
    alone = store + ".alone"
    assert run(["scan", os.path.join(box, "base.nap"), os.path.join(box, "copy.nap"), "-o", alone]).returncode == 0
    assert run(["equal", "--nearly", alone]).stdout == b""


LOOK = "colour={} text=0,0/normal/----".format


def test_pages_of_too_many_entries(run, tmp_path):
    bomb, base = file(tmp_path, "bomb.nap", BOMB), file(tmp_path, "base.nap", make(run, BASE))
    store = str(tmp_path / "bomb.db")
    assert run(["scan", bomb, base, "-o", store, "--near"]).returncode == 0 and len(keys(store)) == 1
    assert run(["equal", "--nearly", store]).stdout == b""
    said = run(["diff", bomb, base])
    assert (said.returncode, said.stdout) == (3, b"") and b"too many for a source" in said.stderr


def test_what_is_left_out():
    text = ("CHAR primary 41 pen=1,2 {0}\nCHAR supplementary 42 pen=after {0}\nCHAR primary 61 pen=after {0}\n"
            "CHAR primary 41 pen=after {1}\nCHAR mosaic 41 pen=after {1}\n").format(LOOK("front:1"), LOOK("front:2"))
    assert without_words(text.encode()).decode() == (
        "TEXT pen=1,2 {0}\nTEXT pen=after {1}\nCHAR mosaic 41 pen=after {1}\n").format(LOOK("front:1"), LOOK("front:2"))
    assert without_colours(b"MAP 5 1,2,3\nBLINK 5 1,2,3 colour=front:5\nPOINT 1,2 pel=3,4 colour=own-start\n") == (
        b"MAP 5\nBLINK 5 1,2,3 colour\nPOINT 1,2 pel=3,4 colour\n")
    assert without_places(
        b"POLY-FILLED 1,2 3,4 pel=5,-6 colour=direct:1,2,3 texture=1/2,3\nFIELD whole pen=1,2\n"
        b"FIELD 1,2 3,4 pen=after\nCLEAR pen=0,0\nMAP 5 1,2,3\nBLINK 5 1,2,3 colour=own-start\n") == (
        b"POLY-FILLED p p pel=5,-6 colour=direct:1,2,3 texture=1/2,3\nFIELD whole pen=p\nFIELD p p pen=after\n"
        b"CLEAR pen=p\nMAP 5 1,2,3\nBLINK 5 1,2,3 colour=own-start\n")


def listed_of(entries):
    return "".join(line_of(entry) + "\n" for entry in entries).encode("ascii")


def test_beginnings_are_those_of_the_definition():
    """Of lists by chance, cut and continued: the longest beginnings are those that comparing all pairs finds."""
    for seed in range(30):
        chance = Random(seed)
        whole = listed_of(listed.legal_list(chance, 40)).splitlines(keepends=True)
        lists = {b"".join(whole[:chance.randrange(1, len(whole) + 1)] + [b"BELL\n"] * chance.randrange(3))
                 for _ in range(12)}
        pages = [ListedPage([PageName(str(number))], prefixes=numbers_of(keys_of(each).prefixes))
                 for number, each in enumerate(sorted(lists))]
        rows = [each.splitlines() for each in sorted(lists)]
        wanted = set()
        for number, row in enumerate(rows):
            parts = [(len(part), at) for at, part in enumerate(rows)
                     if LEAST_ENTRIES <= len(part) < len(row) and part[:-1] == row[:len(part) - 1]]
            longest = max(parts, default=(0, 0))[0]
            wanted |= {(str(at), str(number), rows[at][-1] == row[longest - 1])
                       for length, at in parts if length == longest}
        assert {(each.part.names[0].name, each.whole.names[0].name, each.last_fits)
                for each in beginnings(pages)} == wanted


def keys(store):
    return dict(rows(store, "SELECT canon, form FROM near_keys"))


def test_what_is_planted_is_found_and_nothing_else(run, tmp_path):
    made = near_box.write(str(tmp_path / "box"), PAGES)
    store = str(tmp_path / "box.db")
    assert run(["scan", str(tmp_path / "box"), "-o", store]).returncode == 0
    said = run(["equal", "--nearly", "--json", store])
    assert (said.returncode, said.stderr) == (0, b"")
    groups, begun = near_found(said)
    groups = {(what, frozenset(sum(names, ()))) for what, *names in groups}
    begun = {(*part, *whole, last_fits) for part, whole, last_fits in begun}
    print(f"{len(made.pages)} pages, {len(made.groups)} groups and {len(made.beginnings)} beginnings: {made.counts}")
    assert (groups, begun) == (made.groups, made.beginnings)
    assert len(keys(store)) == len(set(made.pages.values()))


def test_treated_copies(run, tmp_path):
    first, second = (str(tmp_path / "pages" / name) for name in ("base.nap", "words.nap"))
    pages = {"base.nap": make(run, BASE), "words.nap": with_parity(make(run, VARIANTS["words.nap"]))}
    assert run(["equal", "--nearly", store_of(run, tmp_path, pages)]).stdout == b""
    os.unlink(tmp_path / "pages.db")
    store = store_of(run, tmp_path, pages, keeps="repair")
    said = run(["equal", "--nearly", store])
    assert said.returncode == 0 and said.stdout.decode() == (
        f"2 pages differ in words alone:\n  {first}: MON 14: WET\n"
        f"  {second} treated by parity (around): TUESDAY 15: DRY\n")
    said = run(["equal", "--nearly", "--json", store])
    assert json.loads(said.stdout)["pages"][1]["files"] == [{"name": second, "treated": "parity (around)"}]


TOLD = {("words.nap", "differs in words: MON 14: WET here, TUESDAY 15: DRY there"),
        ("colours.nap", "differs in colours"), ("places.nap", "differs in places"),
        ("more.nap", "this page is a beginning of it, with its last entry")}
OF_MORE = {("base.nap", "it is a beginning of this page, with its last entry"),
           ("cut.nap", "it is a beginning of this page, but for its last entry")}


def test_reports_name_them(run, box, store):
    assert run(["scan", box, "-o", store, "--near"]).returncode == 0
    questions = Questions(store)
    table = Table(questions.connection, load_roots(questions.connection), [])
    table.fill()
    held = json.loads(json.dumps(table.held()))
    columns, leaf = held["columns"], os.path.basename
    for name, wanted in (("base.nap", TOLD), ("copy.nap", TOLD), ("more.nap", OF_MORE), ("other.nap", set())):
        key, = [each["key"] for each in questions.ask("files", {"text": name, "from": "0", "count": "9"})["files"]]
        served = questions.ask("details", {"key": key})["near"]
        assert {(leaf(each["name"]), each["told"]) for each in served} == wanted
        assert all(questions.ask("details", {"key": each["key"]})["name"] == each["name"] for each in served)
        at = columns["name"].index(name)
        some = held["near"].get(str(columns["page"][at]), [])
        assert {(columns["name"][number], told) for number, told in some} == wanted
    questions.close()
