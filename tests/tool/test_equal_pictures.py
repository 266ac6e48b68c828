"""Equal by picture: pages that look alike though their lists differ."""
import csv
import io
import json
import os
from pathlib import Path

import pytest

import naplps
from alike import fill, make, pictures_found
from command import file
from naplps.dots import surface
from naplps_pages.collection.kept import PICTURES
from samples import BOMB
from scans import rows

RED = "RECT-FILLED 0.25,0.25 0.5,0.5 colour=red\n"
HELLO = 'TEXT pen=0.1,0.1 text=normal colour=white "HELLO"\n'
BASE = "CLEAR\n" + RED + HELLO
# What looks as BASE does at its end: nothing is seen of a bell, of what is covered, and of blinking at its beginning.
ALIKE = {
    "bell.nap": BASE + "BELL\n",
    "covered.nap": "CLEAR\nRECT-FILLED 0.3,0.3 0.4,0.4 colour=green\n" + RED + HELLO,
    "blinks.nap": "CLEAR\nBLINK-START\n" + RED + "BLINK-STOP\n" + HELLO}
OTHERS = {
    "wider.nap": BASE.replace("0.5,0.5", "0.55,0.5"), "green.nap": BASE.replace("red", "green"),
    "words.nap": BASE.replace("HELLO", "HALLO"),
    # (each paints 51,200 dots and counts 3,264 more: 1,300 of them are more than 2^26)
    "much.nap": "CLEAR\n" + "RECT-FILLED 0,0 1.0,top colour=red\n" * 1300}
TOO_MUCH = "much.nap: it has no picture: it paints too much"
GROUPS = {(("base.nap", "copy.nap"), ("bell.nap",), ("blinks.nap",), ("covered.nap",)),
          (("clear.nap",), ("empty.nap",))}
# (ten lists: of two files one is spelled otherwise, and one is refused)
PAGES = 12


@pytest.fixture
def box(run, tmp_path):
    """A folder of pages of which some look alike, one is spelled otherwise, one is refused, and one paints too much."""
    folder = fill(run, tmp_path / "box", {"base.nap": BASE, "clear.nap": "CLEAR\n", **ALIKE, **OTHERS})
    file(folder, "empty.nap", b"")
    return folder


@pytest.fixture
def store(run, box, tmp_path):
    path = str(tmp_path / "box.db")
    assert run(["scan", box, "-o", path]).returncode == 0
    return path


def leaf(named):
    return os.path.basename(named["name"])


def kept(store):
    return dict(rows(store, "SELECT canon, picture FROM pictures WHERE form = 1"))


def alike(run, store, *words):
    said = run(["equal", "--pictures", "--json", store, *words])
    assert pictures_found(said) == GROUPS and TOO_MUCH in said.stderr.decode() and said.returncode == 1
    return said


def test_the_form_is_that_of_the_raster():
    assert PICTURES.form == surface.FORM == 1


def test_groups_of_pages_that_look_alike(run, store, box):
    said = alike(run, store, "-j", "2")
    assert len(kept(store)) == PAGES - 2 and [*kept(store).values()].count(None) == 1
    assert said.stderr.decode() == f"naplps-pages: {os.path.join(box, TOO_MUCH)}\n"
    by_name = {leaf(each): (row["picture"], some) for row in map(json.loads, said.stdout.splitlines())
               for some in row["lists"] for spelling in some["spellings"] for each in spelling["files"]}
    data = Path(box, "bell.nap").read_bytes()
    picture, some = by_name["bell.nap"]
    assert picture == naplps.raster(naplps.entries(data)).hash()
    assert (some["entries"], some["canonical_bytes"]) == (8, len(naplps.canon(data)))


def test_as_text_csv_and_names(run, store, box):
    lines = run(["equal", "--pictures", store]).stdout.decode().replace(box + os.sep, "").splitlines()
    heads = [line.split(": picture ")[0] for line in lines if not line.startswith(" ")]
    assert heads == ["4 lists, 5 files", "2 lists, 2 files"]
    numbers = {line.split(": ")[1]: line.split(": ")[0] for line in lines if line.startswith(" ")}
    assert numbers["base.nap"] == numbers["copy.nap"] and len(numbers) == 7 and len(set(numbers.values())) == 4
    table = list(csv.DictReader(io.StringIO(run(["equal", "--pictures", "--csv", store]).stdout.decode())))
    assert {(os.path.basename(row["name"]), row["lists"], row["files"]) for row in table if row["lists"] == "2"} == {
        ("clear.nap", "2", "2"), ("empty.nap", "2", "2")} and len(table) == 7
    names = run(["equal", "--pictures", "-0", store]).stdout.split(b"\0")
    assert names[5:] == [b"", *sorted(map(os.fsencode, names[6:8]), key=names.index), b"", b""] and len(names) == 10


def test_pages_of_too_many_entries(run, tmp_path):
    bomb, base = file(tmp_path, "bomb.nap", BOMB), file(tmp_path, "base.nap", make(run, BASE))
    store = str(tmp_path / "bomb.db")
    assert run(["scan", bomb, base, "-o", store, "--pictures"]).returncode == 0 and len(kept(store)) == 1
    said = run(["equal", "--pictures", store])
    assert (said.returncode, said.stdout) == (1, b"")
    assert said.stderr.decode() == f"naplps-pages: {bomb}: it has no picture: more than 200000 entries\n"


WRONG = (
    (["--include", "treated"], "--pictures and --include exclude each other"),
    (["--skip", "copies"], "--pictures and --skip exclude each other"),
    (["--verify"], "--pictures and --verify exclude each other"),
    (["--nearly"], "argument --nearly: not allowed with argument --pictures"),
    (["other.db"], "--pictures takes one store: `scan --merge` makes one of several"))


def test_options_that_exclude_it(run, store):
    for words, why in WRONG:
        said = run(["equal", "--pictures", store, *words])
        assert said.returncode == 2 and why in said.stderr.decode()
    said = run(["equal", "-j", "2", store])
    assert said.returncode == 2 and b"--jobs is for --nearly and --pictures" in said.stderr
