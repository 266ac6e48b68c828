"""Pages on floppies, and inside files of other kinds: a box carves what it doesn't unpack, and takes no disk for a
capture.
"""
import hashlib
import json

import pytest

import gallery
from box_runs import box_words, note_of, table
from command import file
from floppies import FORMATS, SECTOR, boot_sector, floppy
from naplps_pages.box.kept_pages import KeptPage, KeptPages
from samples import POINT
from scans import tree
from spelled import logo

FERRY, WEATHER = (gallery.pages()[name] for name in ("ferry.nap", "weather.nap"))
FILES = {"FERRY.NAP": FERRY, "WEATHER.NAP": WEATHER}
MARK = b"\x55\xaa"
# Bytes with which files of other kinds begin; after each come zeros, and a page.
KINDS = {"disk of an Amiga": b"DOS\0", "ZIP": b"PK\3\4", "ARC": b"\x1a\2LOGO.NAP\0" + bytes(20),
         "LHA": b"\x21\x0b-lh0-", "program of DOS or Windows": b"MZ\x90\0", "SQLite": b"SQLite format 3\0",
         "GIF": b"GIF89a", "BMP": b"BM"}


@pytest.fixture
def box(run, tmp_path):
    """Makes a box of files, or adds files to it: what is printed, by the first words of the lines, and the rows of its
    table of pages that were cut out."""
    def fill(files, *words):
        tree(tmp_path / "disks", files)
        ran = run(box_words(tmp_path, *words))
        assert (ran.returncode, ran.stderr) == (0, b""), ran
        lines = dict(line.split(":", 1) for line in ran.stdout.decode().splitlines())
        return {name: rest.strip() for name, rest in lines.items()}, table(tmp_path / "box", "cut.csv")
    return fill


def assert_carved(tmp_path, rows, source, data, pages):
    """The rows of a source have these pages at their places, and so do files and notes."""
    some = [row for row in rows if row["source"] == f"{tmp_path}/disks/{source}"]
    assert [(row["how"], int(row["offset"]), int(row["bytes"])) for row in some] == [
        ("carve", data.index(page), len(page)) for page in pages]
    for row, page in zip(some, pages):
        assert (tmp_path / "box" / row["path"]).read_bytes() == page
        note = note_of(tmp_path / "box", row["path"])
        assert note["source"] == {"bytes": len(data), "sha256": hashlib.sha256(data).hexdigest()}


@pytest.mark.parametrize("fill", [b"\xf6", b"\0"], ids=["F6", "00"])
@pytest.mark.parametrize("name", FORMATS)
def test_pages_on_a_floppy_are_carved(run, box, tmp_path, name, fill):
    data = floppy(FILES, name, fill)
    lines, rows = box({"floppy.img": data})
    assert_carved(tmp_path, rows, "floppy.img", data, [FERRY, WEATHER])
    assert lines["carved"] == "2 pages out of 1 file, in carved" and len(rows) == 2
    assert lines["captures"] == "0 files, cut into 0 parts, in captures"
    assert lines["other kinds"] == "1: 1 disk of DOS" and lines["not known"] == "0 files"
    assert box({}) == (lines, rows)
    said = run(["fix", "--only", "carve", str(tmp_path / "disks" / "floppy.img")])
    assert said.returncode == 0 and said.stdout.count(b"accepted") == 2


@pytest.mark.parametrize("fill", [b"\xf6", b"\0"], ids=["F6", "00"])
@pytest.mark.parametrize("name", FORMATS)
def test_a_fresh_floppy_is_no_capture_and_has_no_page(run, box, tmp_path, name, fill):
    lines, rows = box({"fresh.img": floppy({}, name, fill)})
    assert rows == [] and lines["carved"] == "0 pages out of 0 files, in carved"
    assert lines["captures"] == "0 files, cut into 0 parts, in captures"
    assert lines["other kinds"] == "1: 1 disk of DOS"
    path = str(tmp_path / "disks" / "fresh.img")
    said = run(["check", path])
    assert said.stdout == b"refused 1 EighthBit at 0 (looks like disk of DOS)\n"
    row = json.loads(run(["check", path, "--json"]).stdout)
    assert (row["kind"], row["looks_like"], row["pages"]) == (None, "disk of DOS", None)
    said = run(["fix", path])
    assert b"capture" not in said.stdout and (said.returncode, said.stderr) == (1, b"")


@pytest.mark.parametrize("kind", KINDS)
def test_what_is_not_unpacked_is_carved(box, tmp_path, kind):
    data = KINDS[kind] + bytes(500) + logo() + b"\xff" * 40
    lines, rows = box({"old.dat": data})
    assert_carved(tmp_path, rows, "old.dat", data, [logo()])
    assert (lines["carved"], lines["other kinds"]) == ("1 page out of 1 file, in carved", f"1: 1 {kind}")


def test_a_floppy_of_which_a_treatment_makes_one_page_is_carved_too(box, tmp_path):
    data = floppy(FILES, "160K", b"\0")
    data = data[:36] + bytes(SECTOR - 36 - len(MARK)) + data[SECTOR - len(MARK):]  # (with no name and no program)
    lines, rows = box({"floppy.img": data})
    assert lines["readable copies"] == "1, 0 of them guesses, in readable"
    assert_carved(tmp_path, rows, "floppy.img", data, [FERRY, WEATHER])


def test_what_seems_a_capture_and_has_no_page_among_its_parts_is_carved(run, box, tmp_path):
    data = floppy(FILES)
    data = data[:SECTOR - len(MARK)] + bytes(len(MARK)) + data[SECTOR:]
    assert b"(capture of 2 pages)" in run(["check", file(tmp_path, "floppy", data)]).stdout
    lines, rows = box({"floppy.img": data})
    assert_carved(tmp_path, rows, "floppy.img", data, [FERRY, WEATHER])
    assert lines["carved"] == "2 pages out of 1 file, in carved"


def test_a_capture_that_has_pages_is_cut_and_not_carved(box):
    lines, rows = box({"capture": b"\x18" + logo() + b"\x18" + FERRY + b"\xff"})
    assert [row["how"] for row in rows] == ["split", "split"]
    assert lines["captures"] == "1 file, cut into 2 parts, in captures" and lines["carved"].startswith("0 pages")


def test_other_kinds_are_as_many_as_are_named(box):
    lines, _ = box({"1.bmp": b"BM\x18" + POINT + b"\x18" + POINT, "2.gif": b"GIF89a\xff",
                   "3.nap": b"BM\xff\x0c" + POINT})
    assert lines["captures"].startswith("1 file") and lines["readable copies"].startswith("1,")
    assert lines["other kinds"] == "1: 1 GIF"


def test_pages_on_disks_that_were_not_carved_are_carved_once_that_is_asked_for(box, tmp_path):
    some = {"floppy.img": floppy(FILES), "old.dat": KINDS["ARC"] + bytes(500) + logo() + b"\xff"}
    lines, rows = box(some, "--skip", "carve")
    assert rows == [] and lines["carved"].startswith("0 pages")
    _, rows = box({})
    assert_carved(tmp_path, rows, "floppy.img", some["floppy.img"], [FERRY, WEATHER])
    assert_carved(tmp_path, rows, "old.dat", some["old.dat"], [logo()])
    assert len(rows) == 3


def test_a_long_disk_that_an_earlier_version_passed_over_is_carved(run, tmp_path):
    disk = boot_sector(FORMATS["720K"]) + bytes(17 << 20) + FERRY + b"\xf6" * 512
    tree(tmp_path / "disks", {"hard.img": disk})
    ran = run(box_words(tmp_path))
    assert b"carved:          1 page out of 1 file, in carved\n" in ran.stdout
    pages = KeptPages(str(tmp_path / "box" / "kept.db"))
    (key,), = pages.connection.execute("SELECT own FROM pages")
    pages.put([(key, KeptPage(carved=[], cut=b"").values)])
    pages.close()
    again = run(box_words(tmp_path))
    assert (again.stdout, again.returncode) == (ran.stdout, ran.returncode)
    assert_carved(tmp_path, table(tmp_path / "box", "cut.csv"), "hard.img", disk, [FERRY])
