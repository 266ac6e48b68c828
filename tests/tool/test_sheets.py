"""Contact sheets: what is in them, their bounds, where they go, and what is told where there is no librsvg."""
import os
import shutil
import struct

import pytest

from command import file
from folders import files_in
from naplps import drawing
from naplps.drawing import paper
from naplps_pages import messages
from naplps_pages.pictures import MOST_PAGES, RSVG_CONVERT, ContactSheet, Tile
from samples import OUTSIDE, POINT, SPELLED, has
from scans import tree
from sketches import INK, SVG, parsed, tiles

GLYPH = bytes.fromhex("1B 43 21 0E 26 52 1B 45 1B 2B 7B 1D 21")
needs_librsvg = pytest.mark.skipif(not has("rsvg-convert"), reason="there is no rsvg-convert")


def read(path):
    return path.read_text("utf-8")


def test_a_sheet_has_all_pages(run, tmp_path):
    names = [file(tmp_path, name, data) for name, data in (
        ("one", GLYPH), ("two", GLYPH), ("<b>&\n.nap", POINT), ("bad", OUTSIDE))]
    path = tmp_path / "sheet.svg"
    said = run(["show", *map(os.path.basename, names), "none", "-o", "sheet.svg"], cwd=str(tmp_path))
    found = tiles(read(path))
    assert [told for told, _ in found] == [
        ["one", "accepted 4 entries"], ["two", "accepted 4 entries"], ["<b>&\\n.nap", "accepted 1 entries"],
        ["bad", "refused 10 Outside at 3"]]
    assert all(len(list(picture.iter(SVG + "use"))) == 1 for _, picture in found[:2])
    assert found[3][1].find(SVG + "title").text == "bad: refused 10 Outside at 3"
    assert said.returncode == 3 and said.stdout == b"" and b"none: No such file" in said.stderr
    assert parsed(read(path)).find(SVG + "title").text == "Contact sheet of 4 pages"
    again = run(["show", "one", "two", "-o", "sheet.svg"], cwd=str(tmp_path))
    assert again.returncode == 3
    assert again.stderr.endswith(b"is there already with other bytes, and isn't written over\n")


def test_a_guess_in_a_sheet_is_told(run, tmp_path):
    page, path = file(tmp_path, "bad", POINT + b"\x18" + POINT), tmp_path / "sheet.svg"
    run(["show", page, file(tmp_path, "good", POINT), "--guess", "-o", str(path)])
    (told, picture), _ = tiles(read(path))
    assert told[1].endswith("; then a guess") and picture.find(SVG + "title").text.endswith("; then a guess")
    assert [each.attrib["aria-label"] for each in picture.iter(SVG + "g") if "mask" in each.attrib] == ["a guess"]


def test_a_sheet_is_bounded():
    lines = ["POLY-FILLED" + " 1,2 90000,3 4,90000" * 600 + " " + INK] * 8
    sheet = ContactSheet()
    for number in range(60):
        sheet.add(Tile("page %d" % number, "accepted", drawing.drawn(lines, prefix=sheet.prefix())))
    svg = sheet.svg()
    found = tiles(svg)
    assert len(svg.encode()) <= paper.MOST_BYTES and sheet.weight <= paper.MOST_WEIGHT and len(found) == 60
    left_out = [any(each.text == "too much for a sheet" for each in picture.iter(SVG + "text")) for _, picture in found]
    assert not left_out[0] and left_out[-1]


def test_a_sheet_of_large_pictures_has_its_bytes():
    lines = ["CHAR primary 41 pen=%d,9 colour=own-start text=0,0/1,1/----" % at for at in range(0, 20_000, 8)]
    sheet = ContactSheet()
    for number in range(MOST_PAGES):
        drawn = drawing.drawn(lines, prefix="s%d" % number) if number < 9 else None
        sheet.add(Tile("\u20ac" * 400, "\u20ac" * 400, drawn))
    assert len(sheet.svg().encode()) <= paper.MOST_BYTES


def test_a_sheet_is_no_larger_than_librsvg_makes_it():
    for number in (1, 700, 800, MOST_PAGES):
        sheet = ContactSheet()
        for _ in range(number):
            sheet.add(Tile("page", "", None))
        wide, high = (int(parsed(sheet.svg()).get(name)) for name in ("width", "height"))
        assert wide < 1 << 15 and high < 1 << 15


def test_long_names_are_cut_in_their_midst():
    sheet = ContactSheet()
    sheet.add(Tile("a" * 100 + "z" * 100, "accepted", None))
    (told, picture), = tiles(sheet.svg())
    assert len(told[0]) < 50 and told[0].startswith("aa") and told[0].endswith("zz") and ".." in told[0]
    assert picture.find(SVG + "title").text.startswith("a" * 100 + "z" * 100)


@pytest.mark.parametrize("words", [
    ["a", "b", "-o", ""], ["a"] * (MOST_PAGES + 1) + ["-o", "f.svg"], ["a", "b"], ["a", "b", "--format", "png"],
    ["a", "b", "-o", "-"], ["a", "b", "-o", "f.html"], ["a", "b", "-o", "f.apng"],
    ["a", "b", "-o", "f.svg", "--scale", "2"]], ids=lambda words: " ".join(words)[-24:])
def test_wrong_words(run, tmp_path, words):
    for name in "ab":
        file(tmp_path, name, POINT)
    said = run(["show", *words], cwd=str(tmp_path))
    assert (said.returncode, said.stdout) == (2, b"") and sorted(os.listdir(tmp_path)) == ["a", "b"]


@pytest.mark.parametrize("out, made", [
    ("to", {"to/a.svg", "to/b.svg"}), ("to/", {"to/a.svg", "to/b.svg"}), ("to.d", {"to.d/a.svg", "to.d/b.svg"}),
    ("there", {"there/a.svg", "there/b.svg"}), ("there.svg", {"there.svg/a.svg", "there.svg/b.svg"}),
    ("sheet.svg", {"sheet.svg"}), ("sheet.SVG", {"sheet.SVG"})])
def test_where_pictures_go(run, tmp_path, out, made):
    for name in ("there", "there.svg"):
        (tmp_path / name).mkdir()
    files = [file(tmp_path, name, POINT) for name in "ab"]
    for _ in range(2):  # (what is there with the same bytes stays)
        said = run(["show", *files, "-o", out], cwd=str(tmp_path))
        assert (said.returncode, said.stdout, said.stderr) == (0, b"", b"")
    assert set(map(os.fsdecode, files_in(tmp_path))) == {"a", "b", *made}


@pytest.mark.parametrize("out", ["to", "sheet.svg"])
def test_of_a_store_what_changed_is_told_and_not_shown(run, tmp_path, out):
    pages = tree(tmp_path / "pages", {"a": POINT, "b": SPELLED, "c": OUTSIDE})
    assert run(["scan", pages, "-o", str(tmp_path / "s.db")]).returncode == 0
    words = ["show", str(tmp_path / "s.db"), "-o"]
    assert run([*words, str(tmp_path / ("whole " + out))]).returncode == 1  # (a page is refused)
    changed = file(pages, "b", POINT + POINT)
    said = run([*words, str(tmp_path / out)])
    told = f"naplps-pages: {changed}: it isn't as it was when it was scanned\n"
    assert said.returncode == 1 and told in said.stderr.decode()
    if out == "to":
        assert sorted(os.listdir(tmp_path / "to")) == ["a.svg", "c.svg"]
    else:
        assert [names[0].rpartition("/")[2] for names, _ in tiles(read(tmp_path / out))] == ["a", "c"]


def size_of(data):
    """The width and height of a PNG."""
    assert data[:8] == b"\x89PNG\r\n\x1a\n"
    return struct.unpack(">II", data[16:24])


@needs_librsvg
def test_png(run, tmp_path):
    page = file(tmp_path, "page", POINT)
    for name in ("sheet.svg", "sheet.png"):
        assert run(["show", page, page, "-o", str(tmp_path / name)]).returncode == 0
    sheet = parsed(read(tmp_path / "sheet.svg"))
    assert size_of((tmp_path / "sheet.png").read_bytes()) == (int(sheet.get("width")), int(sheet.get("height")))


def with_program(folder, monkeypatch, text):
    """A folder alone on PATH, with python3 and a rsvg-convert of this text, or none."""
    folder.mkdir()
    for name in ("python3", "sh", "env", "dirname", "readlink", "sleep"):
        (folder / name).symlink_to(shutil.which(name))
    if text:
        (folder / "rsvg-convert").write_text(text, "ascii")
        (folder / "rsvg-convert").chmod(0o755)
    monkeypatch.setenv("PATH", str(folder))


@pytest.mark.parametrize("text, told", [
    ("", messages.NO_RSVG_CONVERT.format(program=RSVG_CONVERT)),
    ("#!/bin/sh\necho no luck >&2\nexit 1\n", "rsvg-convert failed: no luck"),
    ("#!/bin/sh\nexit 0\n", "rsvg-convert failed: "),
    ("#!/bin/sh\nexec sleep 600\n", "rsvg-convert didn't end in 8 s")])
def test_where_librsvg_fails_there_is_a_message(run, tmp_path, monkeypatch, text, told):
    page, sheet = file(tmp_path, "page", POINT), tmp_path / "sheet.png"
    with_program(tmp_path / "bin", monkeypatch, text)
    said = run(["show", page, page, "-o", str(sheet), "--timeout", "8"])
    assert said.returncode == 3 and said.stdout == b"" and told in said.stderr.decode(), said
    assert not sheet.exists() and b"Traceback" not in said.stderr


def test_a_page_refused_before_anything_is_drawn_is_no_black_page(run, tmp_path):
    names = [file(tmp_path, name, data) for name, data in (("cut", b"\x1b"), ("some", POINT + b"\x1b"), ("blank", b""))]
    run(["show", *map(os.path.basename, names), "-o", "sheet.svg"], cwd=str(tmp_path))
    for (told, picture), fill in zip(tiles(read(tmp_path / "sheet.svg")), ("#2b3238", "#000000", "#000000")):
        assert picture.find(SVG + "rect").attrib["fill"] == fill, told


def test_names_without_a_common_folder_are_shown_from_their_ends(run, tmp_path):
    names = ("a/one.nap", "archive of the year/disk 1/folder/page.nap", "b/" + "long " * 9 + ".nap")
    for name in names:
        os.makedirs(tmp_path / os.path.dirname(name))
        file(tmp_path, name, POINT)
    run(["show", *names, str(tmp_path / "a/one.nap"), "-o", "sheet.svg"], cwd=str(tmp_path))
    found = [told[0] for told, _ in tiles(read(tmp_path / "sheet.svg"))]
    assert found[:3] == ["a/one.nap", "../disk 1/folder/page.nap", "long long long .. long long .nap"]
    assert found[3].startswith("../") and found[3].endswith("/a/one.nap") and max(map(len, found)) <= 32
