"""show, fix and the census of a store, and where they and canon put files: each under its folders, none outside."""
import json
import os
import shutil
from pathlib import Path

import pytest

from naplps_pages.collection.store_files import is_store
from naplps_pages.collection.folders import Place
from naplps_pages.collection.session import Names
from naplps_pages.collection.store import open_to_read
from naplps_pages.commands import ALONE
from naplps_pages.console import NotWritten
from naplps_pages.pictures import MOST_PAGES
from command import file
from folders import files_in
from packers import pack
from samples import OUTSIDE, POINT, SPELLED, with_parity
from scans import alter, store_of, tree
from sketches import tiles
from stores import copied, earlier

HELLO = b"\x0fhello"
FILES = {"a/MENU.NAP": with_parity(POINT), "b/MENU.NAP": HELLO + b"\x1a", "b/c/MENU.NAP": b"\x0fA" + b"\x18" + b"B",
         "page": POINT, "copy": POINT, "out": OUTSIDE, "gif": b"GIF89a\x81" * 9, b"\xff": SPELLED + b"\x1a\x1a"}


@pytest.fixture
def pages(tmp_path):
    top = tmp_path / "pages"
    top.mkdir()
    pack(top / "d.tar", {"disk 3/MENU.NAP": with_parity(SPELLED)})
    return str(top)


@pytest.fixture
def store(run, tmp_path, pages):
    return store_of(run, tmp_path, FILES, keeps="repair")


def test_a_store_is_known_by_its_header(store, tmp_path):
    other = str(tmp_path / "other.db")
    alter(other, "CREATE TABLE it(x)")
    assert is_store(store) and not any(map(is_store, (other, str(tmp_path), "/nowhere", "/dev/null", "a\0b")))


@pytest.mark.parametrize("command, other", [
    ("list", "files"), ("show --format html -o made", "report"), ("show --format text", "find"),
    ("make --from", "files")])
def test_a_store_in_place_of_a_page_is_told_with_the_command_that_takes_one(run, store, tmp_path, command, other):
    for size in (os.path.getsize(store), 17 << 20):
        os.truncate(store, size)
        said = run([*command.split(), store], cwd=str(tmp_path))
        assert (said.stdout, said.returncode) == (b"", 3)
        assert said.stderr.decode().startswith(f"naplps-pages: {store}: it is a store: `naplps-pages {other} ")


@pytest.mark.parametrize("command", ["show", "fix"])
def test_a_store_among_pages_is_told(run, store, tmp_path, command):
    said = run([command, file(tmp_path, "page", POINT), store, "-o", str(tmp_path / "made")])
    assert "naplps-pages: %s: %s\n" % (store, ALONE) in said.stderr.decode() and said.returncode == 3


def test_check_says_of_a_store_what_the_file_is(run, store):
    assert run(["check", store]).stdout.endswith(b" (looks like SQLite)\n")


def test_treated_copies_stand_under_their_folders(run, store, tmp_path, to):
    said = run(["fix", store, "-o", to])
    assert said.returncode == 1 and said.stderr == b""
    found, note = files_in(to), tmp_path / "to" / "d.tar!disk 3" / "MENU.NAP.json"
    copies = {b"a/MENU.NAP": POINT, b"b/MENU.NAP": HELLO, b"b/c/MENU.NAP": b"\x0fAB", b"\xff": SPELLED,
              b"d.tar!disk 3/MENU.NAP": SPELLED}
    assert {name: data for name, data in found.items() if not name.endswith(b".json")} == copies
    assert set(found) == {*copies, *(name + b".json" for name in copies)}
    told = note.read_bytes()
    assert json.loads(told)["grade"] == "around"
    assert run(["fix", store, "-o", to]).stderr == b"" and files_in(to) == found and note.read_bytes() == told


def test_sketches_stand_under_their_folders(run, store, pages, to):
    said = run(["show", store, "-o", to])
    assert said.returncode == 1 and set(files_in(to)) == {
        os.fsencode(name) + b".svg" for name in (*FILES, "d.tar!disk 3/MENU.NAP")} - {b"gif.svg"}
    assert said.stderr.decode() == (
        f"naplps-pages: {store}: 8 pictures, 5 of readable copies, 1 of what comes before a refusal; left out: "
        "1 of other formats\n")
    assert b"; treated by parity (around)<" in files_in(to)[b"a/MENU.NAP.svg"]
    assert files_in(to)[b"copy.svg"] == run(["show", os.path.join(pages, "page")]).stdout
    said = run(["show", store])
    assert (said.stdout, said.returncode) == (b"", 2) and b"need -o FOLDER, or -o FILE.svg" in said.stderr


def test_one_sheet_of_a_store(run, store, tmp_path):
    sheet = str(tmp_path / "sheet.svg")
    said = run(["show", store, "-o", sheet])
    assert said.returncode == 1 and said.stdout == b""
    assert [told[0] for told, _ in tiles(Path(sheet).read_text("utf-8"))] == [
        "copy", "out", "page", "\\xff", "a/MENU.NAP", "b/MENU.NAP", "b/c/MENU.NAP", "d.tar!disk 3/MENU.NAP"]
    said = run(["show", store, "-o", sheet])
    assert said.returncode == 1 and b"isn't written over" not in said.stderr


def test_a_sheet_of_a_store_has_no_more_pages_than_others(run, tmp_path):
    some = {"%04d" % at: b"\x0f%d" % at for at in range(MOST_PAGES + 2)}
    store = store_of(run, tmp_path, {**some, "0000 blank": b"", "0001 blank": b"\0"})
    sheet = str(tmp_path / "sheet.svg")
    said = run(["show", store, "-o", sheet])
    assert (said.returncode, said.stderr.decode()) == (
        3, f"naplps-pages: {store}: 1000 pictures; left out: 2 that draw nothing\n"
        f"naplps-pages: {store}: a sheet has 1000 pages at most: 2 files aren't in it\n")
    names = [told[0] for told, _ in tiles(Path(sheet).read_text("utf-8"))]
    assert names == ["%04d" % at for at in range(MOST_PAGES)]


def test_a_store_after_other_pages(run, tmp_path):
    store, to = store_of(run, tmp_path, {"second": b"\x19\x41A"}), str(tmp_path / "to")
    first = file(tmp_path, "first", bytes.fromhex("1B 40 41 0E 26 52 0F 1B 45 1B 2A 7A"))
    assert run(["show", store, "-o", to, "--previous", first]).returncode == 0
    assert files_in(to)[b"second.svg"] == run(["show", str(tmp_path / "pages" / "second"), "--previous", first]).stdout


def test_files_of_several_roots(run, tmp_path):
    tops = [tree(os.path.join(str(tmp_path), name), {"MENU": data}) for name, data in (
        ("one/pages", POINT), ("two/pages", SPELLED), ("three", HELLO))]
    single = os.path.join(tree(tmp_path / "four", {"MENU": OUTSIDE}), "MENU")
    store, to = str(tmp_path / "s.db"), str(tmp_path / "to")
    assert run(["scan", *tops, single, "-o", store]).returncode == 0
    run(["show", store, "-o", to])
    assert len(files_in(to)) == 4 and {b"pages/MENU.svg", b"pages (2)/MENU.svg", b"three/MENU.svg"} < set(files_in(to))


def test_pages_of_one_name_in_two_folders(run, tmp_path, to):
    top = tree(tmp_path / "x", {"a/MENU": POINT, "b/MENU": SPELLED, "b/c": HELLO})
    names = [os.path.join(top, name) for name in ("a/MENU", "b/MENU", "b/c")]
    for command, ending in (("canon", b""), ("show", b".svg")):
        assert run([command, *names, "-o", to + command]).returncode == 0
        assert set(files_in(to + command)) == {name + ending for name in (b"a/MENU", b"b/MENU", b"b/c")}
    assert run(["canon", *names[1:], "-o", to]).returncode == 0 and set(files_in(to)) == {b"MENU", b"c"}
    assert run(["canon", names[0], "-o", to + "1/"]).returncode == 0 and set(files_in(to + "1")) == {b"MENU"}


# Changes to a store that no scan makes.
OF_OUT = "WHERE name = CAST('out' AS BLOB)"
HOSTILE = [
    "UPDATE files SET name = CAST('../../' || name AS BLOB) " + OF_OUT,
    "UPDATE files SET name = CAST('/etc/passwd' AS BLOB) " + OF_OUT,
    "UPDATE files SET name = CAST('..' AS BLOB) " + OF_OUT, "UPDATE files SET name = CAST('.' AS BLOB) " + OF_OUT,
    "UPDATE files SET name = x'2F00' " + OF_OUT,
    "UPDATE files SET name = CAST('disk/../../../x' AS BLOB) WHERE name = CAST('disk 3/MENU.NAP' AS BLOB)",
    "UPDATE folders SET path = CAST(path || '/../../..' AS BLOB) WHERE CAST(path AS TEXT) LIKE '%/b'",
    "UPDATE folders SET path = CAST(replace(CAST(path AS TEXT), '/b', '/b/../../pages/b') AS BLOB)",
    "UPDATE folders SET path = CAST('/elsewhere' AS BLOB) WHERE CAST(path AS TEXT) LIKE '%/b'"]


@pytest.mark.parametrize("words", HOSTILE)
def test_names_of_a_store_lead_nowhere_else(run, store, tmp_path, words):
    to = str(tmp_path / "room" / "in" / "to")
    os.makedirs(to)
    bad = copied(store, str(tmp_path / "bad.db"), words)
    before = set(files_in(tmp_path))
    for command in ("show", "fix"):
        said = run([command, bad, "-o", to])
        assert said.returncode == 3 and b"Traceback" not in said.stderr, said
    assert all(name.startswith(b"room/in/to/") for name in set(files_in(tmp_path)) - before)


def test_names_for_files(store, pages):
    names = Names(open_to_read(store))
    top = os.fsencode(pages)
    assert names.of(Place(top + b"/x", b"y")) == "x/y" and names.of(Place(top + b"/x.tar!/", b"y/z")) == "x.tar!y/z"
    for folder, name in ((b"", b".."), (b"", b"."), (b"/x", b"../y"), (b"", b"/etc/passwd"), (b"/..", b"y"),
                         (b"/../..", b"y"), (b"/x.tar!/", b"../../y"), (b"/x.tar!/..", b"y"), (b"", b""),
                         (b"", b"a/b")):
        with pytest.raises(NotWritten, match="its name in the store isn't that of a file"):
            names.of(Place(top + folder, name))
    for folder in (b"/elsewhere", top + b"2", os.path.dirname(top)):
        with pytest.raises(NotWritten, match="it stands in no folder that was scanned"):
            names.of(Place(folder, b"x"))


def test_a_link_below_the_folder_is_not_followed(run, store, tmp_path):
    to, elsewhere = str(tmp_path / "to"), str(tmp_path / "elsewhere")
    os.makedirs(to)
    os.makedirs(elsewhere)
    os.symlink(elsewhere, os.path.join(to, "b"))
    said = run(["fix", store, "-o", to])
    assert said.returncode == 3 and said.stderr.count(b"/to/b: is a link, and isn't followed\n") == 2
    assert not os.listdir(elsewhere) and b"a/MENU.NAP" in files_in(to)


def test_the_census_of_a_store_tells_what_left_it(run, store, pages, tmp_path):
    told = run(["files", "--census", store]).stdout.decode().splitlines()
    assert told[0] == "8 pages: 1 accepted, 7 refused"
    assert told[-1].startswith("first: the refusal's own, which is exact.")
    os.unlink(os.path.join(pages, "out"))
    os.unlink(os.path.join(pages, "copy"))
    said = run(["files", "--census", store, "--json"])
    left = json.loads(said.stdout)
    assert said.returncode == 1 and said.stderr.decode() == (
        f"naplps-pages: {pages}/out: it vanished while it was looked at\n")
    row, = (row for row in left["codes"] if row["code"] == "Outside")
    assert left["in_part"] == 1 and row == {"code": "Outside", "first": 1, "pages": 1, "alone": 0, "times": 1}
    old = earlier(store, str(tmp_path / "old.db"))
    assert json.loads(run(["files", "--census", old, "--json"]).stdout)["refused"] == 7


def test_what_is_no_file_below_the_folder_is_left_alone(run, store, pages, tmp_path):
    """It isn't written to, as a file is that was named by itself, nor read, nor waited for."""
    canon = [os.path.join(pages, "page"), os.path.join(pages, "copy")]
    for command, names, given in (("show", ("page.svg", "copy.svg"), [store]), ("canon", ("page", "copy"), canon),
                                  ("fix", ("b/MENU.NAP", "a/MENU.NAP.json"), [store])):
        to = os.path.join(str(tmp_path), command)
        paths = [os.path.join(to, name) for name in names]
        for path in paths:
            os.makedirs(os.path.dirname(path), exist_ok=True)
        os.mkfifo(paths[0])
        os.symlink("/dev/zero", paths[1])
        before = [os.lstat(path)[:7] for path in paths]
        said = run([command, *given, "-o", to])
        told = [f"{path}: is there already with other bytes, and isn't written over\n" for path in paths]
        assert said.returncode == 3 and [said.stderr.decode().count(each) for each in told] == [1, 1], said
        assert [os.lstat(path)[:7] for path in paths] == before


def test_canonical_pages_go_into_no_link(run, store, tmp_path):
    to, elsewhere = str(tmp_path / "to"), str(tmp_path / "elsewhere")
    assert run(["canon", store, "-o", to]).returncode == 0
    (first, *_) = sorted(os.listdir(to))
    shutil.rmtree(os.path.join(to, first))
    os.mkdir(elsewhere)
    os.symlink(elsewhere, os.path.join(to, first))
    said = run(["canon", store, "-o", to])
    assert said.returncode == 3 and said.stderr.endswith(b": is a link, and isn't followed\n")
    assert not os.listdir(elsewhere)


def test_notes_that_others_made_are_not_read_for_long(run, store, tmp_path):
    to, note = str(tmp_path / "to"), str(tmp_path / "to" / "b" / "MENU.NAP.json")
    assert run(["fix", store, "-o", to]).returncode == 1
    size = os.path.getsize(note)
    for data, length in ((b"[" * size, size), (b"{", 1 << 40)):
        with open(note, "wb") as file:
            file.write(data)
            file.truncate(length)
        said = run(["fix", store, "-o", to])
        assert said.returncode == 3 and said.stderr.endswith(
            b"b/MENU.NAP.json: is there already with other bytes, and isn't written over\n"), said
