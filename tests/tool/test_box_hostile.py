"""Strangers' files in the folder of a box: none is followed, deleted, overwritten or believed, and what somebody
changed stays.
"""
import json
import os
import shutil
import sqlite3
import stat
import subprocess
import sys
import zlib
from contextlib import closing
from itertools import zip_longest
from pathlib import Path

import pytest

from box_runs import FOLDERS, box_words
from command import COMMAND, NOBODY, file, open_to_all
from folders import files_in
from journals import names_further
from naplps_pages import new_files
from naplps_pages.box import making
from naplps_pages.box.kept_pages import KeptPages
from naplps_pages.cli import main
from naplps_pages.collection.store import StoreFailed
from samples import POINT, SPELLED
from scans import tree
from spelled import image_with_logo

NSR = b"\x1f@@"
FILES = {"a.nap": SPELLED, "sick.nap": POINT + b"\x1a", "two": POINT + NSR + SPELLED, "disk.img": image_with_logo()}


@pytest.fixture
def box(run, tmp_path):
    """The words that make a box again, which was made once."""
    tree(tmp_path / "disks", FILES)
    assert run(box_words(tmp_path)).stderr == b""
    return box_words(tmp_path)


def output_of(place):
    """The files of a box but its databases."""
    return {name: data for name, data in files_in(place).items() if not name.endswith(b".db")}


def test_a_journal_that_names_another_file_deletes_nothing(run, box, tmp_path):
    place, precious = tmp_path / "box", file(tmp_path, "precious", b"mine")
    journal = names_further(place / "kept.db", precious)
    file(place, "kept.db-journal", journal)
    before = files_in(place)
    ran = run(box)
    assert ran.returncode == 3 and ran.stderr.decode() == (
        f"naplps-pages: {place}/kept.db: its journal, -journal, isn't that of a store: it names another file\n")
    with pytest.raises(StoreFailed, match="names another file"):  # (as what draws a report opens it)
        KeptPages(str(place / "kept.db"))
    assert files_in(place) == before and os.path.exists(precious)
    os.unlink(place / "kept.db-journal")
    os.unlink(place / "kept.db")
    file(place, "kept.db-journal", journal)
    assert run(box).returncode == 3 and os.path.exists(precious)


@pytest.mark.parametrize("ending", ["-wal", "-journal", "-shm"])
@pytest.mark.parametrize("kind", ["a second name", "a link", "a pipe"])
def test_what_stands_beside_pages_and_is_another_file_stays(run, box, tmp_path, ending, kind):
    mine, there = file(tmp_path, "mine", b"my own words"), str(tmp_path / "box" / "kept.db") + ending
    {"a second name": lambda: os.link(mine, there), "a link": lambda: os.symlink(mine, there),
     "a pipe": lambda: os.mkfifo(there)}[kind]()
    tree(tmp_path / "disks", {"b.nap": POINT})
    ran = run(box)
    assert ran.returncode == 3 and ran.stderr.decode() == (
        f"naplps-pages: {tmp_path}/box/kept.db: what stands beside it, as {ending}, is no file of its own\n")
    assert Path(mine).read_bytes() == b"my own words"


@pytest.mark.parametrize("is_made", [True, False])
@pytest.mark.parametrize("kind", ["another database", "nothing", "an empty file", "a folder", "a text"])
def test_what_has_the_name_of_a_file_of_claims_is_left_alone(run, tmp_path, kind, is_made):
    """Earlier versions opened what had this name."""
    tree(tmp_path / "disks", FILES)
    place, other = tmp_path / "box", tmp_path / "other"
    if is_made:
        assert run(box_words(tmp_path)).returncode == 0
    else:
        place.mkdir()
    if kind == "another database":
        with closing(sqlite3.connect(other)) as connection:
            connection.execute("CREATE TABLE bookmarks(a)")
    elif kind in ("an empty file", "a text"):
        other.write_bytes(b"words\n" * (kind == "a text"))
    elif kind == "a folder":
        other.mkdir()
    before = other.exists() and other.lstat()[:9]
    (place / ".naplps-claiming").symlink_to(other)
    run(box_words(tmp_path))
    assert (other.exists() and other.lstat()[:9]) == before


def test_a_box_keeps_what_it_has_of_pages_private(run, box, tmp_path):
    modes = {name: stat.S_IMODE(os.stat(tmp_path / "box" / name).st_mode) for name in ("box.db", "kept.db")}
    assert modes == {"box.db": 0o600, "kept.db": 0o600}


def packed(data):
    return zlib.compress(data, 1)


# What somebody else may put into what is kept of pages, by the page that is meant: changes to a row, with a value.
CANON = (("canon = ?", packed(b"not the page")), ("canon = ?", "text"), ("canon = ?", packed(bytes(range(256)))[:-9]))
TREATED = (
    ("copy = ?", packed(SPELLED)), ("copy = ?", 5), ("cure = ?", "[1]"), ("cure = ?", "{}"),
    ("cure = ?", '{"entries": "1"}'), ("cure = replace(cure, '\"grade\"', ?)", '"grade": "within", "other"'),
    ("cure = json_replace(cure, '$.source.sha256', ?)", "00" * 32), ("cure = ?", "[" * 100_000),
    ("cure = json_replace(cure, '$.entries', ?)", 2), ("copied = ?", 7))
PARTS = (
    ("data = ?", packed(SPELLED + NSR + POINT)), ("parts = replace(parts, '[[0, 5', ?)", "[[0, 500"),
    ("parts = replace(parts, '[[0, 5', ?)", "[[-1, 5"), ("parts = replace(parts, '[[0, 5', ?)", '[["x", 5'),
    ("parts = ?", "[[1]]"), ("parts = ?", "7"), ("parts = replace(parts, ?, 'agreed')", "accepted"),
    ("parts = ?", '{"a": 1}'), ("parts = replace(parts, ?, '\\u00e9')", "accepted"), ("parts = ?", None))
CARVED = (
    ("cut = ?", packed(b"cut")), ("carved = replace(carved, '[[', ?)", '[["x", '),
    ("carved = '[' || substr(carved, 2, length(carved) - 2) || ', ' || substr(carved, 2), cut = ?",
     packed(image_with_logo()[790:1167] * 2)), ("carved = json_replace(carved, '$[0][0]', ?)", 1 << 40))
FORGED = [*zip_longest(CANON, TREATED, PARTS, CARVED)]
WHERE = ("canon IS NOT NULL", "cure IS NOT NULL", "parts IS NOT NULL", "carved <> '[]'")


def forge(place, forged):
    """Puts forged values into what is kept, and takes what was made of them away, with the report."""
    with closing(sqlite3.connect(place / "kept.db")) as connection, connection:
        for change, where in zip(forged, WHERE):
            if change:
                assert connection.execute(f"UPDATE pages SET {change[0]} WHERE {where}", change[1:]).rowcount == 1
    for folder in FOLDERS:
        shutil.rmtree(place / folder)
    os.unlink(place / "index.html")


@pytest.mark.parametrize("forged", FORGED, ids=range(len(FORGED)))
def test_what_is_kept_of_pages_is_believed_only_where_it_can_be_so(run, box, tmp_path, forged):
    place = tmp_path / "box"
    before = output_of(place)
    forge(place, forged)
    ran = run(box)
    assert (ran.returncode, ran.stderr) == (0, b""), ran
    after = output_of(place)
    assert set(before) == set(after) and {name for name in before if after[name] != before[name]} <= {b"index.html"}


def test_what_is_forged_of_files_that_changed_is_told_and_not_made(run, box, tmp_path):
    """A store says so of a file by its times, which are those of before."""
    place = tmp_path / "box"
    forge(place, FORGED[0])
    for path in (tmp_path / "disks").iterdir():
        marks = path.stat()
        path.write_bytes(path.read_bytes()[::-1])
        os.utime(path, ns=(marks.st_atime_ns, marks.st_mtime_ns))
    with closing(sqlite3.connect(place / "box.db")) as connection, connection:
        for name in FILES:
            marks = (tmp_path / "disks" / name).stat()
            connection.execute("UPDATE files SET ctime_ns = ? WHERE name = ?", (marks.st_ctime_ns, name.encode()))
    ran = run(box)
    made = [name for name in output_of(place) if name.split(b"/")[0].decode() in FOLDERS]
    assert ran.returncode == 1 and made == []
    for name in FILES:
        assert f"/disks/{name}: it isn't as it was when it was scanned\n" in ran.stderr.decode()


@pytest.mark.parametrize("kind", ["zeros", "a link", "a link of its length", "a folder", "a pipe"])
def test_a_wrong_canonical_page_is_told_and_the_rest_is_made(run, box, tmp_path, kind):
    place = tmp_path / "box"
    path, = map(str, (place / "canonical").rglob("*.nap"))
    data = Path(path).read_bytes()
    os.unlink(path)
    other = file(tmp_path, "other", b"mine")
    length = len(data) - len(other)
    {"zeros": lambda: file(os.path.dirname(path), os.path.basename(path), bytes(len(data))),
     "a link": lambda: os.symlink(other, path),
     "a link of its length": lambda: os.symlink("/" * max(0, length) + other, path),
     "a folder": lambda: os.mkdir(path), "a pipe": lambda: os.mkfifo(path)}[kind]()
    tree(tmp_path / "disks", {"b": SPELLED + b"\x1a\x1a"})
    ran = run(box)
    why = "isn't as the box made it" if kind == "zeros" else "is there already, and is no file\n"
    assert ran.returncode == 3 and ran.stderr.decode().startswith(f"naplps-pages: {path}: {why}")
    assert ran.stderr.count(b"\n") == 1 and (place / "readable" / "b").read_bytes() == SPELLED
    assert len(ran.stdout.splitlines()) == 10 and b"/disks/b," in (place / "files.csv").read_bytes()


def test_a_report_that_somebody_changed_stays(run, box, tmp_path):
    place, report = tmp_path / "box", tmp_path / "box" / "index.html"
    words = report.read_bytes() + b"<p>My own words"
    report.write_bytes(words)
    for number in range(2):
        tree(tmp_path / "disks", {f"{number}.nap": POINT + SPELLED * number})
        ran = run(box)
        assert ran.returncode == 3 and ran.stderr.decode() == (
            f"naplps-pages: {report}: isn't as the box made it, and isn't written over: move it away, and the same "
            "command makes it anew\n")
        assert report.read_bytes() == words and len(ran.stdout.splitlines()) == 10
    os.rename(report, place.parent / "mine.html")
    assert run(box).stderr == b""
    made = report.read_bytes()
    assert b"My own words" not in made
    tree(tmp_path / "disks", {"new.nap": POINT + POINT})
    assert run(box).stderr == b"" and report.read_bytes() != made


class _Ended(Exception):
    pass


@pytest.mark.parametrize("moment", ["_note", "_forget"])
def test_a_run_that_ends_as_it_puts_a_report_is_no_change_of_somebody(naplps, run, box, tmp_path, monkeypatch, moment):
    report = str(tmp_path / "box" / "index.html")
    is_moving = []

    def move(put, *words):
        is_moving.append(True)
        return moved(put, *words)

    def ends(put, *words):
        if is_moving:
            raise _Ended
        return whole(put, *words)
    monkeypatch.setenv("NAPLPS", naplps)
    tree(tmp_path / "disks", {"b.nap": POINT})
    moved, whole = making.PutFiles.move, getattr(making.PutFiles, moment)
    monkeypatch.setattr(making.PutFiles, "move", move)
    monkeypatch.setattr(making.PutFiles, moment, ends)
    assert main(box, COMMAND) == 70
    monkeypatch.undo()
    ran = run(box)
    assert (ran.returncode, ran.stderr) == (0, b"") and os.path.exists(report)
    assert not [name for name in os.listdir(tmp_path / "box") if name.startswith(".naplps-")]


# Puts a link to a file in place of each that isn't whole yet.
EXCHANGE = """
import pathlib, sys
for path in pathlib.Path(sys.argv[1]).glob(".naplps-*"):
    path.rename(path.with_name("taken"))
    path.symlink_to(sys.argv[2])
"""


def exchanged(folder, victim):
    """Does so, as another user where that can be."""
    other = {"user": NOBODY, "group": NOBODY, "extra_groups": []} if os.geteuid() == 0 else {}
    subprocess.run([sys.executable, "-c", EXCHANGE, folder, victim], check=True, **other)


@pytest.mark.parametrize("put", [new_files.put_inside, new_files.replace])
def test_a_file_that_is_written_gives_no_other_file_its_mode(tmp_path, monkeypatch, put):
    key, shared = file(tmp_path, "key", b"secret"), tmp_path / "shared"
    os.chmod(key, 0o600)
    shared.mkdir()
    shared.chmod(0o777)
    open_to_all(tmp_path)
    monkeypatch.setattr(new_files.os, "fsync", lambda _: exchanged(str(shared), key))
    put(str(shared / "page.svg"), b"<svg/>")
    modes = [stat.S_IMODE(os.stat(path).st_mode) for path in (key, shared / "taken")]
    assert modes == [0o600, 0o666 & ~new_files._mask()]
    assert Path(key).read_bytes() == b"secret"


def test_names_of_a_forged_store_end_no_box(run, box, tmp_path):
    place = tmp_path / "box"
    with closing(sqlite3.connect(place / "box.db")) as connection, connection:
        connection.execute("INSERT INTO files SELECT folder, x'6100', state, why, size, mtime_ns, ctime_ns, inode, "
                           "page, run FROM files WHERE name = CAST('sick.nap' AS BLOB)")
    ran = run(box)
    assert b"the tool itself failed" not in ran.stderr and len(ran.stdout.splitlines()) in (0, 10), ran
    assert json.loads((place / "readable" / "sick.nap.json").read_bytes())["entries"] == 1
