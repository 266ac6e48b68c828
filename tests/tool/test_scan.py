"""Scans: what they tell and keep, what is known again, and what is gone."""
import hashlib
import json
import os
import stat
import subprocess
from pathlib import Path

import pytest

from command import COMMAND, TOP
from naplps_pages.collection import tables
from naplps_pages.collection.store_files import Lock
from samples import MACRO, OUTSIDE, POINT, POINT_AND_BELL, SPELLED, with_parity
from scans import FAKE, FileRow, is_sound, rows, statuses, table, tree

CANON = bytes.fromhex("0E215F265240404040404040")


@pytest.fixture
def pages(tmp_path):
    return tree(tmp_path / "pages", {
        "a": POINT, "b": SPELLED, "c": POINT, "sub/bad": OUTSIDE, "sub/cut": b"\x1b", "sub/bell": POINT_AND_BELL})


def scan(run, pages, store, *words, **more):
    said = run(["scan", pages, "-o", store, *words], **more)
    assert b"Traceback" not in said.stderr
    return said


def test_what_a_scan_keeps(run, pages, store):
    said = scan(run, pages, store)
    assert (said.stdout.decode(), said.stderr, said.returncode) == (
        "6 files: 4 accepted (4 pages), 2 refused; 0 known, 5 pages asked about\n", b"", 0)
    own = {name: hashlib.sha256(data).digest() for name, data in (
        ("point", POINT), ("spelled", SPELLED), ("bad", OUTSIDE), ("cut", b"\x1b"), ("bell", POINT_AND_BELL))}
    point = {"size": 5, "answer": tables.ACCEPTED, "entries": 1, "canon": hashlib.sha256(CANON).digest(),
             "canon_size": 12, "kind": tables.PAGE, "several": 0}
    bell = {"size": 6, "answer": tables.ACCEPTED, "entries": 2, "canon": hashlib.sha256(CANON + b"\x07").digest(),
            "canon_size": 13, "kind": tables.PAGE, "several": 0}
    assert table(store, pages) == [
        FileRow(b"", b"a", own=own["point"], **point), FileRow(b"", b"b", own=own["spelled"], **point),
        FileRow(b"", b"c", own=own["point"], **point),
        FileRow(b"/sub", b"bad", own=own["bad"], size=5, answer=tables.REFUSED, number=10, place=3,
                looks_like=""),
        FileRow(b"/sub", b"bell", own=own["bell"], **bell),
        FileRow(b"/sub", b"cut", own=own["cut"], size=1, answer=tables.REFUSED, number=19, place=1,
                looks_like="")]
    assert is_sound(store) and sorted(os.listdir(os.path.dirname(store))) == ["pages", "pages.db"]
    assert rows(store, "SELECT number, name FROM faults") == [(10, "Outside"), (19, "Cut")]


def test_what_is_known_is_neither_read_nor_asked(run, pages, store, fake):
    scan(run, pages, store)
    for name in ("a", "sub/bad"):
        os.utime(os.path.join(pages, name), (1, 1))             # (looked at again, but its bytes are known)
    said = scan(run, pages, store)
    assert said.stdout == b"6 files: 4 accepted (4 pages), 2 refused; 4 known, 0 pages asked about\n"
    assert scan(run, pages, store).stdout == b"6 files: 4 accepted (4 pages), 2 refused; 6 known, 0 pages asked about\n"
    said = scan(run, pages, store, "--rescan")
    assert said.stdout == b"6 files: 4 accepted (4 pages), 2 refused; 0 known, 5 pages asked about\n"


def test_another_budget_and_another_program_are_asked(run, pages, store, fake):
    tree(pages, {"macro": MACRO})
    scan(run, pages, store)
    said = scan(run, pages, store, "--budget", "3")
    assert said.stdout == b"7 files: 4 accepted (4 pages), 3 refused; 0 known, 6 pages asked about\n"
    assert b"7 known" in scan(run, pages, store, "--budget", "3").stdout
    said = scan(run, pages, store, "--budget", "3", program=fake(FAKE))
    assert said.stdout == b"7 files: 7 accepted (7 pages), 0 refused; 0 known, 6 pages asked about\n"
    assert [budget for budget, in rows(store, "SELECT budget FROM terms ORDER BY id")] == [1048576, 3, 3]


def test_changed_files_new_files_and_gone_files(run, pages, store):
    scan(run, pages, store)
    tree(pages, {"a": b"\x18", "new/page": POINT})
    os.unlink(os.path.join(pages, "b"))
    for name in ("bad", "cut", "bell"):
        os.unlink(os.path.join(pages, "sub", name))
    os.rmdir(os.path.join(pages, "sub"))
    said = scan(run, pages, store)
    assert said.stdout == b"3 files: 2 accepted (2 pages), 1 refused; 1 known, 1 page asked about; 4 gone\n"
    assert statuses(store)["b"] == ("gone", None) and statuses(store)["bell"] == ("gone", None)
    said = scan(run, pages, store)
    assert said.stdout == b"3 files: 2 accepted (2 pages), 1 refused; 3 known, 0 pages asked about\n"
    tree(pages, {"b": SPELLED})                                 # (it is back)
    assert b"4 files: 3 accepted (3 pages), 1 refused; 3 known, 0 pages" in scan(run, pages, store).stdout
    assert statuses(store)["b"] == ("accepted", None)


def test_other_roots_stay(run, tmp_path, store):
    one, two = (tree(os.path.join(str(tmp_path), name), {"a": POINT, "b/c": SPELLED}) for name in ("one", "one more"))
    scan(run, one, store)
    os.unlink(os.path.join(one, "a"))
    assert scan(run, two, store).stdout == b"2 files: 2 accepted (2 pages), 0 refused; 0 known, 0 pages asked about\n"
    assert "gone" not in [status for status, _ in statuses(store).values()]
    said = run(["scan", one, two, os.path.join(one, "b"), "-o", store])
    assert said.stdout == b"3 files: 3 accepted (3 pages), 0 refused; 3 known, 0 pages asked about; 1 gone\n"


@pytest.mark.parametrize("part", [[], ["--shard", "0/1"]])
@pytest.mark.parametrize("how", ["missing", "empty", "a file"])
def test_a_disk_that_isnt_mounted(run, pages, store, how, part):
    scan(run, pages, store, *part)
    os.rename(pages, pages + ".away")
    if how == "empty":
        os.mkdir(pages)
    if how == "a file":
        tree(os.path.dirname(pages), {"pages": b""})
    before = table(store)
    said = scan(run, pages, store, *part)
    assert said.returncode == 3 and table(store) == before
    reason = {"missing": "No such file or directory", "a file": "Not a directory", "empty":
              "it is empty, and had files before: is it mounted? Nothing in it is marked as gone"}[how]
    assert said.stderr.decode() == "naplps-pages: %s: %s\n" % (pages, reason)
    assert reason in run(["files", store]).stdout.decode()


@pytest.mark.parametrize("names", [["typo"], ["typo", "no/where"], ["loose"], ["fifo"], ["/dev/null"]])
def test_names_that_are_not_there_leave_nothing(run, tmp_path, names):
    os.symlink("nowhere", str(tmp_path / "loose"))
    os.mkfifo(str(tmp_path / "fifo"))
    said = run(["scan", *names, "-o", "pages.db"], cwd=str(tmp_path))
    assert (said.returncode, said.stdout) == (3, b"") and sorted(os.listdir(str(tmp_path))) == ["fifo", "loose"]
    why = "it is no regular file" if names[0] in ("fifo", "/dev/null") else "No such file or directory"
    assert said.stderr.decode().splitlines() == [
        "naplps-pages: %s: %s" % (os.path.join(str(tmp_path), name), why) for name in names]


def test_one_of_several_names_is_not_there(run, pages, store):
    said = run(["scan", pages, pages + ".typo", "-o", store])
    assert said.returncode == 3 and said.stdout.startswith(b"6 files: ")
    assert said.stderr.decode() == "naplps-pages: %s.typo: No such file or directory\n" % pages


def test_a_file_by_itself(run, pages, store):
    """Nothing is said of what stands beside it, be it known or not."""
    name = os.path.join(pages, "one.nap")
    tree(pages, {"one.nap": POINT})
    for _ in range(2):
        said = run(["scan", "one.nap", "-o", store], cwd=pages)
        assert (said.returncode, said.stderr) == (0, b"")
        assert said.stdout.startswith(b"1 file: 1 accepted (1 page), 0 refused; 0 known, ")
        assert statuses(store) == {"one.nap": ("accepted", None)}
        assert rows(store, "SELECT DISTINCT path FROM roots") == [(os.fsencode(name),)]
    assert run(["scan", pages, "-o", store]).stdout.startswith((b"7 files: 5 accepted (5 pages), 2 refused; 1 known, "))
    before = table(store)
    tree(pages, {"one.nap": OUTSIDE})
    for each in ("sub", "a"):
        if os.path.isfile(os.path.join(pages, each)):
            os.unlink(os.path.join(pages, each))
    os.symlink(name, store + ".link")
    for word in (name, store + ".link"):
        said = run(["scan", word, "-o", store])
        assert said.stdout.startswith(b"1 file: 0 accepted, 1 refused; 0 known, ")
        assert [row for row in table(store) if not row[1] == b"one.nap"] == [
            row for row in before if not row[1] == b"one.nap"]
    os.unlink(name)
    os.mkfifo(name)
    said = run(["scan", name, "-o", store])
    assert said.returncode == 3 and statuses(store)["one.nap"] == ("refused", None)
    assert run(["scan", store, "-o", store]).stdout.startswith(b"0 files: ")
    os.unlink(name)
    tree(pages, {"one.nap": POINT, "a": POINT})
    assert run(["scan", name, "-o", store]).returncode == 0
    for words in (["files", store], ["equal", store], ["report", store, "-o", store + ".html"]):
        assert run(words).returncode == 0


def test_the_store_may_stand_among_the_pages(run, pages):
    store = os.path.join(pages, "pages.db")
    for known in (0, 6):
        said = run(["scan", ".", "-o", "pages.db"], cwd=pages)
        assert said.stdout.decode().startswith("6 files: 4 accepted (4 pages), 2 refused; %d known, " % known)
    assert len(table(store)) == 6


def test_a_store_by_another_name(run, pages, tmp_path, store):
    os.symlink(store, os.path.join(pages, "store"))
    assert scan(run, pages, store).stdout.startswith((
        b"7 files: 4 accepted (4 pages), 2 refused, 1 not regular files; 0 known"))
    assert b"; 6 known, " in scan(run, pages, os.path.join(pages, "store")).stdout
    with Lock(os.path.join(pages, "store")):
        said = scan(run, pages, store)
    assert said.returncode == 3 and b": another scan is at work on it: process %d\n" % os.getpid() in said.stderr


def test_what_is_no_file(run, pages, store):
    for target in ("a", "..", "nowhere", "loop", "sub"):
        os.symlink(target, os.path.join(pages, "link to " + target))
    os.symlink("loop", os.path.join(pages, "loop"))
    os.mkfifo(os.path.join(pages, "fifo"))
    said = scan(run, pages, store)
    assert said.stdout == (
        b"13 files: 4 accepted (4 pages), 2 refused, 7 not regular files; 0 known, 5 pages asked about\n")
    assert said.returncode == 0
    found = statuses(store)
    assert found["link to sub"] == found["loop"] == ("not a file", "a symbolic link")
    assert found["fifo"] == ("not a file", "a fifo")


@pytest.mark.skipif(os.geteuid() != 0, reason="only root can make a device")
def test_a_device(run, pages, store):
    try:
        os.mknod(os.path.join(pages, "null"), stat.S_IFCHR | 0o666, os.makedev(1, 3))
    except OSError:
        pytest.skip("this place has no devices")
    scan(run, pages, store)
    assert statuses(store)["null"] == ("not a file", "a device")


def test_long_files(run, tmp_path, store):
    pages = tree(tmp_path / "pages", {"short": POINT})
    for name, length in (("16 MiB", 16 << 20), ("more", (16 << 20) + 1), ("hole", 1 << 40)):
        with open(os.path.join(pages, name), "wb") as file:
            file.truncate(length)
    said = scan(run, pages, store, "--timeout", "600")
    assert said.stdout == (
        b"4 files: 2 accepted (1 page, 1 blank), 0 refused, 2 too long; 0 known, 2 pages asked about\n")
    assert statuses(store)["hole"] == ("too long", "1099511627776 bytes")
    said = scan(run, pages, store, "--max-size", str(17 << 20), "--timeout", "600")
    assert said.stdout == b"4 files: 3 accepted (1 page, 2 blank), 0 refused, 1 too long; 2 known, 1 page asked about\n"
    empty = hashlib.sha256(bytes.fromhex("0E215F")).hexdigest()
    assert rows(store, "SELECT canonical, canonical_size FROM listing WHERE name LIKE '%more'") == [(empty, 3)]


def test_treatments(run, tmp_path, store):
    pages = tree(tmp_path / "pages", {
        "parity": with_parity(POINT + b"\x0fA"), "tail": POINT + b"\x1a" * 3, "none": OUTSIDE, "fine": POINT})
    assert scan(run, pages, store, keeps="repair").stdout.endswith(b"; 0 known, 4 pages asked about\n")
    assert scan(run, pages, store).stdout.endswith(b"; 4 known, 0 pages asked about\n")
    told = [json.loads(line) for line in run(["files", store, "--refused", "--json"]).stdout.splitlines()]
    assert {os.path.basename(each["name"]): (each["tried"], each["treatments"]) for each in told} == {
        "parity": (True, "parity"), "tail": (True, "tail"), "none": (True, None)}
    text = run(["files", store, "--refused"]).stdout.decode()
    assert "/parity at 0: readable by parity (around)\n" in text
    assert "/none at 3: no repair makes it readable\n" in text
    copy = hashlib.sha256(POINT).digest()
    assert rows(store, "SELECT entries FROM cures WHERE copy = ?", copy) == [(1,)]


def test_the_examples(run, tmp_path):
    store = str(tmp_path / "pages.db")
    scan(run, os.path.join(TOP, "examples", "pages"), store)
    lines = Path(TOP, "tests", "program", "collections.expected").read_text("ascii").splitlines()
    wanted = {name: (answer, None if hashed == "-" else hashed) for name, answer, hashed, _ in (
        line.split("\t") for line in lines)}
    cut = len(os.path.join(TOP, "examples", "pages")) + 1
    got = {}
    for name, status, number, fault, code, place, entries, hashed in rows(
            store, "SELECT name, status, number, fault, code, place, entries, canonical FROM listing"):
        named = fault if code is None else "%s %s" % (fault, code)
        got[name[cut:]] = ("accepted %d entries" % entries if status == "accepted" else
                           "refused %d %s at %d" % (number, named, place), hashed)
    assert got == wanted


def test_standard_output_that_is_closed(naplps, pages, store):
    said = subprocess.run(["sh", "-c", '"$0" scan "$1" -o "$2" > /dev/full', COMMAND, pages, store],
                          capture_output=True, env=dict(os.environ, NAPLPS=naplps))
    assert (said.returncode, said.stderr) == (3, b"naplps-pages: standard output: No space left on device\n")
    assert len(table(store)) == 6
