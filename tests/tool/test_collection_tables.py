"""What equal, files and canon print of a store, in each form."""
import csv
import hashlib
import io
import json
import os
import shutil
import sqlite3
import subprocess
import time
from pathlib import Path
from types import SimpleNamespace

import pytest

from command import COMMAND
from folders import remove
from naplps.client import Client
from naplps.names import shown
from naplps.version import VERSION
from naplps_pages.collection import equal
from naplps_pages.collection.equal import Group, Spelling
from naplps_pages.collection.folders import Place
from naplps_pages.collection.progress import Counting, Progress, duration
from naplps_pages.collection.store_files import Lock
from naplps_pages.new_files import put
from samples import OUTSIDE, POINT, SPELLED
from scans import FAKE, alter, rows, store_of, tree

CANON = bytes.fromhex("0E215F265240404040404040")
HELLO = b"\x0fhello"
POINT_HASH, SPELLED_HASH, HELLO_HASH, CANON_HASH = (
    hashlib.sha256(data).hexdigest() for data in (POINT, SPELLED, HELLO, CANON))
FILES = {"a point": POINT, "b/other": SPELLED, "b/copy\nof it": POINT, "hello": HELLO, "x/hello": HELLO,
         b"\xff out": OUTSIDE, "cut": b"\x1b", "cut too": b"A\x1b", "out": OUTSIDE}


@pytest.fixture
def store(run, tmp_path):
    return store_of(run, tmp_path, FILES)


def lines(said):
    assert said.stderr == b"" and said.returncode == 0
    return said.stdout.decode("utf-8").splitlines()


def in_order(*groups):
    """Spellings stand in the order of their hashes."""
    return [each for _, each in sorted(groups)]


def test_equal(run, store, pages):
    one, two = in_order((POINT_HASH, ["%s/a point", "%s/b/copy\\nof it"]), (SPELLED_HASH, ["%s/b/other"]))
    wanted = ["2 spellings, 3 files, 1 entry: canonical " + CANON_HASH,
              *("  1: " + each % pages for each in one), *("  2: " + each % pages for each in two)]
    assert lines(run(["equal", store, "--skip", "copies"])) == wanted
    found = lines(run(["equal", store]))
    # (a terminal's own text of HELLO isn't canonical: its hash is the program's to say)
    assert found[:4] == wanted and found[4].startswith("1 spelling, 2 files, 5 entries: canonical ")
    assert found[5:] == ["  1: %s/hello" % pages, "  1: %s/x/hello" % pages]


def test_equal_for_programs(run, store, pages):
    group, = map(json.loads, lines(run(["equal", store, "--skip", "copies", "--json"])))
    files = {POINT_HASH: ["%s/a point" % pages, "%s/b/copy\nof it" % pages], SPELLED_HASH: ["%s/b/other" % pages]}
    assert group == {"canonical": CANON_HASH, "canonical_bytes": 12, "entries": 1, "spellings": [
        {"hash": own, "files": [{"name": name} for name in files[own]]} for own in sorted(files)]}
    raw = run(["equal", store, "--skip", "copies", "-0"]).stdout.decode()
    assert raw == "".join(name + "\0" for own in sorted(files) for name in files[own]) + "\0"
    copies = "%s/hello\0%s/x/hello\0\0" % (pages, pages)
    assert run(["equal", store, "-0"]).stdout.decode() == raw + copies
    table = list(csv.DictReader(io.StringIO(run(["equal", store, "--skip", "copies", "--csv"]).stdout.decode())))
    columns = ("canonical", "spellings", "files", "entries", "spelling", "hash", "name", "name_hex")
    assert [tuple(row[column] for column in columns) for row in table] == [
        (CANON_HASH, "2", "3", "1", str(number), own, name.replace("\n", "\\n"), name.encode().hex() * ("\n" in name))
        for number, own in enumerate(sorted(files), 1) for name in files[own]]


INDICES = ("pages_by_canon", "pages_by_number", "files_by_page")


def drop(store, indices):
    """Takes indices from a store, as a scan that was stopped has none."""
    alter(store, "; ".join("DROP INDEX " + name for name in indices))


def test_a_store_without_indices_tells_the_same(run, store, tmp_path):
    words = (["equal", store], ["equal", store, "--skip", "copies"], ["files", store, "--refused"], ["files", store],
             ["canon", store, "-o", str(tmp_path / "to"), "--csv"])
    def told():
        return [[line for line in lines(run(each)) if not line.startswith("scan: ")] for each in words]
    run(words[-1])                                              # (what is there is told as that)
    before = told()
    assert {name for name, in rows(store, "SELECT name FROM sqlite_master WHERE sql LIKE 'CREATE INDEX%'")} == {
        *INDICES}
    drop(store, INDICES)
    with Lock(store):                                           # (as while a first scan is at work)
        assert told() == before
        assert rows(store, "SELECT name FROM sqlite_master WHERE sql LIKE 'CREATE INDEX%'") == []


@pytest.mark.parametrize("words", [
    ["equal"], ["files"], ["report", "-o", "/dev/null"], ["find", "a"], ["canon", "-o", "to"], ["files", "--census"],
    ["equal", "--nearly"]])
def test_any_command_makes_the_indices_that_are_missing(run, store, tmp_path, words):
    wanted = rows(store, "SELECT name, sql FROM sqlite_master ORDER BY name")
    for some in (INDICES, INDICES[1:], INDICES[:1]):
        drop(store, some)
        run([*words, store], cwd=str(tmp_path))
        assert rows(store, "SELECT name, sql FROM sqlite_master WHERE name <> 'near_keys' AND name NOT LIKE "
                           "'sqlite_autoindex_near%' ORDER BY name") == wanted
    assert rows(store, "PRAGMA integrity_check") == [("ok",)]


def test_a_store_that_another_program_writes_is_read_at_once_without_indices(run, store):
    wanted = lines(run(["files", store]))
    connection = sqlite3.connect(store, isolation_level=None)
    connection.execute("DROP INDEX files_by_page")
    connection.execute("BEGIN IMMEDIATE")
    began = time.monotonic()
    assert lines(run(["files", store])) == wanted and time.monotonic() - began < 30
    connection.execute("ROLLBACK")
    assert rows(store, "SELECT 1 FROM sqlite_master WHERE name = 'files_by_page'") == []
    connection.close()


def test_refused(run, store, pages):
    wanted = ["10 Outside: 1 page, 2 files", "  %s/out at 3" % pages, "  %s/\\xff out at 3" % pages,
              "19 Cut: 2 pages, 2 files", "  %s/cut at 1" % pages, "  %s/cut too at 2" % pages]
    assert lines(run(["files", store, "--refused"])) == wanted
    assert lines(run(["files", store, "--reason", "19"])) == wanted[3:]
    assert lines(run(["files", store, "--reason", "1"])) == []
    raw = run(["files", store, "--reason", "10", "-0"]).stdout
    assert sorted(raw.split(b"\0")) == [b"", os.fsencode(pages) + b"/out", os.fsencode(pages) + b"/\xff out"]
    out = {"status": "refused", "number": 10, "fault": "Outside", "code": None, "place": 3, "entries": None,
           "reason": None, "stops": None, "hash": hashlib.sha256(OUTSIDE).hexdigest(), "tried": False,
           "treatments": None, "grade": None}
    told = {each["name"]: each for each in map(json.loads, lines(run(["files", store, "--refused", "--json"])))}
    assert len(told) == 4
    for name, more in ((pages + "/out", {}), (pages + "/\\xff out", {
            "name_hex": os.fsencode(pages + "/").hex() + b"\xff out".hex()})):
        assert {**told[name], **out, **more} == told[name]
    table = {row["name"]: row for row in csv.DictReader(
        io.StringIO(run(["files", store, "--reason", "19", "--csv"]).stdout.decode()))}
    assert {name: (row["number"], row["fault"], row["place"]) for name, row in table.items()} == {
        pages + "/cut": ("19", "Cut", "1"), pages + "/cut too": ("19", "Cut", "2")}


NAMES = (b"a\nb", b"\x1b]0;x\x07", b"\xff", "\u202e.nap".encode(), b"a\\b", b"plain", b"=1+1", b'"quoted", twice',
         b"\r\x9b")


def test_names_in_csv_are_shown(run, tmp_path):
    store = store_of(run, tmp_path, {name: POINT for name in NAMES} | {b"x" + name: OUTSIDE for name in NAMES})
    for words in (["equal", store], ["files", store, "--refused"], ["canon", store, "-o", str(tmp_path / "to")]):
        said = run([*words, "--csv"])
        assert said.returncode == 0 and said.stdout.decode().replace("\n", "").isprintable()
        found = list(csv.DictReader(io.StringIO(said.stdout.decode())))
        assert found
        for row in found:
            raw = bytes.fromhex(row["name_hex"]) if row["name_hex"] else row["name"].encode()
            assert os.path.basename(raw).lstrip(b"x") in [name.lstrip(b"x") for name in NAMES]
            assert row["name"] == shown(os.fsdecode(raw)) and bool(row["name_hex"]) == (row["name"] != os.fsdecode(raw))


def test_names_go_to_xargs(naplps, store, pages):
    said = subprocess.run(["sh", "-c", '"$0" files "$1" --reason 10 --print0 | xargs -0 "$0" check', COMMAND, store],
                          capture_output=True, env=dict(os.environ, NAPLPS=naplps))
    assert said.stdout.decode().splitlines() == [
        "%s/out: refused 10 Outside at 3" % pages, "%s/\\xff out: refused 10 Outside at 3" % pages]


def test_verify(run, fake, store, pages):
    assert lines(run(["equal", store, "--verify"])) == lines(run(["equal", store]))
    tree(pages, {"a point": HELLO})
    os.unlink(os.path.join(pages, "b", "other"))
    said = run(["equal", store, "--verify"])
    assert said.returncode == 1 and said.stdout.decode().splitlines()[1:] == [
        "  1: %s/hello" % pages, "  1: %s/x/hello" % pages]
    assert sorted(said.stderr.decode().splitlines()) == [
        "naplps-pages: %s/a point: it isn't as it was when it was scanned" % pages,
        "naplps-pages: %s/b/other: it vanished while it was looked at" % pages]


def test_verify_trusts_no_hash(run, store, pages):
    # A store that gives two pages one hash, as no pages are known to have.
    alter(store, f"UPDATE pages SET canon = (SELECT canon FROM pages WHERE own = x'{POINT_HASH}') "
                 f"WHERE own = x'{HELLO_HASH}'")
    assert lines(run(["equal", store]))[0].startswith("3 spellings, 5 files, ")
    said = run(["equal", store, "--verify"])
    assert said.returncode == 1
    assert said.stdout.startswith(b"2 spellings, 3 files, ")
    assert said.stderr.decode().splitlines() == [
        "naplps-pages: %s/hello: its canonical bytes haven't the hash that the store has" % pages]


def test_pages_of_one_hash_and_other_bytes(fake, pages, monkeypatch):
    monkeypatch.setattr(equal, "hashed", lambda data: b"hash")
    spellings = [Spelling(hashlib.sha256(FILES[name]).digest(),
                          [Place(os.fsencode(pages), name.encode(), len(FILES[name]))]) for name in ("a point", "cut")]
    told = []
    program = Client(fake(FAKE))
    left = equal.verified(program, Group(b"hash", "2", 1, 11, spellings), lambda name, why: told.append((name, why)))
    program.close()
    assert (left.spellings, told) == (spellings[:1], [
        (pages + "/cut", "its canonical bytes differ from those of %s/a point, though the hash is the same" % pages)])


@pytest.mark.parametrize("target", ["/proc", "a file"])
def test_convert_into_what_takes_no_files(run, store, tmp_path, target):
    into = os.path.join(str(tree(tmp_path, {"file": b""})), "file") if target == "a file" else target
    said = run(["canon", store, "-o", into])
    assert (said.stdout, said.returncode) == (b"", 3) and said.stderr.count(b"\n") == 1


def test_convert(run, store, pages, tmp_path):
    into = str(tmp_path / "canonical")
    assert lines(run(["canon", store, "-o", into])) == ["2 written, 0 there"]
    path = os.path.join(into, CANON_HASH[:2], CANON_HASH + ".nap")
    made = sorted(os.path.join(folder, name) for folder, _, names in os.walk(into) for name in names)
    assert path in made and len(made) == 2
    for name in made:
        assert hashlib.sha256(Path(name).read_bytes()).hexdigest() == os.path.basename(name)[:-4]
    tree(pages, {"a point": HELLO})                             # (what is there needs no file)
    assert lines(run(["canon", store, "-o", into])) == ["0 written, 2 there"]
    os.unlink(path)
    said = run(["canon", store, "-o", into])              # (the next file that has the bytes is taken)
    assert (said.stdout, said.returncode) == (b"1 written, 1 there, 1 files changed since the scan\n", 1)
    assert said.stderr.decode() == "naplps-pages: %s/a point: it isn't as it was when it was scanned\n" % pages
    assert Path(path).read_bytes() == CANON


def test_convert_writes_nothing_for_what_changed(run, store, pages, tmp_path):
    into = str(tmp_path / "canonical")
    for name in ("a point", "b/other", "b/copy\nof it"):
        tree(pages, {name: OUTSIDE})
    said = run(["canon", store, "-o", into, "--json"])
    assert said.returncode == 1
    told = [(row["status"], row["name"][len(pages) + 1:]) for row in map(json.loads, said.stdout.splitlines())
            if row["canonical"] == CANON_HASH]
    assert told == [("changed", "a point"), ("changed", "b/copy\nof it"), ("changed", "b/other")]
    assert not os.path.exists(os.path.join(into, CANON_HASH[:2]))


def test_convert_takes_nothing_for_a_page_but_its_bytes(run, store, tmp_path):
    into = str(tmp_path / "canonical")
    path = os.path.join(into, CANON_HASH[:2], CANON_HASH + ".nap")
    tree(tmp_path, {"right": CANON, "zeros": bytes(len(CANON))})
    os.makedirs(os.path.dirname(path))
    no_file = "is there already, but is no file"
    for make, why in ((lambda: shutil.copy(tmp_path / "zeros", path),
                       "is there already with other bytes, and isn't written over"),
                      (lambda: os.symlink("x" * len(CANON), path),
                       "is there already, but can't be read: No such file or directory"),
                      (lambda: os.mkfifo(path), no_file), (lambda: os.mkdir(path), no_file),
                      (lambda: os.symlink("/dev/zero", path), no_file)):
        make()
        before = os.lstat(path)
        said = run(["canon", store, "-o", into, "--csv"])
        assert said.returncode == 3 and said.stderr.decode() == "naplps-pages: %s: %s\n" % (path, why)
        rows_of = {row["canonical"]: row for row in csv.DictReader(io.StringIO(said.stdout.decode()))}
        assert [rows_of[CANON_HASH][name] for name in ("status", "path", "reason")] == ["not made", path, why]
        assert os.lstat(path)[:7] == before[:7] and os.lstat(path).st_mtime_ns == before.st_mtime_ns
        remove(path)
    os.symlink(tmp_path / "right", path)
    assert lines(run(["canon", store, "-o", into])) == ["0 written, 2 there"]


def test_new_files_are_on_the_disk_before_they_have_their_names(tmp_path, monkeypatch):
    told = []

    def noted(name):
        real = getattr(os, name)

        def does(first, *rest, **more):
            told.append((name, os.fstat(first).st_size if name == "fsync" else os.path.basename(rest[0])))
            return real(first, *rest, **more)
        monkeypatch.setattr(os, name, does)
    noted("fsync")
    noted("link")
    put(str(tmp_path / "page.nap"), b"1234567")
    assert told == [("fsync", 7), ("link", "page.nap")]


def test_convert_and_a_program_that_answers_otherwise(run, fake, store, tmp_path):
    into = str(tmp_path / "canonical")
    said = run(["canon", store, "-o", into], program=fake(FAKE))
    assert (said.stdout, said.returncode) == (b"0 written, 0 there, 2 not made\n", 3)
    assert said.stderr.count(b"its canonical bytes haven't the hash that the store has\n") == 2
    assert not os.path.exists(into)


def test_status(run, naplps, store, pages):
    told = lines(run(["files", store]))
    version = subprocess.run([naplps, "--version"], capture_output=True, text=True).stdout.strip()
    program_hash = hashlib.sha256(Path(naplps).read_bytes()).hexdigest()
    (began, ended), = rows(store, "SELECT began, ended FROM runs")
    assert told == [
        "store:           %s, %d bytes" % (store, os.path.getsize(store)),
        "scan:            began %s UTC, ended %s UTC" % (began, ended), "tool:            naplps-pages " + VERSION,
        "program:         %s, %s" % (naplps, version), "program hash:    " + program_hash, "budget:          1048576",
        "folder:          " + pages, "files:           9", "accepted:        5",
        "                 3: page", "                 2: text", "refused:         4",
        "distinct pages:  6", "canonical pages: 2",
        "words:           no text is kept, and nothing is found: a new store keeps texts",
        "repairs:         none is tried: a new store has them", "left:            nothing"]


def test_status_of_what_is_left(run, store, pages, fake):
    tree(pages, {"hang": b"hang", "new": b"new"})
    run(["scan", os.path.join(pages, "b"), "-o", store, "--budget", "5"])
    told = lines(run(["files", store]))
    assert told[-1] == "left:            6 answered on other terms"  # (those in b, and the copy of one)
    run(["scan", pages, "-o", store, "--timeout", "5"], program=fake(FAKE))
    told = lines(run(["files", store]))
    assert told[-1] == "left:            1 no answer" and "                 1: no answer in 5 s" in told


@pytest.mark.parametrize("words", [
    ["equal"], ["files", "x", "y"], ["equal", "x", "--json", "--csv"], ["files", "x", "--reason", "0"],
    ["canon", "x", "-o", "y", "-0"], ["files"], ["files", "x", "--json", "--csv"], ["equal", "x", "--include", "y"],
    ["files", "x", "-0", "--json"], ["files", "x", "--kind"], ["files", "x", "--kind", ""],
    ["files", "x", "--reason"], ["scan"], ["scan", "x"], ["scan", "-o", "y"],
    ["scan", "x", "-o", "y", "-j", "0"], ["scan", "x", "-o", "y", "--max-size", "-1"],
    ["scan", "x", "-o", "y", "--json"], ["scan", "x", "-o", "y", "--budget", "67108865"], ["scan", "--merge"],
    ["scan", "--merge", "all.db"], ["scan", "--merge", "--force", "all.db"], ["scan", "--merge", "-o", "all.db"],
    ["scan", "--merge", "part.db", "-o", "all.db", "--json"],
    ["scan", "--merge", "part.db", "-o", "all.db", "--rescan"], ["scan", "x", "-o", "y", "--force"],
    ["scan", "x", "-o", "y", "--skip", "carve"],
    # (words of before, by what is said of them)
    ["status", "x"], ["refused", "x"], ["merge", "x", "-o", "y"], ["census", "x"], ["near", "x"], ["serve", "x"],
    ["convert", "x"], ["scan", "x", "--into", "y"], ["equal", "x", "--with", "copies"], ["files", "x", "--null"]])
def test_wrong_words(run, tmp_path, words):
    said = run(words, cwd=str(tmp_path))
    assert said.returncode == 2 and not said.stdout and said.stderr and os.listdir(tmp_path) == []


def test_a_closed_pipe_ends_it_silently(naplps, store, pages, tmp_path, run):
    more = tree(tmp_path / "more", {"%0200d" % number: POINT for number in range(600)})
    run(["scan", more, "-o", store])
    for command in ("equal", "equal --json", "canon --csv -o " + str(tmp_path / "to")):
        line = '"$0" %s "$1" | head -n 1 > /dev/null; echo "${PIPESTATUS[0]}"' % command
        said = subprocess.run(["bash", "-c", line, COMMAND, store], capture_output=True,
                              env=dict(os.environ, NAPLPS=naplps))
        assert said.stderr == b"" and said.stdout.split()[-1] in (b"141", b"0")


def test_progress_on_a_terminal():
    terminal, clock = io.StringIO(), SimpleNamespace(now=0.0)
    terminal.isatty = lambda: True
    progress = Progress(terminal, lambda: 12_000, lambda: clock.now)
    for second in range(1, 4):
        clock.now = second
        progress.show(2000 * second)
        progress.show(2000 * second)                            # (not more often than people can read)
    progress.clear()
    clear = "\r\x1b[K"
    assert terminal.getvalue().split(clear) == [
        "", "2,000 of 12,000 files, 2,000 a second, 5 s left", "4,000 of 12,000 files, 2,000 a second, 4 s left",
        "6,000 of 12,000 files, 2,000 a second, 3 s left", ""]


def test_a_log_is_told_nothing_of_progress(capsys):
    log, clock = io.StringIO(), SimpleNamespace(now=0.0)
    progress = Progress(log, clock=lambda: clock.now)
    for second in range(1, 150):
        clock.now = second
        progress.show(100 * second)
    assert (log.getvalue(), capsys.readouterr().err) == ("", "")


def test_the_files_that_are_left_are_counted(tmp_path):
    tree(tmp_path, FILES)
    counting = Counting([os.fsencode(tmp_path), b"/nowhere"])
    counting.run()
    assert counting.total == len(FILES)


def test_durations():
    assert [duration(seconds) for seconds in (0.4, 59, 61, 3599, 3600, 100_000)] == [
        "0 s", "59 s", "1 min 01 s", "59 min 59 s", "1 h 00 min", "27 h 46 min"]
