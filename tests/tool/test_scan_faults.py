"""Scans where something goes wrong: the program, a worker, files, the store, the disk, signals."""
import os
import shutil
import signal
import sqlite3
import subprocess

import pytest

from command import COMMAND, PACKAGES
from naplps_pages import interpreter
from naplps_pages.collection import tables
from naplps_pages.collection.store_files import APPLICATION, Lock, is_held
from naplps_pages.collection.pool import NoWorkers, Pool
from naplps_pages.collection.protocol import FolderFiles
from naplps_pages.collection.store import keep_log
from naplps_pages.collection.tables import File
from samples import OUTSIDE, POINT
from scans import (
    FAKE, FOLDER_NO_STORE, NO_STORE, alter, children, count, files_read, is_sound, rows, slow, start, statuses, table,
    tree, wait_until)

MANY = {"%02d/%03d" % (number // 100, number): b"page %d" % number for number in range(400)}


def many(tmp_path, more=()):
    return tree(tmp_path / "pages", {**MANY, **dict(more)})


@pytest.mark.parametrize("page, reason, seconds", [
    (b"hang", "no answer in 5 s", "5"), (b"die", "the program ended with status 7", "600"),
    (b"half", "the program ended with status 0", "600"),
    (b"nonsense", "the program answered something that is no answer", "600"),
    (b"eat", "the program ended with status 1: Traceback (most recent call last):", "600")])
def test_a_page_on_which_the_program_fails(run, fake, tmp_path, store, page, reason, seconds):
    pages = many(tmp_path, {"01/150 fails": page, "02/copy": page}.items())
    said = run(["scan", pages, "-o", store, "--timeout", seconds, "-j", "1"], program=fake(FAKE))
    assert said.stdout == (
        b"402 files: 400 accepted (400 texts), 0 refused, 2 without an answer; 0 known, 401 pages asked about\n")
    assert said.stderr.decode() == "naplps-pages: %s/01/150 fails: %s\n" % (pages, reason)
    assert said.returncode == 3
    found = statuses(store)
    assert found["150 fails"] == found["copy"] == ("no answer", reason)
    # (it is asked again by the next scan, and it alone)
    said = run(["scan", pages, "-o", store, "--timeout", seconds], program=fake(FAKE))
    assert b"; 400 known, 1 page asked about" in said.stdout


def test_a_page_that_ends_its_worker(run, fake, tmp_path, store):
    pages = many(tmp_path, {"01/150 kills": b"kill its parent"}.items())
    said = run(["scan", pages, "-o", store, "-j", "2"], program=fake(FAKE))
    assert said.stdout == (
        b"401 files: 400 accepted (400 texts), 0 refused, 1 unreadable; 0 known, 400 pages asked about\n")
    reason = "the worker that looked at it ended by SIGKILL"
    assert said.stderr.decode() == "naplps-pages: %s/01/150 kills: %s\n" % (pages, reason)
    assert said.returncode == 3 and statuses(store)["150 kills"] == ("unreadable", reason)
    assert reason in run(["files", store]).stdout.decode()


@pytest.mark.parametrize("lines, reason, seconds", [
    ("time.sleep(6000)", "no answer in 1 s", "1"), ("sys.exit(9)", "the program ended with status 9", "600"),
    ("print('what?\\n\\n'); time.sleep(6000)", "the program answered something that is no answer", "600")])
def test_a_program_that_never_answers_writes_nothing(run, fake, tmp_path, store, lines, reason, seconds):
    path = fake("sys.stdout.reconfigure(line_buffering=True)\n" + lines)
    said = run(["scan", many(tmp_path), "-o", store, "--timeout", seconds], program=path)
    assert (said.stdout, said.returncode) == (b"", 3) and not os.path.exists(store)
    assert said.stderr.decode() == "naplps-pages: %s: %s\n" % (path, reason)


def test_no_program(run, tmp_path, store):
    said = run(["scan", str(tmp_path), "-o", store], program="/nowhere/naplps")
    assert (said.returncode, said.stderr) == (3, b"naplps-pages: NAPLPS names no program: /nowhere/naplps\n")


WORKER = """
import os, time
from multiprocessing.connection import Connection
from naplps_pages.collection.protocol import block_of, empty
from naplps_pages.collection.tables import READ, File
def main(descriptor):
    line = Connection(descriptor)
    line.send(("alive", None))
    line.recv()
    while True:
        for folder, path, names, *_ in line.recv():
            for name in names:
                if name == b"hangs": time.sleep(600)
                if name == b"fails": line.send(("failed", "MemoryError")); os._exit(1)
                if name == b"dies": os._exit(7)
                line.send(("rows", tuple(block_of(((File(folder, name, READ),), ())))))
        line.send(("done", tuple(empty())))
"""


def odd_workers(folder):
    """Makes a module of such a worker beside the packages, and one of a worker that can't be started."""
    tree(folder, {"odd_worker.py": WORKER.encode("ascii"), "no_worker.py": b"import nothing_that_there_is"})
    for package in ("naplps", "naplps_pages"):
        os.symlink(os.path.join(PACKAGES, package), folder / package)


def test_workers_that_fail(tmp_path):
    odd_workers(tmp_path)
    names = tuple(sorted([b"%03d" % number for number in range(300)] + [b"150 and more", b"hangs", b"fails", b"dies"]))
    pool = Pool(2, (), 5.0, "odd_worker", str(tmp_path))
    try:
        chunks = [(FolderFiles(1, b"/x", names[at:at + 50]),) for at in range(0, len(names), 50)]
        found = [File(*row) for block in pool.run(iter(chunks)) if block for row in block.files]
    finally:
        pool.close()
    assert sorted(file.name for file in found) == sorted(names)
    assert {file.name: file.why for file in found if file.state == tables.UNREADABLE} == {
        b"hangs": "the worker that looked at it hung",
        b"fails": "the worker that looked at it failed: MemoryError",
        b"dies": "the worker that looked at it ended with status 7"}
    pool = Pool(2, (), 600.0, "no_worker", str(tmp_path))
    with pytest.raises(NoWorkers, match="workers can't be started: .* ended with status 1"):
        list(pool.run(iter([(FolderFiles(1, b"/x", (b"a",)),)] * 9)))
    pool.close()


def test_a_worker_that_is_killed_in_its_first_moment_is_replaced(tmp_path, monkeypatch):
    killed = []
    start_worker = interpreter.start

    def start_and_kill(*words, **more):
        process = start_worker(*words, **more)
        if len(killed) < 2:
            killed.append(process.pid)
            process.kill()
            process.wait()
        return process
    monkeypatch.setattr(interpreter, "start", start_and_kill)
    odd_workers(tmp_path)
    pool = Pool(1, ("much" * 100_000,), 600.0, "odd_worker", str(tmp_path))
    try:
        chunks = [(FolderFiles(1, b"/x", (b"%d" % number,)),) for number in range(9)]
        found = [File(*row).name for block in pool.run(iter(chunks)) if block for row in block.files]
    finally:
        pool.close()
    assert len(killed) == 2 and sorted(found) == [b"%d" % number for number in range(9)]


def test_a_lock_that_can_not_be_written_leaves_no_file(tmp_path, store, monkeypatch):
    def full(*_):
        raise OSError(28, "No space left on device")
    monkeypatch.setattr(os, "write", full)
    with pytest.raises(OSError, match="No space left"):
        with Lock(store):
            pass
    assert os.listdir(str(tmp_path)) == [] and not is_held(store)


@pytest.mark.skipif(os.geteuid() != 0, reason="only root can be another user")
def test_unreadable_files_and_folders(run_as_nobody, tmp_path):
    work = str(tmp_path / "work")
    os.mkdir(work)
    store = os.path.join(work, "pages.db")
    pages = tree(os.path.join(work, "pages"), {"a": POINT, "secret": POINT, "shut/page": OUTSIDE, "open/page": OUTSIDE})

    def scan():
        return run_as_nobody("scan", pages, "-o", store, cwd=work)
    os.chown(work, 65534, 65534)
    assert scan().stdout == b"4 files: 2 accepted (2 pages), 2 refused; 0 known, 2 pages asked about\n"
    os.chmod(os.path.join(pages, "secret"), 0)
    os.chmod(os.path.join(pages, "shut"), 0)
    os.unlink(os.path.join(pages, "open", "page"))
    said = scan()
    # (what is in a folder that is shut isn't gone)
    assert said.stdout == (
        b"2 files: 1 accepted (1 page), 0 refused, 1 unreadable; 1 known, 0 pages asked about; 1 gone; "
        b"1 folder unreadable\n")
    assert sorted(said.stderr.decode().splitlines()) == [
        "naplps-pages: %s/%s: Permission denied" % (pages, name) for name in ("secret", "shut")]
    assert said.returncode == 3
    assert rows(store, "SELECT status FROM listing WHERE name LIKE '%/shut/page'") == [("refused",)]
    told = subprocess.run([COMMAND, "files", store], capture_output=True, text=True).stdout.splitlines()
    assert told[-1] == "left:            1 unreadable, 1 unreadable folders"


def test_files_and_folders_that_vanish_before_they_are_looked_at(fake, tmp_path):
    tree(tmp_path, {"a": POINT, "c": OUTSIDE})
    here, away = os.fsencode(tmp_path), os.path.join(os.fsencode(tmp_path), b"away")
    files = files_read(fake(FAKE), (FolderFiles(1, here, (b"a", b"b", b"c")), FolderFiles(2, away, (b"d",))))
    assert [(file.folder, file.name, file.state, file.why) for file in files] == [
        (1, b"a", tables.READ, None), (1, b"b", tables.VANISHED, "it vanished while it was looked at"),
        (1, b"c", tables.READ, None), (2, b"d", tables.VANISHED, "its folder vanished")]


def test_a_file_that_grows_while_it_is_read(tmp_path, monkeypatch):
    from naplps_pages.collection import file_reader
    at = os.open(str(tmp_path), os.O_RDONLY)
    for name, change, reason in (("grows", lambda file: file.write(b"more"), file_reader.GREW),
                                 ("shrinks", lambda file: file.truncate(2), file_reader.OTHER)):
        tree(tmp_path, {name: POINT})
        path = os.path.join(str(tmp_path), name)

        def beat():
            with open(path, "ab") as file:
                change(file)
        seen = file_reader.look(1, at, name.encode(), 1 << 20, 1 << 20, beat)
        assert (seen.file.state, seen.file.why, seen.data) == (tables.CHANGED, reason, None)
    os.close(at)


def test_two_scans_at_once(naplps, run, fake, tmp_path, store):
    pages = many(tmp_path)
    first = start(["scan", pages, "-o", store, "-j", "1"], fake(slow(0.1)))
    wait_until(lambda: count(store) > 0, first)
    said = run(["scan", pages, "-o", store], program=naplps)
    assert said.returncode == 3 and said.stdout == b""
    assert said.stderr.decode() == "naplps-pages: %s: another scan is at work on it: process %d\n" % (store, first.pid)
    told = run(["files", store]).stdout.decode()
    assert ", is at work\n" in told
    assert run(["equal", store]).returncode == 0                # (it can be read meanwhile)
    first.send_signal(signal.SIGINT)
    first.communicate()
    assert not is_held(store) and run(["scan", pages, "-o", store]).returncode == 0


@pytest.mark.parametrize("number", [signal.SIGINT, signal.SIGTERM, signal.SIGHUP])
def test_a_signal_stops_it_in_order(run, fake, tmp_path, store, number):
    pages = many(tmp_path)
    scan = start(["scan", pages, "-o", store, "-j", "2"], fake(slow(0.05)))
    wait_until(lambda: count(store) > 0, scan)
    workers = children(scan.pid)
    assert len(workers) == 2
    scan.send_signal(number)
    out, told = scan.communicate()
    assert (out, told, scan.returncode) == (
        b"", b"naplps-pages: stopped; what was taken is kept, and the same command goes on\n", -number)
    assert not any(os.path.exists("/proc/%d" % each) for each in workers)
    taken = count(store)
    assert 0 < taken < 400 and is_sound(store) and os.listdir(os.path.dirname(store)).count("pages.db.lock") == 0
    told = run(["files", store]).stdout.decode()
    assert ", was stopped: the same command goes on\n" in told
    assert told.endswith("left:            what the scan hasn't reached\n")
    assert run(["equal", store]).stderr == b""
    said = run(["scan", pages, "-o", store], program=fake(FAKE.replace("sys.exit(7)", "sys.exit(7) ")))
    assert said.returncode == 0 and len(table(store)) == 400


@pytest.mark.parametrize("make", ["other schema", "other database", "no database", "one byte",
                                  "the table of the recipe", "folder"])
def test_a_file_that_is_no_store(run, tmp_path, store, make):
    foreign = "is a database of something else, and no store of naplps-pages"
    reason = {"other schema": "is a store of schema 4, and this tool knows schemas 2 and 3", "folder": FOLDER_NO_STORE,
              "no database": NO_STORE, "one byte": NO_STORE}.get(make, foreign)
    if make == "folder":
        os.mkdir(store)
    elif reason == NO_STORE:
        tree(tmp_path, {"pages.db": b"what is this?" * 100 if make == "no database" else b"\a"})
    else:
        alter(store, {
            "other schema": "PRAGMA application_id = %d; CREATE TABLE meta(key, value); "
                            "INSERT INTO meta VALUES('schema', 4);" % APPLICATION,
            "other database": "CREATE TABLE other(x);",
            "the table of the recipe": "CREATE TABLE pages (page TEXT PRIMARY KEY, hash TEXT, entries INTEGER);"}[make])
    before = os.path.isfile(store) and open(store, "rb").read()
    for words in (["scan", str(tmp_path), "-o", store], ["equal", store], ["files", store, "--refused"],
                  ["files", store]):
        said = run(words)
        assert (said.stdout, said.returncode) == (b"", 3)
        assert said.stderr.decode() == "naplps-pages: %s: %s\n" % (store, reason)
    assert before == (os.path.isfile(store) and open(store, "rb").read())


def test_an_empty_file_is_no_store_until_a_scan_makes_one_of_it(run, tmp_path, store):
    tree(tmp_path, {"pages.db": b"", "pages/a.nap": b"\a"})
    for command in ("files", "equal"):
        said = run([command, store])
        assert (said.returncode, said.stderr.decode()) == (3, "naplps-pages: %s: %s\n" % (store, NO_STORE))
    assert os.path.getsize(store) == 0
    assert run(["scan", str(tmp_path / "pages"), "-o", store]).returncode == 0
    assert run(["files", store]).returncode == 0


def test_a_store_that_isnt_there(run, tmp_path, store):
    for words in (["equal", store], ["files", store, "--refused"], ["files", store],
                  ["canon", store, "-o", str(tmp_path)]):
        said = run(words)
        assert (said.stdout, said.returncode) == (b"", 3)
        assert said.stderr.decode() == "naplps-pages: %s: No such file or directory\n" % store
    said = run(["scan", str(tmp_path), "-o", str(tmp_path / "no" / "pages.db")])
    assert said.returncode == 3 and said.stderr.endswith(b"/no/pages.db: No such file or directory\n")
    assert os.listdir(str(tmp_path)) == []


@pytest.mark.skipif(os.geteuid() != 0, reason="only root can be another user")
def test_a_store_that_may_only_be_read(run_as_nobody, run, tmp_path):
    work = str(tmp_path / "work")
    pages = tree(os.path.join(work, "pages"), {"a": POINT, "b": POINT + b"\0"})
    store = os.path.join(work, "pages.db")
    assert run(["scan", pages, "-o", store]).returncode == 0
    os.chmod(store, 0o444)
    said = run_as_nobody("equal", store)
    assert said.returncode == 0 and said.stdout.startswith(b"2 spellings, 2 files, 1 entry: canonical ")
    said = run_as_nobody("scan", pages, "-o", store)
    assert said.returncode == 3 and said.stderr.decode() == "naplps-pages: %s: Permission denied\n" % store
    os.chmod(work, 0o777)
    said = run_as_nobody("scan", pages, "-o", store)
    assert said.returncode == 3 and said.stderr.endswith(b"pages.db: attempt to write a readonly database\n")
    assert is_sound(store)


def test_a_full_disk(run, fake, tmp_path, small_disk):
    pages = tree(tmp_path / "pages", {
        "%03d/%05d" % (number // 100, number): b"%d" % number for number in range(20_000)})
    store, program = os.path.join(small_disk, "pages.db"), fake(FAKE)
    said = run(["scan", pages, "-o", store], program=program)
    assert said.returncode == 3 and said.stdout == b""
    assert said.stderr.decode() == "naplps-pages: %s: database or disk is full\n" % store
    shutil.copytree(small_disk, str(tmp_path / "room"))
    store = str(tmp_path / "room" / "pages.db")
    taken = count(store)
    assert is_sound(store) and 2000 <= taken < 20_000
    said = run(["scan", pages, "-o", store], program=program)
    assert said.stdout.startswith((
        b"20000 files: 20000 accepted (20000 texts), 0 refused; ")) and len(table(store)) == 20_000


def test_a_limit_on_the_size_of_files(naplps, run, fake, tmp_path, store):
    pages = tree(tmp_path / "pages", {"%02d/%05d" % (number // 100, number): b"%d" % number for number in range(8000)})
    program = fake(FAKE)
    said = subprocess.run(["bash", "-c", 'ulimit -f 300; exec "$0" scan "$1" -o "$2"', COMMAND, pages, store],
                          capture_output=True, env=dict(os.environ, NAPLPS=program))
    assert said.returncode == 3 and b"Traceback" not in said.stderr and said.stderr.count(b"\n") == 1
    assert is_sound(store)
    assert run(["scan", pages, "-o", store], program=program).stdout.startswith((
        b"8000 files: 8000 accepted (8000 texts)"))


def test_a_file_system_that_can_have_no_log(tmp_path):
    connection = sqlite3.connect("file:%s?vfs=unix-dotfile" % (tmp_path / "pages.db"), uri=True)
    assert keep_log(connection) is False
    connection.close()
