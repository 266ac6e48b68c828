"""Folders that others change during a scan, readers that hold a store, and long stores: what a scan does then."""
import os
import shutil
import signal
import sqlite3
import time
import types

import pytest

from forked import begun, ended, forked, require_told
from naplps_pages.collection import search, tables
from naplps_pages.collection.folders import identity_of
from naplps_pages.collection.search import MAX_BROKEN, hidden, walk
from naplps_pages.collection.protocol import FolderFiles
from naplps_pages.collection.scan import ScanRun
from naplps_pages.collection.store import open_to_read
from packers import entry, pack, written, zip_of
from samples import OUTSIDE, POINT, SPELLED
from scans import FAKE, alter, files_read, made_up, replaced_by_link, rows, slow, tree, wait_until

REPLACED = "another folder took the place of its own while it was scanned"


def chunks(root, hides):
    """The chunks of a folder, as the scan met them."""
    for number, listing in enumerate(walk(os.fsencode(root), hides), 1):
        yield FolderFiles(number, listing.path, listing.names, listing.identity, len(root))
        for name in listing.packs:
            path = os.path.join(listing.path, name) + b"!/"
            yield FolderFiles(number + 100, path, (b"",), listing.identity, len(root))


def replaced_by_folder(sub, outside):
    os.rename(sub, sub + "-moved")
    shutil.copytree(outside, sub)


def linked_above(sub, outside):
    """The folder above it becomes a link to one that has another folder of its name."""
    top = os.path.dirname(sub)
    os.rename(top, top + "-moved")
    os.makedirs(os.path.join(outside, "in"))
    shutil.copytree(outside, os.path.join(outside, "in", "sub"), ignore=shutil.ignore_patterns("in"))
    os.symlink(os.path.join(outside, "in"), top)


def read_by_worker(fake, chunk, elsewhere=False):
    """The files of a chunk as a worker reads them, by their names."""
    return {file.name: (file.state, file.why, file.own) for file in files_read(fake(FAKE), chunk, elsewhere=elsewhere)}


@pytest.mark.parametrize("change", [replaced_by_link, replaced_by_folder, linked_above])
def test_a_folder_that_is_replaced_while_it_waits_is_not_read(fake, tmp_path, change):
    root = tree(tmp_path / "root", {"a": POINT, "top/sub/b": POINT, "top/sub/c": OUTSIDE})
    outside = tree(tmp_path / "outside", {"b": b"TOP SECRET", "c": b"TOP SECRET", "d": b"x"})
    for folder in (os.path.join(root, "top", "sub"), outside):
        pack(os.path.join(folder, "p.tar"), {"m": b"TOP SECRET"})
    met = list(chunks(root, hidden(str(tmp_path / "pages.db"))))
    change(os.path.join(root, "top", "sub"), outside)
    found = read_by_worker(fake, met)
    assert found.pop(b"a")[0] == tables.READ
    assert found == {name: (tables.CHANGED, REPLACED, None) for name in (b"b", b"c", b"")}


@pytest.fixture
def exchanged(tmp_path):
    """The chunks of a folder, of which one above others then becomes a link to a folder outside."""
    root = tree(tmp_path / "root", {"top/sub/b": POINT})
    outside = tree(tmp_path / "outside", {"sub/b": b"TOP SECRET"})
    for folder in (os.path.join(root, "top", "sub"), os.path.join(outside, "sub")):
        pack(os.path.join(folder, "p.tar"), {"m": b"TOP SECRET"})
    met = list(chunks(root, hidden(str(tmp_path / "pages.db"))))
    replaced_by_link(os.path.join(root, "top"), outside)
    return met, os.stat(os.path.join(outside, "sub")).st_ino


def test_a_scan_reads_nothing_outside_of_the_folder_that_was_named(naplps, tmp_path, store, monkeypatch):
    root = tree(tmp_path / "root", {"top/a/in": POINT, "top/b/in": SPELLED})
    outside = tree(tmp_path / "outside", {"a/secret": OUTSIDE, "b/secret": OUTSIDE})
    listed, top = search._listed, os.path.join(root, "top")
    status = os.stat(top)

    def meanwhile(descriptor, hides):
        names = listed(descriptor, hides)
        if os.path.samestat(os.fstat(descriptor), status):
            replaced_by_link(top, outside)
        return names
    monkeypatch.setattr(search, "_listed", meanwhile)
    said = forked(["scan", "root", "-o", "pages.db"], str(tmp_path), naplps)
    assert rows(store, "SELECT name, state, page FROM files") == [(b"in", tables.CHANGED, None)] * 2
    assert said.status == 3 and said.err.decode().splitlines() == [
        f"naplps-pages: {root}/top/{name}/in: {REPLACED}" for name in "ab"]


def test_a_folder_outside_that_has_the_same_number_is_not_read(fake, exchanged):
    """On another machine devices have other numbers, so that of a folder says little there."""
    met, number = exchanged
    met = [each._replace(identity=each.identity._replace(inode=number)) for each in met if b"sub" in each.path]
    assert read_by_worker(fake, met, elsewhere=True) == {name: (tables.CHANGED, REPLACED, None) for name in (b"b", b"")}


def test_files_that_wait_are_read_in_the_folder_that_was_named(fake, exchanged, tmp_path):
    """Those of a box whose page another worker had asked about, which then ended, are read again."""
    met, _ = exchanged
    writer = types.SimpleNamespace(
        files=[tables.File(each.folder, b"b", tables.READ) for each in met], packs={each.folder for each in met[3:]},
        connection=sqlite3.connect(":memory:"), forget=lambda: None)
    writer.connection.execute("CREATE TABLE folders(id, path)")
    writer.connection.executemany("INSERT INTO folders VALUES(?, ?)", [(each.folder, each.path) for each in met])
    run = types.SimpleNamespace(writer=writer)
    waiting = ScanRun._waiting(run, [os.fsencode(str(tmp_path / "root"))])
    found = read_by_worker(fake, [each for chunk in waiting for each in chunk if b"sub" in each.path])
    assert found == {name: (tables.VANISHED, why, None) for name, why in (
        (b"b", "its folder vanished"), (b"", "it vanished while it was looked at"))}


def test_a_pack_that_becomes_a_link_while_it_waits_is_not_read(fake, tmp_path):
    root = tree(tmp_path / "root", {"sub/b": POINT})
    path, outside = os.path.join(root, "sub", "p.tar"), str(tmp_path / "outside.tar")
    pack(outside, {"m": b"TOP SECRET"})
    os.symlink(outside, path)
    found = read_by_worker(fake, [FolderFiles(1, os.fsencode(path) + b"!/", (b"",), None, len(root))])
    assert found == {b"": (tables.UNREADABLE, "it is no regular file", None)}


def test_a_named_folder_may_be_a_link_but_no_other(run, tmp_path, store):
    root = tree(tmp_path / "root", {"a": POINT, "sub/b": POINT})
    pack(os.path.join(root, "p.zip"), {"m": POINT})
    link = str(tmp_path / "link")
    os.symlink(root, link)
    os.symlink("sub", os.path.join(root, "other"))
    assert run(["scan", link, "-o", store]).returncode == 0
    assert {name[len(str(tmp_path)):]: state for name, state in rows(store, "SELECT name, status FROM listing")} == {
        "/link/a": "accepted", "/link/sub/b": "accepted", "/link/p.zip!m": "accepted", "/link/other": "not a file"}


def test_a_mount_is_known_elsewhere_by_more_than_its_number(tmp_path):
    tree(tmp_path, {"a/x": POINT})
    descriptor = os.open(str(tmp_path / "a"), os.O_RDONLY)
    which = identity_of(descriptor, True)
    os.close(descriptor)
    status = os.stat(str(tmp_path / "a"))
    assert which == (True, status.st_dev, status.st_ino, False)
    descriptor = os.open("/proc", os.O_RDONLY)
    assert identity_of(descriptor, False).is_mount
    os.close(descriptor)


@pytest.mark.parametrize("command", [
    ["equal", "pages.db", "--verify"], ["canon", "pages.db", "-o", "made"],
    ["show", "pages.db", "-o", "made"], ["fix", "pages.db", "-o", "made"], ["files", "--census", "pages.db"],
    ["report", "pages.db", "-o", "made.html"]])
def test_a_page_that_became_long_is_changed_and_not_read(naplps, tmp_path, command):
    folder = str(tmp_path)
    tree(os.path.join(folder, "pages"), {"a": POINT, "b": SPELLED, "c": OUTSIDE, "d": b"\x0f" * 100})
    assert forked(["scan", "pages", "-o", "pages.db"], folder, naplps, keeps="repair").status == 0
    for name in "abc":
        os.truncate(os.path.join(folder, "pages", name), 8 << 40)
    said = forked(command, folder, naplps, 300)
    require_told(said, command)
    assert said.status in (0, 1, 3)
    if command[0] in ("canon", "show", "files"):
        assert b"it isn't as it was when it was scanned" in said.err


def broken_zip(number):
    """A zip file of a good member and of a number of broken ones."""
    return zip_of([entry(b"good", POINT, 5, 0)] + [entry(b"%04d" % at, POINT, 5, 0, flags=1) for at in range(number)])


def test_of_the_broken_members_of_a_pack_the_first_are_named(run, tmp_path, store):
    folder = str(tmp_path / "packs")
    os.mkdir(folder)
    few, many = (written(os.path.join(folder, name), broken_zip(number)) for name, number in (
        ("few.zip", MAX_BROKEN), ("many.zip", 500)))
    wanted = ["naplps-pages: %s!%04d: it is encrypted" % (path, at) for path in (few, many) for at in range(MAX_BROKEN)]
    wanted.append("naplps-pages: %s: 500 of its members couldn't be read, of which 20 are named; `files` names all"
                  % many)
    for _ in range(2):
        said = run(["scan", folder, "-o", store])
        assert sorted(said.stderr.decode().splitlines()) == sorted(wanted) and said.returncode == 3
    assert run(["files", store, "--kind", "any"]).stdout.count(b": it is encrypted") == 500 + MAX_BROKEN


def held(store):
    """A reader of the store who holds what he reads."""
    connection = sqlite3.connect(store, isolation_level=None)
    connection.execute("BEGIN")
    connection.execute("SELECT count(*) FROM files").fetchone()
    return connection


class ReadScan:
    """A scan that goes on once it is let, so that its store can be read before it ends."""

    def __init__(self, fake, folder):
        self.folder, self.store = folder, os.path.join(folder, "pages.db")
        self.go = os.path.join(folder, "go")
        tree(os.path.join(folder, "pages"), {"%d" % at: b"\x0f%d" % at for at in range(300)})
        self.child = begun(["scan", "pages", "-o", "pages.db"], folder, fake(slow(600, self.go).replace(
            "time.sleep(600)", "[time.sleep(0.01) for _ in iter(lambda: os.path.exists(%r), True)]" % self.go)))
        wait_until(lambda: os.path.exists(self.store + "-wal") and rows(self.store, "SELECT 1 FROM runs"))

    def end(self):
        """Lets it go on; what it says."""
        tree(self.folder, {"go": b""})
        return ended(self.child, self.folder)


def test_a_scan_that_ends_while_the_store_is_read_says_so(naplps, fake, tmp_path, store):
    scan = ReadScan(fake, str(tmp_path))
    reader = held(store)
    said = scan.end()
    assert said.status == 0 and said.err == (
        b"naplps-pages: pages.db: is being read, so its last rows are in pages.db-wal: a copy of the store needs both "
        b"files, until a command on it moves them\n")
    assert os.path.getsize(store + "-wal") > 0
    said = forked(["files", "pages.db"], scan.folder, naplps)
    assert b"\nlog:             " in said.out and b"files:           300\n" in said.out
    reader.close()
    said = forked(["files", "pages.db"], scan.folder, naplps)
    assert b"\nlog:" not in said.out and not os.path.exists(store + "-wal")
    assert rows(shutil.copy(store, store + ".copy"), "SELECT count(*) FROM files") == [(300,)]


@pytest.mark.parametrize("reads", ["nothing", "until the end"])
def test_a_store_is_whole_though_it_is_open(fake, tmp_path, store, reads):
    scan = ReadScan(fake, str(tmp_path))
    connection = open_to_read(store)
    if reads != "nothing":
        connection.execute("BEGIN")
    connection.execute("SELECT count(*) FROM files").fetchone()
    tree(scan.folder, {"go": b""})
    wait_until(lambda: rows(store, "SELECT 1 FROM runs WHERE ended IS NOT NULL"))
    if reads != "nothing":
        connection.execute("COMMIT")
    said = scan.end()
    assert said.status == 0 and said.err == b"", said
    assert rows(shutil.copy(store, store + ".copy"), "SELECT count(*) FROM files") == [(300,)]
    connection.close()


def spent(pid):
    """The seconds of a processor that a process has had."""
    with open("/proc/%d/stat" % pid, encoding="ascii") as file:
        fields = file.read().rpartition(")")[2].split()
    return (int(fields[11]) + int(fields[12])) / os.sysconf("SC_CLK_TCK")


@pytest.mark.parametrize("number", [signal.SIGINT, signal.SIGTERM])
@pytest.mark.parametrize("after", [0.3, 1.0, 2.0, 3.0])
def test_a_signal_ends_a_scan_of_a_long_store(naplps, tmp_path_factory, long_store, number, after):
    """Within two seconds of a processor, whatever it is at."""
    folder, store = long_store
    child = begun(["scan", "pages", "-o", os.path.basename(store)], folder, naplps)
    seen = 0.0
    while seen < after:
        time.sleep(0.02)
        seen = spent(child)
        if os.waitpid(child, os.WNOHANG)[0]:
            pytest.skip("the scan was over by then")
    os.kill(child, number)
    _, status, usage = os.wait4(child, 0)
    assert os.WIFSIGNALED(status) and os.WTERMSIG(status) == number
    assert usage.ru_utime + usage.ru_stime - seen < 2.0
    with open(os.path.join(folder, "err"), "rb") as said:
        assert b"Traceback" not in said.read()


@pytest.fixture(scope="module")
def long_store(tmp_path_factory):
    """A store of 100,000 files, or as many as LONG_STORE says, and a folder with pages."""
    folder = str(tmp_path_factory.mktemp("long"))
    store = os.path.join(folder, "long.db")
    made_up(store, 0, int(os.environ.get("LONG_STORE", "100000")))
    alter(store, "INSERT INTO texts(page, terms, source, text) SELECT id, terms, 0, 'hello ' || hex(own) FROM pages; "
                 "INSERT INTO meta VALUES('words', 1)")
    tree(os.path.join(folder, "pages"), {"%d" % at: b"\x0f%d" % at for at in range(100)})
    return folder, store
