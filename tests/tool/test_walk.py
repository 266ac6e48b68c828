"""Folders that are odd: deeper than a path may be, in themselves, exchanged, with names of every kind."""
import os
import subprocess

import pytest

from naplps_pages.collection import folders, search, tables
from naplps_pages.collection.progress import Counting
from naplps_pages.collection.protocol import FolderFiles
from naplps_pages.collection.search import apart
from samples import POINT, SPELLED
from scans import FAKE, files_read, replaced_by_link, rows, tree

NOTHING = search.Hidden(None, frozenset())
DEEP = 40
NAME = b"d" * 250


@pytest.fixture
def top(tmp_path):
    """A folder with a page, which is taken away with all that was made in it."""
    yield tree(tmp_path / "top", {"page": POINT})
    subprocess.run(["rm", "-rf", str(tmp_path / "top")], check=True)  # (shutil.rmtree would recurse)


def dig(top, depth=DEEP):
    """Makes a folder whose path is longer than the system takes, with pages in it; its path."""
    path, at = os.fsencode(top), os.open(top, os.O_RDONLY)
    for _ in range(depth):
        os.mkdir(NAME, dir_fd=at)
        below = os.open(NAME, os.O_RDONLY, dir_fd=at)
        os.close(at)
        path, at = path + b"/" + NAME, below
    for name, data in ((b"page", POINT), (b"other", SPELLED)):
        file = os.open(name, os.O_WRONLY | os.O_CREAT, dir_fd=at)
        os.write(file, data)
        os.close(file)
    os.close(at)
    return path


def test_a_folder_that_is_too_deep_is_a_row(run, top, store):
    """Each row has its whole path, so a store would grow with the square of the depth."""
    dig(top, 300)
    said = run(["scan", top, "-o", store])
    longest = max((each for each, in rows(store, "SELECT path FROM folders WHERE state = 0")), key=len)
    assert search.MAX_PATH - 251 < len(longest) <= search.MAX_PATH == 65536
    assert said.stdout == (
        b"1 file: 1 accepted (1 page), 0 refused; 0 known, 1 page asked about; 1 folder unreadable\n")
    assert said.stderr.decode() == "naplps-pages: %s: its path is longer than 65536 bytes\n" % os.fsdecode(
        longest + b"/" + NAME) and said.returncode == 3
    assert rows(store, "SELECT path, why FROM folders WHERE state = 1") == [
        (longest + b"/" + NAME, "its path is longer than 65536 bytes")]
    assert os.path.getsize(store) < 20 << 20


def test_a_path_that_is_too_long_for_the_system(run, top, store, tmp_path):
    path = dig(top)
    assert len(path) > os.pathconf(top, "PC_PATH_MAX")
    said = run(["scan", top, "-o", store])
    assert (said.stdout, said.stderr) == (
        b"3 files: 3 accepted (3 pages), 0 refused; 0 known, 2 pages asked about\n", b"")
    assert b"; 3 known, 0 pages" in run(["scan", top, "-o", store]).stdout
    assert (path,) in rows(store, "SELECT path FROM folders")
    assert run(["equal", store, "--verify"]).stdout == run(["equal", store]).stdout
    said = run(["canon", store, "-o", str(tmp_path / "to")])
    assert (said.stdout, said.stderr) == (b"1 written, 0 there\n", b"")


LEVELS, BESIDE = 5000, 100


@pytest.fixture(scope="module")
def levels(tmp_path_factory):
    """A folder of many levels, with a file, and a folder beside the next one, in each hundredth."""
    top = str(tmp_path_factory.mktemp("levels"))
    at = os.open(top, os.O_RDONLY)
    for level in range(LEVELS + 1):
        if level % BESIDE == 0:
            os.close(os.open(b"x", os.O_WRONLY | os.O_CREAT, dir_fd=at))
            os.mkdir(b"e", dir_fd=at)
        os.mkdir(b"d", dir_fd=at)
        below = os.open(b"d", os.O_RDONLY, dir_fd=at)
        os.close(at)
        at = below
    os.close(at)
    yield top
    subprocess.run(["rm", "-rf", top], check=True)


def open_files():
    return len(os.listdir("/proc/self/fd"))


def test_many_levels_with_few_open_folders(levels):
    before, most, found = open_files(), 0, []
    for listing in search.walk(os.fsencode(levels), NOTHING):
        most = max(most, open_files())
        found.append((listing.path[len(levels):], listing.state, listing.names))
    assert found == [
        *((b"/d" * level, tables.READ, () if level % BESIDE or level > LEVELS else (b"x",))
          for level in range(LEVELS + 2)),
        *((b"/d" * level + b"/e", tables.READ, ()) for level in range(LEVELS, -1, -BESIDE))]
    assert most - before <= 40 and open_files() == before


def test_a_worker_reads_many_levels_with_few_open_folders(levels, fake):
    root = os.fsencode(levels)
    chunk = tuple(FolderFiles(level, root + b"/d" * level, (b"x",), None, len(root))
                  for level in (*range(0, LEVELS + 1, BESIDE), *range(LEVELS, -1, -BESIDE)))
    before, most = open_files(), [0]
    found = files_read(fake(FAKE), chunk, beat=lambda: most.append(open_files()))
    assert [(file.folder, file.state) for file in found] == [(each.folder, tables.READ) for each in chunk]
    assert max(most) - before <= 60 and open_files() == before


@pytest.fixture
def swapped(tmp_path):
    """A folder in which `top` is to be exchanged, and another one with the same folders."""
    root = tree(tmp_path / "root", {"top/a/in": b"a", "top/b/in": b"b", "top/b/p.tar": b"p"})
    outside = tree(tmp_path / "outside", {"a/secret": b"s", "b/secret": b"s", "b/p.tar": b"s"})
    return root, outside


@pytest.mark.parametrize("most_open, taken, last", [
    (folders.MOST_OPEN, 2, (b"/top/b", tables.READ, (b"in",), (b"p.tar",))),
    # (of a deep tree a folder above is open no longer once the walk comes back to it)
    (1, 3, (b"/top/b", tables.VANISHED, (), ()))])
def test_a_folder_above_that_becomes_a_link_is_not_followed(swapped, monkeypatch, most_open, taken, last):
    root, outside = swapped
    monkeypatch.setattr(folders, "MOST_OPEN", most_open)
    steps = search.walk(os.fsencode(root), NOTHING)
    found = [next(steps) for _ in range(taken)]
    replaced_by_link(os.path.join(root, "top"), outside)
    found += steps
    assert [(each.path[len(root):], each.state, each.names, each.packs) for each in found] == [
        (b"", tables.READ, (), ()), (b"/top", tables.READ, (), ()), (b"/top/a", tables.READ, (b"in",), ()), last]


def test_files_are_counted_in_the_named_folder_alone(swapped, monkeypatch):
    """They are counted beside the scan, for the time that is left."""
    root, outside = swapped
    top = os.path.join(root, "top")
    os.unlink(os.path.join(top, "b", "p.tar"))
    tree(outside, {"a/more": b"", "a/most": b""})
    scandir, status = os.scandir, os.stat(top)

    def meanwhile(which):
        listed = scandir(which)
        if os.path.samestat(os.stat(which), status) and not os.path.islink(top):
            replaced_by_link(top, outside)
        return listed
    monkeypatch.setattr(os, "scandir", meanwhile)
    counting = Counting([os.fsencode(root)])
    counting.run()
    assert counting.total == 2 and os.path.islink(top)


def test_paths_in_pieces():
    for path in (b"/a", b"/" + b"x" * 255, b"/" + b"/".join([b"y" * 200] * 100), b"/" + b"/".join([b"z"] * 9000)):
        pieces = list(folders._pieces(path))
        assert b"/".join(pieces) == path and max(map(len, pieces)) <= folders.PIECE


def test_a_folder_that_is_in_itself(tmp_path, monkeypatch):
    tree(tmp_path, {"a/b/page": POINT, "c/page": POINT})
    of_top = os.stat(str(tmp_path)).st_ino
    of_b = os.stat(str(tmp_path / "a" / "b")).st_ino
    # (as a file system may show it that has the top folder once more below itself)
    monkeypatch.setattr(search, "_identity", lambda status: (0, of_top if status.st_ino == of_b else status.st_ino))
    found = [(each.path[len(str(tmp_path)):], each.state, each.why) for each in
             search.walk(os.fsencode(tmp_path), NOTHING)]
    assert found == [(b"", tables.READ, None), (b"/a", tables.READ, None),
                     (b"/a/b", tables.UNREADABLE, "it is in itself"), (b"/c", tables.READ, None)]


def test_the_order_of_names(tmp_path):
    tree(tmp_path, {b"b/2": b"", b"b/\xff": b"", "b/ü": b"", b"a": b"", b"c/x/y": b"", b"c/x-y": b"", b"B": b""})
    found = [(each.path[len(str(tmp_path)):], each.names) for each in search.walk(os.fsencode(tmp_path), NOTHING)]
    assert found == [
        (b"", (b"B", b"a")), (b"/b", (b"2", "ü".encode(), b"\xff")), (b"/c", (b"x-y",)), (b"/c/x", (b"y",))]


def test_roots_that_stand_in_others():
    assert apart([b"/b", b"/a/c", b"/a", b"/a b", b"/b", b"/a/"[:2]]) == [b"/b", b"/a", b"/a b"]
    assert apart([b"/x", b"/"]) == [b"/"]
