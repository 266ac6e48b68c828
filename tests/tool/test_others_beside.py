"""Stores in folders that others may write to or look into: nothing that another user puts beside a store is taken, and
no words of pages come into a file that others may read.
"""
import os
import sqlite3
import stat
import struct
import subprocess
import sys
from contextlib import nullcontext
from pathlib import Path

import pytest

from command import NOBODY
from naplps_pages.collection import store as store_module
from naplps_pages.collection.store import StoreFailed, keep_private, open_to_write
from naplps_pages.collection.store_files import ENDINGS, JOURNAL, LOG, require_own
from scans import rows, tree
from stores import archive

# The user who runs commands is NOBODY, whose store is tried; another one is the stranger.
STRANGER = 12345
OF_OTHER = "naplps-pages: %s: the file beside it with the ending %s is another user's\n"
as_two_users = pytest.mark.skipif(os.geteuid() != 0, reason="only root can act as two users")


@pytest.fixture
def open_folder(run_as_nobody, tmp_path):
    """A folder like /tmp, in which all may make files, with a store of NOBODY, of pages that nobody else may read."""
    folder = str(tmp_path / "open")
    os.mkdir(folder)
    os.chmod(folder, 0o1777)
    pages = archive(str(tmp_path))
    for top, below, names in os.walk(pages):
        for name in below + names + [""]:
            os.chown(os.path.join(top, name), NOBODY, NOBODY)
    os.chmod(pages, 0o700)
    said = run_as_nobody("scan", pages, "-o", "s.db", "--skip", "repair", cwd=folder)
    assert said.returncode == 0, said.stderr
    return folder, pages


def of_stranger(path, data=b"", mode=0o666):
    """A file of the stranger."""
    Path(path).write_bytes(data)
    os.chown(path, STRANGER, STRANGER)
    os.chmod(path, mode)


JOURNAL_MAGIC = bytes.fromhex("D9D505F920A163D7")


def rewriting(data):
    """A journal by which SQLite makes a file have the pages of these bytes."""
    size = int.from_bytes(data[16:18], "big")
    pages = [data[at:at + size] for at in range(0, len(data), size)]
    head = (JOURNAL_MAGIC + struct.pack(">IIIII", len(pages), 0, len(pages), 512, size)).ljust(512, b"\0")
    return head + b"".join(struct.pack(">I", number) + page + struct.pack(">I", sum(page[size - 200:0:-200]))
                           for number, page in enumerate(pages, 1))


def logged(path):
    """A log that has all pages of a database."""
    connection = sqlite3.connect(path, isolation_level=None)
    connection.executescript("PRAGMA journal_mode = WAL; VACUUM")
    data = Path(path + "-wal").read_bytes()
    connection.close()
    return data


@as_two_users
@pytest.mark.parametrize("ending", [JOURNAL, LOG])
def test_no_file_of_a_stranger_replaces_a_store(open_folder, run_as_nobody, tmp_path, run, ending):
    """His journal or his log has the pages of a store of his."""
    folder, _ = open_folder
    other = str(tmp_path / "other.db")
    tree(tmp_path / "others", {"forged.nap": b"\x0e\x26\x52\x40\x40"})
    assert run(["scan", str(tmp_path / "others"), "-o", other]).returncode == 0
    data = rewriting(Path(other).read_bytes()) if ending == JOURNAL else logged(other)
    of_stranger(os.path.join(folder, "s.db" + ending), data)
    before = Path(folder, "s.db").read_bytes()
    for command in (["files", "s.db"], ["find", "hello", "s.db"], ["scan", str(tmp_path / "pages"), "-o", "s.db"],
                    ["scan", "--merge", "s.db", "-o", "m.db"], ["equal", "s.db", "s.db"]):
        said = run_as_nobody(*command, cwd=folder)
        assert (said.returncode, said.stdout, said.stderr.decode()) == (3, b"", OF_OTHER % ("s.db", ending)), command
    assert Path(folder, "s.db").read_bytes() == before
    os.unlink(os.path.join(folder, "s.db" + ending))
    assert b"forged" not in run_as_nobody("files", "s.db", "--kind", "any", cwd=folder).stdout


@as_two_users
@pytest.mark.parametrize("ending", ENDINGS)
@pytest.mark.parametrize("name", ["s.db", "new.db"])
def test_an_empty_file_of_a_stranger_gets_no_words(open_folder, run_as_nobody, name, ending):
    folder, pages = open_folder
    path = os.path.join(folder, name + ending)
    of_stranger(path)
    for command in (["scan", pages, "-o", name, "--skip", "repair"], ["scan", "--merge", "s.db", "-o", name]):
        if "--merge" in command and name == "s.db":
            continue
        said = run_as_nobody(*command, cwd=folder)
        assert (said.returncode, said.stderr.decode()) == (3, OF_OTHER % (name, ending)), command
        assert os.path.getsize(path) == 0 and os.stat(path).st_uid == STRANGER
    assert os.path.exists(os.path.join(folder, name)) == (name == "s.db")


@as_two_users
def test_an_empty_store_of_a_stranger_gets_no_words(open_folder, run_as_nobody):
    """He may have it open, whatever mode it gets."""
    folder, pages = open_folder
    path = os.path.join(folder, "new.db")
    of_stranger(path)
    said = run_as_nobody("scan", pages, "-o", "new.db", "--skip", "repair", cwd=folder)
    assert (said.returncode, said.stderr) == (3, b"naplps-pages: new.db: is empty, and another user's\n")
    assert os.path.getsize(path) == 0


# What is beside a store by its right owners: whoever may write the store.
DAEMON, BIN = 1, 2  # two users of the system, each in the group of his own number


@as_two_users
@pytest.mark.parametrize("ending", ENDINGS)
@pytest.mark.parametrize("mode, group, owner, is_taken", [
    (0o600, NOBODY, 0, True), (0o600, NOBODY, NOBODY, True), (0o600, NOBODY, STRANGER, False),
    (0o644, NOBODY, STRANGER, False), (0o660, DAEMON, DAEMON, True), (0o660, DAEMON, BIN, False),
    (0o660, DAEMON, STRANGER, False), (0o640, DAEMON, DAEMON, False), (0o666, NOBODY, STRANGER, True)])
def test_who_may_write_a_store_may_have_a_file_beside_it(tmp_path, ending, mode, group, owner, is_taken):
    store = str(tmp_path / "s.db")
    open_to_write(store).close()
    os.chown(store, NOBODY, group)
    os.chmod(store, mode)
    Path(store + ending).touch()
    os.chown(store + ending, owner, group)
    why = "^the file beside it with the ending %s is another user's$" % ending
    with nullcontext() if is_taken else pytest.raises(OSError, match=why):
        require_own(store, ending)


def test_a_new_store_is_private_before_sqlite_opens_it(tmp_path, monkeypatch):
    """So nobody opens it in the instant in which it has another mode, and reads later what it gets."""
    path = str(tmp_path / "s.db")
    modes = []
    connect = sqlite3.connect

    def connected(*words, **named):
        modes.append(stat.S_IMODE(os.stat(path).st_mode) if os.path.exists(path) else None)
        return connect(*words, **named)
    before = os.umask(0)
    try:
        monkeypatch.setattr(store_module.sqlite3, "connect", connected)
        open_to_write(path).close()
    finally:
        os.umask(before)
    assert modes == [0o600] and stat.S_IMODE(os.stat(path).st_mode) == 0o600


def test_the_modes_of_new_stores(run, tmp_path):
    """One without words of pages has 0644, as SQLite makes its files, as far as the mask allows that."""
    pages = archive(str(tmp_path))
    modes = {}

    def mode_after(*words, keeps=""):
        said = run([*words], keeps=keeps)
        assert said.returncode == 0, said.stderr
        return stat.S_IMODE(os.stat(words[words.index("-o") + 1]).st_mode)
    before = os.umask(0o002)
    try:
        for name, words in (("none", ()), ("words", ()), ("near", ("--near",)), ("looks", ("--pictures",))):
            path = str(tmp_path / name)
            modes[name] = [mode_after("scan", pages, "-o", path, *words, keeps=name),
                           mode_after("scan", "--merge", path, "-o", path + " merged")]
        # (who lets others read it is heard)
        scan = ("scan", pages, "-o", str(tmp_path / "none"), "--near")
        modes["near later"] = mode_after(*scan)
        os.chmod(tmp_path / "none", 0o644)
        modes["heard"] = mode_after(*scan)
    finally:
        os.umask(before)
    assert modes == {"none": [0o644] * 2, "words": [0o600] * 2, "near": [0o600] * 2, "looks": [0o644] * 2,
                     "near later": 0o600, "heard": 0o644}


@pytest.mark.parametrize("kind", ["a link", "a file", "a link to nothing"])
def test_the_mode_of_no_other_file_is_changed(tmp_path, kind):
    """As where somebody who may write to the folder puts it in the place of a store that is open."""
    path, key = str(tmp_path / "s.db"), str(tmp_path / "key")
    connection = open_to_write(path)
    os.chmod(path, 0o644)
    os.rename(path, str(tmp_path / "moved.db"))
    if kind != "a link to nothing":
        Path(key).write_bytes(b"secret")
        os.chmod(key, 0o640)
    (os.rename if kind == "a file" else os.symlink)(key, path)
    with pytest.raises(OSError):
        keep_private(connection)
    connection.close()
    if kind != "a link to nothing":
        assert stat.S_IMODE(os.stat(path).st_mode) == 0o640


BEGIN = "import sqlite3, sys; sqlite3.connect(sys.argv[1], timeout=0).execute('BEGIN IMMEDIATE')"


def test_a_store_that_others_can_read_gets_its_first_words_in_private(tmp_path):
    path = str(tmp_path / "s.db")
    connection = open_to_write(path)
    os.chmod(path, 0o664)
    connection.execute("BEGIN IMMEDIATE")
    keep_private(connection)
    assert stat.S_IMODE(os.stat(path).st_mode) == 0o600
    # (SQLite's lock is still there: another process can't take it)
    told = subprocess.run([sys.executable, "-c", BEGIN, path], capture_output=True, text=True)
    assert told.stderr.endswith("database is locked\n")
    connection.close()
    assert rows(path, "SELECT count(*) FROM texts") == [(0,)]


def test_a_store_is_never_made_over_what_came_meanwhile(tmp_path, monkeypatch):
    path = str(tmp_path / "s.db")
    victim = str(tmp_path / "victim")
    look = store_module._look_beside

    def looked(name):
        look(name)
        os.symlink(victim, path)
    monkeypatch.setattr(store_module, "_look_beside", looked)
    with pytest.raises(StoreFailed, match="File exists"):
        open_to_write(path)
    assert not os.path.exists(victim)
