"""Stores with which a query would take hours, by statistics that lie or by pages that are no tree, are refused in
seconds; and a signal ends the long query of any other.
"""
import collections
import os
import shutil
import signal
import sqlite3
import subprocess
import time
from pathlib import Path

import pytest

from forked import HANGS, begun, counted, ended, forked, require_told, rounds
from naplps_pages.collection import scan, sources, store, tables, texts
from naplps_pages.collection.store import open_to_read, open_to_write, open_unchanged
from scans import alter, rows
from stores import Stores, copied

COMMANDS = (["files"], ["files", "--refused"], ["files", "--json"], ["find"], ["equal"], ["equal", "--pictures"],
            ["equal", "OTHER"], ["equal", "--nearly"], ["files", "--census"], ["canon", "-o", "canonical"],
            ["fix", "-o", "canonical"], ["show", "-o", "canonical"], ["report", "-o", "report.html"],
            ["report", "--serve"], ["scan"], ["scan", "--merge"])
SECONDS = 60
NO_STORE = b"naplps-pages: bad.db: isn't a store of naplps-pages: its "


@pytest.fixture(scope="module")
def made(tmp_path_factory, naplps):
    if not texts.has_fts5():
        pytest.skip("SQLite has no FTS5")
    return Stores(str(tmp_path_factory.mktemp("endless")), naplps, "--near", "--pictures", keeps="words repair")


def refused(made, command):
    """What a command says of the bad store, which it refuses and leaves as it is."""
    before = Path(made.bad).read_bytes()
    said = made.run(command, SECONDS)
    assert said.status == 3 and Path(made.bad).read_bytes() == before, (command, said)
    return said.err


def statistics(*names):
    return ("naplps-pages: bad.db: has statistics of SQLite, with which a query can take hours; `sqlite3 bad.db '%s'` "
            "removes them\n" % "; ".join("DROP TABLE " + name for name in names)).encode()


FORGED = ("ANALYZE; DELETE FROM sqlite_stat1; INSERT INTO sqlite_stat1 VALUES('pages', 'pages_by_canon', '40000 "
          "40000'), ('files', 'files_by_page', '40000 40000'), ('files', NULL, '1')")
FOURTH = ("PRAGMA writable_schema = ON; CREATE TABLE sqlite_stat4(tbl, idx, neq, nlt, ndlt, sample)")
CAPITALS = ("CREATE TABLE xqlite_stat1(tbl, idx, stat); PRAGMA writable_schema = ON; UPDATE sqlite_master SET name = "
            "'SQLITE_STAT1', tbl_name = 'SQLITE_STAT1', sql = 'CREATE TABLE SQLITE_STAT1(tbl, idx, stat)' "
            "WHERE name = 'xqlite_stat1'")


@pytest.mark.parametrize("words, names", [
    ("ANALYZE", ["sqlite_stat1"]), (FORGED, ["sqlite_stat1"]), ("ANALYZE; " + FOURTH, ["sqlite_stat1", "sqlite_stat4"]),
    (CAPITALS, ["sqlite_stat1"])], ids=["honest", "forged", "fourth", "capitals"])
def test_a_store_with_statistics_is_refused_with_the_words_that_remove_them(made, words, names):
    made.change(words)
    for command in COMMANDS:
        assert refused(made, command) == statistics(*names), command
    alter(made.bad, "; ".join("DROP TABLE " + name for name in names))
    assert forked(["files", "bad.db"], made.folder, made.naplps).status == 0


def test_the_words_that_remove_statistics_are_those_of_the_shell(made):
    made.change("ANALYZE; " + FOURTH)
    line = refused(made, ["files"]).decode().split("`")[1]
    try:
        subprocess.run(line, shell=True, cwd=made.folder, check=True)
    except subprocess.CalledProcessError:
        pytest.skip("the shell of SQLite isn't here")
    assert forked(["files", "bad.db"], made.folder, made.naplps).status == 0


def test_statistics_that_stand_in_the_log_alone(made):
    other = copied(made.good, os.path.join(made.folder, "logged.db"))
    connection = sqlite3.connect(other, isolation_level=None)
    connection.executescript("PRAGMA journal_mode = WAL; PRAGMA wal_autocheckpoint = 0; " + FORGED)
    made.change()
    for ending in ("", "-wal"):
        shutil.copy(other + ending, made.bad + ending)
    connection.close()
    for command in (["files"], ["scan"], ["scan", "--merge"]):
        said = made.run(command, SECONDS)
        assert said.status == 3 and said.err == statistics("sqlite_stat1"), (command, said)


def test_scans_and_merges_make_no_statistics(made):
    assert forked(["scan", made.pages, "-o", "good.db"], made.folder, made.naplps).status == 0
    assert forked(["scan", "--merge", "good.db", "-o", "joined.db"], made.folder, made.naplps).status == 0
    for name in ("good.db", "joined.db"):
        assert not rows(os.path.join(made.folder, name), "SELECT 1 FROM sqlite_master WHERE name LIKE 'sqlite_stat%'")


# How often each page of a forged tree leads to the one below, and how many pages there are one below the other.
WIDTH, DEPTH = 400, 5
TABLE_INTERIOR, INDEX_INTERIOR, TABLE_LEAF, INDEX_LEAF = 5, 2, 13, 10


class Pages:
    """The pages of a file, to which others are added."""

    def __init__(self, path):
        self.data = bytearray(Path(path).read_bytes())
        self.path, self.size = path, int.from_bytes(self.data[16:18], "big")

    def page(self, number):
        return bytes(self.data[(number - 1) * self.size:number * self.size])

    def add(self, page):
        self.data += page
        return len(self.data) // self.size

    def cells(self, page, start=0):
        """The places of the cells of a page."""
        number, first = int.from_bytes(page[start + 3:start + 5], "big"), start + (8 if page[start] > 5 else 12)
        return [int.from_bytes(page[first + 2 * at:first + 2 * at + 2], "big") for at in range(number)]

    def whole(self, page):
        """The cells of a leaf."""
        places = self.cells(page)
        return [page[at:min([each for each in places if each > at] + [self.size])] for at in places]

    def made(self, kind, cells, right=None, start=0):
        """A page of these cells; an interior one leads to `right` at the end."""
        page, at = bytearray(self.size), self.size
        first = start + (8 if right is None else 12)
        page[start] = kind
        page[start + 3:start + 5] = len(cells).to_bytes(2, "big")
        for number, cell in enumerate(cells):
            at -= max(len(cell), 4)
            page[at:at + len(cell)] = cell
            page[first + 2 * number:first + 2 * number + 2] = at.to_bytes(2, "big")
        page[start + 5:start + 7] = at.to_bytes(2, "big")
        if right is not None:
            page[start + 8:start + 12] = right.to_bytes(4, "big")
        return bytes(page)

    def above(self, kind, child, key, start=0):
        """A page that leads to one as often as it can."""
        cell = child.to_bytes(4, "big") + key
        number = min(WIDTH, (self.size - start - 12) // (max(len(cell), 4) + 2))
        return self.made(kind, [cell] * number, child, start)

    def write(self, root, page):
        self.data[(root - 1) * self.size:root * self.size] = page
        self.data[28:32] = (len(self.data) // self.size).to_bytes(4, "big")
        Path(self.path).write_bytes(self.data)


def endless(path, name):
    """Lets the root of a table or an index lead to one leaf billions of times; whether it has a row."""
    (root,), = rows(path, "SELECT rootpage FROM sqlite_master WHERE name = ?", name)
    some = Pages(path)
    leaf = some.page(root)
    while leaf[0] in (TABLE_INTERIOR, INDEX_INTERIOR):
        leaf = some.page(int.from_bytes(leaf[8:12], "big"))
    cells = some.cells(leaf)
    if not cells:
        return False
    is_table = leaf[0] == TABLE_LEAF
    key = b"\1" if is_table else leaf[cells[0]:cells[0] + leaf[cells[0]] + 1]
    top = leaf
    for _ in range(DEPTH):
        top = some.above(TABLE_INTERIOR if is_table else INDEX_INTERIOR, some.add(top), key)
    some.write(root, top)
    return True


def objects():
    """The tables of a store that are trees, and their indices."""
    key_of = [f"sqlite_autoindex_{name}_1" for name in ("terms", "folders", "pages", "near_keys", "pictures")]
    return ["meta", *tables.TABLES, *tables.INDEXED, *key_of, "near_keys", "pictures", *tables.SHADOWS]


@pytest.mark.parametrize("name", objects())
def test_pages_that_are_no_tree(made, name):
    """By each command for those that most of them read, and by those that write or only read for all."""
    made.change()
    if not endless(made.bad, name):
        pytest.skip("it has no row here")
    kind = "index" if name in tables.INDEXED or name.startswith("sqlite_") else "table"
    commands = COMMANDS if name in ("pages", "folders", "files_by_page") else (
        ["files"], ["find"], ["scan"], ["scan", "--merge"])
    for command in commands:
        assert refused(made, command) == NO_STORE + b"%s %s has more rows than the file can hold\n" % (
            kind.encode(), name.encode()), command


def test_a_schema_without_an_end(made):
    """Rows of keys, which say nothing but where these are, may stand there again and again."""
    made.change()
    some = Pages(made.bad)
    first = some.page(1)
    assert first[100] == TABLE_INTERIOR
    leaves = [int.from_bytes(first[at:at + 4], "big") for at in some.cells(first, 100)]
    leaves.append(int.from_bytes(first[108:112], "big"))
    keys = [cell for leaf in map(some.page, leaves) for cell in some.whole(leaf) if b"sqlite_autoindex" in cell]
    top = some.made(TABLE_LEAF, keys)
    for _ in range(DEPTH):
        top = some.above(TABLE_INTERIOR, some.add(top), b"\1")
    root = some.made(TABLE_INTERIOR, [leaf.to_bytes(4, "big") + b"\1" for leaf in leaves], some.add(top), 100)
    some.write(1, first[:100] + root[100:])
    for command in COMMANDS:
        assert refused(made, command) == NO_STORE + b"schema has more rows than the file can hold\n", command


def test_statistics_without_an_end(made):
    made.change("ANALYZE")
    assert endless(made.bad, "sqlite_stat1")
    for command in COMMANDS:
        assert refused(made, command).startswith(b"naplps-pages: bad.db: "), command


def pointers(some):
    """The places in a file at which a page leads to another."""
    for number in range(len(some.data) // some.size):
        start = 100 if number == 0 else 0
        page = some.page(number + 1)
        if page[start] in (TABLE_INTERIOR, INDEX_INTERIOR):
            yield from (number * some.size + at for at in (start + 8, *some.cells(page, start)))


def test_pages_that_lead_to_others_by_chance(made):
    """No command hangs, and none fails but as the manual page says."""
    made.change()
    some = Pages(made.bad)
    places, count = list(pointers(some)), len(some.data) // some.size
    counts = collections.Counter()
    for seed, chance in rounds(10):
        data = bytearray(some.data)
        for _ in range(chance.choice((1, 2, 5))):
            at = chance.choice(places)
            data[at:at + 4] = chance.randrange(1, count + 1).to_bytes(4, "big")
        command = chance.choice([each for each in COMMANDS if each != ["report", "--serve"]])
        Path(made.bad).write_bytes(data)
        said = made.run(command, SECONDS)
        require_told(said, command, seed)
        counts[command[0], said.status] += 1
    counted(counts, "pages that lead to others")
    assert places and sum(counts.values()) >= 10


ENDLESS = "WITH RECURSIVE c(x) AS (SELECT 1 UNION ALL SELECT x + 1 FROM c) SELECT max(x) FROM c"


def at_work(path):
    """What tells that it is at work, and then is it for ever."""
    def works(connection, *_):
        Path(path).touch()
        connection.execute(ENDLESS).fetchall()
    return works


def signalled(made, words, path, numbers):
    """What a command says that gets signals once it is at work."""
    child = begun(words, made.folder, made.naplps)
    for _ in range(SECONDS * 100):
        if os.path.exists(path):
            break
        time.sleep(0.01)
    for number in numbers:
        time.sleep(0.3)
        os.kill(child, number)
    said = ended(child, made.folder, 15)
    os.unlink(path)
    return said


@pytest.mark.parametrize("number", [signal.SIGINT, signal.SIGTERM])
@pytest.mark.parametrize("command", [each for each in COMMANDS if each[0] != "scan"],
                         ids=lambda words: words[0] + "".join(words[1:2]))
def test_a_signal_ends_a_long_query(made, monkeypatch, tmp_path, command, number):
    """It ends the command as any other: by the signal, with no other word."""
    path = str(tmp_path / "at work")
    for module in (store, sources):
        monkeypatch.setattr(module, "show_present", at_work(path))
    made.change()
    assert signalled(made, made.words(command), path, [number]) == (-number, b"", b"")


@pytest.mark.parametrize("number", [signal.SIGINT, signal.SIGTERM])
def test_a_signal_ends_what_a_merge_looks_for(made, monkeypatch, tmp_path, number):
    path = str(tmp_path / "at work")
    monkeypatch.setattr(sources, "require_right", at_work(path))
    made.change()
    assert signalled(made, made.words(["scan", "--merge"]), path, [number]) == (-number, b"", b"")
    assert not os.path.exists(os.path.join(made.folder, "merged.db"))


def test_a_second_signal_ends_the_long_query_of_a_scan(made, monkeypatch, tmp_path):
    path = str(tmp_path / "at work")
    monkeypatch.setattr(scan, "keep", at_work(path))
    made.change()
    said = signalled(made, made.words(["scan"]), path, [signal.SIGINT, signal.SIGINT])
    assert said.status == -signal.SIGINT and said.err == (
        b"naplps-pages: stopped; what was taken is kept, and the same command goes on\n")


@pytest.mark.parametrize("opened", [open_to_read, open_unchanged, open_to_write])
def test_each_connection_looks_for_signals(made, opened):
    """(What is raised amid a callback of SQLite is lost, so the query ends with SQLite's own error.)"""
    made.change()
    connection = opened(made.bad)
    store.ENDING.number = signal.SIGINT
    try:
        with pytest.raises(sqlite3.OperationalError, match="interrupted"):
            connection.execute(ENDLESS)
    finally:
        store.ENDING.number = None
        connection.close()


def test_what_hangs_is_known(made, monkeypatch, tmp_path):
    """(That none of the commands above hangs is seen by this.)"""
    monkeypatch.setattr(store, "show_present", lambda _: time.sleep(60))
    made.change()
    assert forked(["files", "bad.db"], made.folder, made.naplps, 1).status == HANGS
