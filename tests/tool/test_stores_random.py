"""Stores changed by chance, and each command that takes a store: none fails but as the manual page says.

It takes seconds. FUZZ_SECONDS=600 lets it run for so long, and FUZZ_COUNTS names a file for how often what came of it.
"""
import collections
import json
import os
import shutil
import signal
import sqlite3
import urllib.error
import urllib.request
from pathlib import Path

import pytest

from folders import OBSTACLES, remove, states
from forked import begun, counted, ended, require_told, rounds
from naplps_pages.collection import tables
from naplps_pages.collection.store_files import ENDINGS
from packers import written
from scans import wait_until
from stores import COMMANDS, Stores

ROUNDS = 40
PATHS = ("/", "/dev/zero!/", "/proc/self/mem", "../../x", "/etc/passwd!/", "a/b")
OBJECTS = ("CREATE VIEW v AS SELECT 1", "CREATE TRIGGER t AFTER DELETE ON pages BEGIN SELECT 1; END",
           "CREATE TABLE more(x)", "CREATE INDEX more_by ON files(state)", "DROP TABLE cures", "DROP VIEW listing",
           "DROP INDEX files_by_page", "DELETE FROM meta", "PRAGMA user_version = 7", "PRAGMA application_id = 7",
           "ALTER TABLE runs ADD COLUMN x", "CREATE UNIQUE INDEX u ON files(state)", "VACUUM",
           "PRAGMA journal_mode = WAL", "PRAGMA auto_vacuum = 1", "CREATE VIRTUAL TABLE w USING fts5(x)", "REINDEX",
           "CREATE INDEX e ON runs((abs(id)))", "CREATE INDEX f ON pages(state) WHERE canon > hex(own)", "ANALYZE",
           "CREATE TABLE own(a INTEGER PRIMARY KEY AUTOINCREMENT, b AS (a + 1), CHECK(b > a))",
           "CREATE TABLE \"FILES of\"(x); CREATE INDEX g ON \"FILES of\"((hex(x)))")
# What a command may make or change, by how its name begins.
MADE = ("bad.db", "other.db", "kept.db", "canonical", "report.html", "merged.db", "out", "err")


@pytest.fixture(scope="module")
def made(tmp_path_factory, naplps):
    stores = Stores(str(tmp_path_factory.mktemp("stores")), naplps, keeps="repair")
    written(os.path.join(stores.folder, "victim"), b"precious" * 1000)
    return stores


def value(chance):
    """A value of SQL."""
    return chance.choice((
        lambda: "NULL", lambda: str(chance.choice((0, 1, -1, 2, 7, 99, 1 << 31, (1 << 63) - 1, -(1 << 63)))),
        lambda: str(chance.uniform(-1e300, 1e300)), lambda: "''", lambda: "'%s'" % ("x" * chance.choice((1, 70_000))),
        lambda: "char(27) || '[31m' || char(10, 7, 155, 8238)", lambda: "x'%s'" % chance.randbytes(
            chance.choice((0, 1, 31, 32, 33, 500))).hex(), lambda: "CAST(x'FF1B5B' AS TEXT)",
        lambda: "CAST('%s' AS BLOB)" % chance.choice(PATHS),
        lambda: "zeroblob(100000)", lambda: "'accepted'"))()


def changed(chance, connection):
    """One change of a database by SQL."""
    kind = chance.random()
    if kind < 0.75:
        table = chance.choice(sorted(tables.TABLES))
        column = chance.choice(tables.TABLES[table].columns).name
        where = chance.choice(("", " WHERE abs(random()) % 3 = 0", " WHERE rowid = 1" if table != "roots" else ""))
        connection.execute("UPDATE OR IGNORE %s SET %s = %s%s" % (table, column, value(chance), where))
    elif kind < 0.8:
        connection.execute("DELETE FROM %s" % chance.choice(sorted(tables.TABLES)))
    elif kind < 0.85:
        connection.execute("INSERT OR REPLACE INTO meta VALUES(%s, %s)" % (
            chance.choice(("'part'", "'schema'", "'hash'", "'tool'")),
            chance.choice(("'1/2'", "'0/2'", "1", value(chance)))))
    elif kind < 0.92:
        connection.executescript(chance.choice(OBJECTS))
    else:
        connection.execute("PRAGMA writable_schema = ON")
        connection.execute("UPDATE sqlite_master SET %s WHERE abs(random()) %% 4 = 0" % chance.choice((
            "sql = replace(sql, 'NOT NULL', '')", "sql = replace(sql, 'INTEGER', 'BLOB')", "rootpage = rootpage + 1",
            "name = name || 'x'", "type = 'view'", "sql = NULL", "rootpage = 2", "tbl_name = 'pages'")))
        connection.execute("PRAGMA writable_schema = OFF")


def damaged(chance, path):
    """The bytes of a file changed, or cut, or more; and now and then something beside it."""
    with open(path, "r+b") as file:
        size = os.path.getsize(path)
        for _ in range(chance.choice((0, 0, 0, 1, 3, 30))):
            file.seek(chance.randrange(size))
            file.write(chance.randbytes(chance.choice((1, 1, 2, 4, 100))))
        if chance.random() < 0.05:
            file.truncate(chance.randrange(size))


def beside(chance, victim):
    """What stands beside a store by chance: by its ending, what makes it at a path."""
    some = {}
    while chance.random() < 0.15:
        data = chance.choice((b"", b"99\n", chance.randbytes(5000), bytes(4096), b"SQLite format 3\0" + bytes(84), *(
            bytes.fromhex(each) * 100 for each in ("D9D505F920A163D7", "377F0682002DE218", "18E22D0000000000"))))
        kind = chance.choice((*OBSTACLES.values(), *[lambda path, _, data=data: written(path, data)] * 8))
        some[chance.choice(ENDINGS)] = lambda path, kind=kind: kind(path, victim)
    return some


def make(chance, path):
    """Changes a store by chance."""
    connection = sqlite3.connect(path, isolation_level=None)
    for _ in range(chance.choice((0, 1, 1, 2, 5))):
        try:
            changed(chance, connection)
        except sqlite3.Error:
            pass  # SQLite itself doesn't take it
    connection.close()
    if chance.random() < 0.3:
        damaged(chance, path)


ASKED = ("", "groups?copies=1&from=0&count=50&names=8", "files?text=&answer=&from=0&count=100",
         "files?text=a&answer=&from=0&count=100", "files?text=&answer=accepted&from=0&count=100")


def address(folder, child):
    """Where a served report stands; nothing where the process has ended."""
    out = Path(folder, "out")
    wait_until(lambda: out.exists() and b"\n" in out.read_bytes() or os.waitid(
        os.P_PID, child, os.WEXITED | os.WNOHANG | os.WNOWAIT))
    return out.read_text("ascii").strip()


def asked(at):
    """The status of an answer, and its body."""
    try:
        with urllib.request.urlopen(at, timeout=120) as answer:
            return answer.status, answer.read()
    except urllib.error.HTTPError as error:
        return error.code, error.read()


def served(made, seed, counts):
    """Serves the bad store, and asks for all that there is: each question is answered."""
    child = begun(["report", "bad.db", "--serve", "--port", "0"], made.folder, made.naplps)
    at = address(made.folder, child)
    for what in ASKED if at else ():
        status, body = asked(at + what)
        assert status in (200, 404, 500) and b"Traceback" not in body, (seed, what, status, body)
        counts["answers", status] += 1
        for file in json.loads(body)["files"][:3] if what.startswith("files") and status == 200 else ():
            for name in ("details", "drawing"):
                status, body = asked("%s%s?key=%s" % (at, name, file["key"]))
                assert status in (200, 404, 500) and b"Traceback" not in body, (seed, name, file, status, body)
                counts["answers", status] += 1
    if at:
        os.kill(child, signal.SIGTERM)
    said = ended(child, made.folder)
    assert said.status == (-signal.SIGTERM if at else 3), (seed, said)
    if not at:
        require_told(said, "serve", seed)
    counts["serve", said.status] += 1


def untouched(folder):
    """What stands in the folder, with hashes, but for what commands make."""
    return {name: what for name, what in states(folder).items() if not name.startswith(MADE)}


def alone(store):
    """Takes away what stands beside a store."""
    for each in ENDINGS:
        remove(store + each)


def test_random_stores(made):
    counts = collections.Counter()
    kept = os.path.join(made.folder, "kept.db")
    for seed, chance in rounds(ROUNDS):
        alone(made.bad)
        make(chance, made.change())
        shutil.copy(made.bad, kept)
        some = beside(chance, os.path.join(made.folder, "victim"))
        before = untouched(made.folder)
        for command in chance.sample((*COMMANDS, None), 5):
            alone(made.bad)
            shutil.copy(kept, made.bad)
            for ending, place in some.items():
                place(made.bad + ending)
            if command is None:
                served(made, seed, counts)
                continue
            said = made.run(command)
            require_told(said, command, seed)
            counts[command[0], said.status] += 1
        alone(made.bad)
        assert untouched(made.folder) == before, seed
    counted(counts, "random stores")
    assert sum(counts.values()) >= 5 * ROUNDS and len({status for _, status in counts}) > 1
