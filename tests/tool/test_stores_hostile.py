"""Stores that others made: what isn't a scan's is refused by name, nothing else is touched, and no text acts."""
import json
import os
import shutil
import sqlite3
import struct
from pathlib import Path

import pytest

from command import file
from forked import forked, require_told
from naplps_pages.collection import every_file, tables, texts
from naplps_pages.collection.tables import Answered
from naplps_pages.collection.store import StoreFailed, open_to_read, open_to_write, open_unchanged
from naplps_pages.report.questions import Questions
from scans import rows, tree, written
from stores import COMMANDS, Stores, earlier, words_of


@pytest.fixture(scope="module", params=[tables.SCHEMA, tables.EARLIER])
def made(tmp_path_factory, naplps, request):
    """Stores of this schema, or a good one of the schema before."""
    stores = Stores(str(tmp_path_factory.mktemp("stores")), naplps, keeps="repair")
    if request.param == tables.EARLIER:
        new = stores.good + ".new"
        os.rename(stores.good, new)
        earlier(new, stores.good)
    return stores


def told(made, command):
    """What a command says of the bad store, which is nothing that isn't foreseen."""
    said = made.run(command)
    require_told(said, command)
    return said


def test_each_command_takes_the_good_one(made):
    """And leaves it as it is, but for a scan."""
    for command in COMMANDS:
        before = Path(made.change()).read_bytes()
        assert told(made, command).status in (0, 1), command
        assert command == ["scan"] or Path(made.bad).read_bytes() == before, command


FOREIGN = "naplps-pages: bad.db: isn't a store of naplps-pages: it has a %s of something else: %s\n"
VIEWS = {
    "view pages_of": "CREATE VIEW pages_of AS SELECT * FROM pages",
    "view files": "ALTER TABLE files RENAME TO f; CREATE VIEW files AS SELECT * FROM f",
    "view pages": "PRAGMA legacy_alter_table = ON; DROP VIEW listing; ALTER TABLE pages RENAME TO p; CREATE VIEW pages "
                  "AS WITH RECURSIVE c(x) AS (SELECT 1 UNION ALL SELECT x + 1 FROM c) SELECT x AS id, x'00' AS own, "
                  "0 AS state, NULL AS number, NULL AS left_out, NULL AS place, 1 AS entries, x'00' AS canon, "
                  "1 AS canon_size, NULL AS why, 1 AS terms, 1 AS run FROM c",
    "trigger t": "CREATE TRIGGER t AFTER INSERT ON runs BEGIN DELETE FROM files; END",
    "trigger \\x1b[31m": "CREATE TRIGGER \"\x1b[31m\" BEFORE INSERT ON runs BEGIN SELECT RAISE(ABORT, '\x1b[31m'); END",
}


@pytest.mark.parametrize("what", VIEWS)
def test_foreign_views_and_triggers_are_refused(made, what):
    for command in COMMANDS:
        made.change(VIEWS[what])
        said = told(made, command)
        assert said.status == 3 and said.out in (b"", b"what,value\n")
        assert said.err.startswith(b"naplps-pages: bad.db: isn't a store of naplps-pages: its ") if what in (
            "view files", "view pages") else said.err.decode() == FOREIGN % tuple(what.split(" "))


OTHERWISE = {
    "view listing": "DROP VIEW listing; CREATE VIEW listing AS SELECT 1 AS name",
    "table runs": "ALTER TABLE runs ADD COLUMN more TEXT",
    "index files_by_page": "DROP INDEX files_by_page; CREATE INDEX files_by_page ON files(size)",
    "table terms": "DROP TABLE terms; CREATE TABLE terms(id INTEGER PRIMARY KEY, version TEXT, program_hash BLOB, "
                   "form TEXT, budget INTEGER)",
    "table faults": "DROP TABLE faults; CREATE TABLE faults(number INTEGER PRIMARY KEY, name TEXT NOT NULL DEFAULT "
                    "(abs(1)))",
}


@pytest.mark.parametrize("what", OTHERWISE)
def test_what_is_the_tools_own_is_compared_word_for_word(made, what):
    for command in COMMANDS:
        made.change(OTHERWISE[what])
        said = told(made, command)
        assert said.status == 3 and said.out in (b"", b"what,value\n")
        assert said.err.decode() == (
            "naplps-pages: bad.db: isn't a store of naplps-pages: its %s isn't that of a store\n" % what)


@pytest.mark.parametrize("table", ["files", "cures", "roots"])
def test_a_table_that_is_not_there(made, table):
    made.change("DROP TABLE " + table)
    said = told(made, ["files"])
    assert said.status == 3 and said.err.decode() == (
        "naplps-pages: bad.db: isn't a store of naplps-pages: it has no table %s\n" % table)


def test_foreign_tables_and_indices_are_left_alone(made):
    words = ("CREATE TABLE notes(text TEXT CHECK(length(text) < 9), twice AS (text || text)); INSERT INTO notes "
             "VALUES('mine'); CREATE UNIQUE INDEX notes_by_text ON notes(text, (length(text))) WHERE text > 'a'; "
             "CREATE TABLE numbers(id INTEGER PRIMARY KEY AUTOINCREMENT, of INTEGER UNIQUE)")
    for command in COMMANDS:
        made.change(words)
        assert told(made, command).status in (0, 1), command
        assert rows(made.bad, "SELECT text FROM notes") == [("mine",)]
        assert len(rows(made.bad, "SELECT 1 FROM sqlite_master WHERE name IN ('numbers', 'notes_by_text')")) == 2


SCHEMA = "PRAGMA writable_schema = ON; UPDATE sqlite_schema SET sql = '%s' WHERE name = 'evil'"
LONG = "(instr(printf(''%.*c'', 100000000, ''a''), printf(''%.*c'', 50000000, ''a'') || ''c''))"
# Each kind of object that a schema may have beside the store's own tables, and that acts as these are written or read.
ACTING = {
    "index plain": "CREATE INDEX plain ON files(size)", "index unique": "CREATE UNIQUE INDEX \"unique\" ON pages(id)",
    "index evil": "CREATE INDEX evil ON runs((1 + 1)); " + SCHEMA % ("CREATE INDEX evil ON runs(" + LONG + ")"),
    "index part": "CREATE INDEX part ON pages(state) WHERE canon > hex(own)",
    "index capitals": "CREATE INDEX capitals ON FILES(size)", "index cased": "CREATE INDEX cased ON files(hex(name))",
    "index collated": "CREATE INDEX collated ON faults(name COLLATE NOCASE)",
    "index of_roots": "CREATE INDEX of_roots ON roots(why)", "index of_meta": "CREATE INDEX of_meta ON meta(value)",
    "index of_terms": "CREATE INDEX of_terms ON terms((abs(budget)))",
    "index of_cures": "CREATE INDEX of_cures ON cures((length(copy)))",
    "index of_folders": "CREATE INDEX of_folders ON folders((length(path)))",
    "view v": "CREATE VIEW v AS SELECT 1", "trigger t": "CREATE TRIGGER t AFTER DELETE ON files BEGIN SELECT 1; END",
    "trigger of_view": "CREATE TRIGGER of_view INSTEAD OF INSERT ON listing BEGIN SELECT 1; END",
    "table found": "CREATE VIRTUAL TABLE found USING fts5(text)",
    "table of_words": "CREATE VIRTUAL TABLE of_words USING fts5(text, content='texts', content_rowid='page')",
    "table boxes": "CREATE VIRTUAL TABLE boxes USING rtree(id, a, b)"}
# A row of the schema whose words make something else than the row says: SQLite refuses them, or they are seen.
LYING = ("CREATE TABLE evil(x); " + SCHEMA % "CREATE INDEX evil ON runs((1 + 1))",
         "CREATE TABLE evil(x); " + SCHEMA % "CREATE TRIGGER evil AFTER INSERT ON runs BEGIN SELECT 1; END",
         "CREATE TABLE evil(x); " + SCHEMA % "CREATE VIEW evil AS SELECT 1",
         "CREATE TABLE notes(x); CREATE INDEX evil ON notes(x); " + SCHEMA % "CREATE INDEX evil ON runs((1 + 1))",
         "CREATE TABLE evil(x); " + SCHEMA % " create index evil on runs((1 + 1))")


@pytest.mark.parametrize("what", ACTING)
def test_what_would_act_on_the_stores_own_tables_is_refused(made, what):
    try:
        made.change(ACTING[what])
    except sqlite3.OperationalError as error:
        pytest.skip(str(error))
    commands = COMMANDS if what == "index evil" else (["files"], ["scan"], ["scan", "--merge"], ["equal", "OTHER"])
    before = Path(made.bad).read_bytes()
    for command in commands:
        said = told(made, command)
        assert said.status == 3 and said.err.decode() == FOREIGN % tuple(what.split(" ")), (command, said)
        assert Path(made.bad).read_bytes() == before, command


@pytest.mark.parametrize("words", LYING, ids=range(5))
def test_a_row_of_a_schema_that_lies_is_refused(made, words):
    made.change(words)
    for command in (["files"], ["scan"], ["scan", "--merge"]):
        said = told(made, command)
        assert said.status == 3 and said.err.startswith(b"naplps-pages: bad.db: "), (command, said)


@pytest.mark.parametrize("shadow", [*tables.SHADOWS, "texts"])
def test_an_index_of_what_keeps_the_words_is_refused(indexed, shadow):
    column = {"words_data": "block", "words_idx": "term", "words_docsize": "sz", "words_config": "v", "texts": "text"}
    indexed.change("CREATE INDEX evil ON %s((length(%s)))" % (shadow, column[shadow]))
    for command in (["files"], ["scan"], ["scan", "--merge"]):
        said = indexed.run(command, 60)
        assert said.status == 3 and said.err.decode() == FOREIGN % ("index", "evil"), (command, said)


def test_functions_of_a_schema_are_not_trusted(made):
    for opened in (open_to_read, open_unchanged, open_to_write):
        made.change()
        connection = opened(made.bad)
        assert connection.execute("PRAGMA trusted_schema").fetchone() == (0,)
        connection.close()


# Values that no scan writes, and a command that meets them.
WRONG = [
    ("UPDATE pages SET canon = 'text' WHERE canon IS NOT NULL", ["equal"], "a text in place of a hash"),
    ("UPDATE pages SET canon = x'00' WHERE canon IS NOT NULL", ["equal"], "1 bytes in place of a hash"),
    ("UPDATE pages SET canon = 5 WHERE canon IS NOT NULL", ["equal", "OTHER"], "the number 5 in place of a hash"),
    ("UPDATE pages SET own = 'x' || id", ["canon", "-o", "canonical"], "a text in place of a hash"),
    ("UPDATE files SET name = CAST(name AS TEXT)", ["equal"], "a text in place of a name"),
    ("UPDATE files SET name = CAST(name || x'00' AS BLOB)", ["equal", "--verify"], "bytes in place of a name"),
    ("UPDATE folders SET path = CAST(path AS TEXT)", ["files", "--refused"], "a text in place of a path"),
    ("UPDATE folders SET path = CAST('..' || path AS BLOB)", ["canon", "-o", "canonical"], "in place of a path"),
    ("UPDATE files SET state = 99", ["files"], "the number 99 in place of the state of a file"),
    ("UPDATE files SET state = -7", ["files"], "the number -7 in place of the state of a file"),
    ("UPDATE files SET state = 'x'", ["files"], "a text in place of the state of a file"),
    ("UPDATE pages SET state = 77", ["files"], "the number 77 in place of the state of a page"),
    ("UPDATE pages SET number = 'x' WHERE number IS NOT NULL", ["files", "--refused"],
     "text in place of the number of a refusal"),
    ("UPDATE pages SET number = 9223372036854775807 WHERE number IS NOT NULL", ["files", "--refused"], "of a refusal"),
    ("UPDATE pages SET entries = NULL", ["equal"], "nothing in place of a number from 0"),
    ("UPDATE pages SET entries = 'lots'", ["equal"], "a text in place of a number from 0"),
    ("UPDATE pages SET entries = -1", ["equal", "OTHER"], "the number -1 in place of a number from 0"),
    ("UPDATE pages SET entries = 1.5", ["equal"], "the number 1.5 in place of a number from 0"),
    ("UPDATE pages SET place = NULL", ["files", "--refused"], "nothing in place of a number from 0"),
    ("UPDATE files SET state = 1, why = zeroblob(10)", ["files"], "10 bytes in place of a text"),
    ("UPDATE files SET state = 1, why = printf('%.65537c', 'x')", ["files"],
     "a text of 65537 characters in place of a text"),
    ("UPDATE folders SET path = CAST(path || printf('/%.131072c', 'x') AS BLOB)", ["files", "--refused"],
     "bytes in place of a path"),
    ("UPDATE files SET name = CAST(printf('%.131073c', 'x') AS BLOB) WHERE name = CAST('a.nap' AS BLOB)", ["equal"],
     "131073 bytes in place of a name"),
    ("UPDATE pages SET left_out = printf('%.65537c', 'x') WHERE number IS NOT NULL", ["scan", "--merge"],
     "a row of its table pages isn't one of a scan"),
    ("UPDATE terms SET budget = 'x'", ["files"], "a text in place of a number from 0"),
    ("UPDATE terms SET budget = -1", ["canon", "-o", "canonical"], "the number -1 in place of a number from 0"),
    ("UPDATE runs SET program = 'x'", ["files"], "a text in place of a name"),
    ("UPDATE roots SET path = 'x'", ["files"], "a text in place of a path"),
    ("UPDATE roots SET path = 'x'", ["equal", "OTHER"], "a text in place of a path"),
    ("UPDATE faults SET name = x'00'", ["files", "--refused"], "1 bytes in place of a text"),
    ("INSERT INTO meta VALUES('part', '9/3')", ["files"], "it holds no part that there is"),
    ("INSERT INTO meta VALUES('part', x'00')", ["equal", "OTHER"], "it holds no part that there is"),
    ("UPDATE files SET size = 'x', inode = 'y'", ["scan"], "a text in place of a number from 0"),
    ("UPDATE files SET inode = 'y'", ["report", "-o", "report.html"], "a text in place of a number from 0"),
    ("UPDATE pages SET own = 'x' || id", ["scan", "--merge"], "a row of its table pages isn't one of a scan"),
    ("UPDATE runs SET terms = 77", ["scan", "--merge"], "a row of its table runs isn't one of a scan"),
    ("UPDATE roots SET run = 77", ["scan", "--merge"], "a row of its table roots isn't one of a scan"),
    ("UPDATE pages SET entries = NULL", ["scan", "--merge", "OTHER"], "a row of its table pages isn't one of a scan"),
    ("UPDATE files SET size = -5", ["scan", "--merge"], "a row of its table files isn't one of a scan"),
]


@pytest.mark.parametrize("words, command, why", WRONG)
def test_a_value_that_is_not_one_of_a_scan(made, words, command, why):
    made.change(words)
    said = told(made, command)
    assert said.status == 3
    assert said.err.startswith(b"naplps-pages: bad.db: isn't a store of naplps-pages: "), said
    assert said.err.decode().endswith(why + "\n")
    assert not os.path.lexists(os.path.join(made.folder, "merged.db"))


ODD = "\x1b[31m\x07\n\r\x9b\u202e\u2028<b>\\"
SHOWN = "\\x1b[31m\\x07\\n\\r\\x9b\\u202e\\u2028<b>\\"
TEXTS = [
    "UPDATE pages SET left_out = :odd WHERE number IS NOT NULL", "UPDATE faults SET name = :odd",
    "UPDATE pages SET state = 2, why = :odd, number = NULL, canon = NULL", "UPDATE files SET state = 1, why = :odd",
    "UPDATE terms SET version = :odd, form = :odd", "UPDATE runs SET began = :odd, ended = :odd, tool = :odd",
    "UPDATE cures SET treatments = :odd", "UPDATE roots SET why = :odd",
    "UPDATE meta SET value = :odd WHERE key = 'schema'", "INSERT INTO meta VALUES('part', :odd)"]


@pytest.mark.parametrize("words", TEXTS)
def test_texts_are_shown_as_names_are(made, words):
    seen = []
    for command in COMMANDS:
        made.change(words.replace(":odd", f"CAST(x'{ODD.encode().hex()}' AS TEXT)"))
        said = told(made, command)  # (which looks for what a terminal would act on)
        for text in (said.out.decode(), said.err.decode()):
            assert not set("\x9b\u202e\u2028") & set(text)
            seen.append(SHOWN in text or json.dumps(SHOWN)[1:-1] in text)
    assert any(seen) or "part" in words


def test_a_schema_whose_words_are_no_text(made):
    made.change("PRAGMA writable_schema = ON; UPDATE sqlite_master SET name = CAST(x'96FF' AS TEXT), sql = "
                "CAST('CREATE TABLE ' || x'96FF' || '(' AS TEXT) WHERE name = 'cures'")
    for command in COMMANDS:
        said = told(made, command)
        assert said.status == 3 and said.err.startswith(b"naplps-pages: bad.db: ")


def test_another_hash(made):
    for value, shown in (("'md5'", "md5"), ("x'00'", "b'\\x00'"), ("char(27)", "\\x1b")):
        made.change("UPDATE meta SET value = %s WHERE key = 'hash'" % value)
        for command in COMMANDS:
            line = "naplps-pages: bad.db: is a store of hashes by %s, and this tool knows sha256\n" % shown
            assert told(made, command) == (3, b"", line.encode())


def journal(folder, victim):
    """A store with the journal of a write that ended amid, which names a victim as a further journal."""
    store, path = os.path.join(folder, "whole.db"), os.path.join(folder, "left.db")
    open_to_write(store).close()
    connection = sqlite3.connect(store, isolation_level=None)
    connection.executescript("PRAGMA journal_mode = DELETE; PRAGMA cache_size = 5; BEGIN")
    connection.executemany("INSERT INTO faults VALUES(?, ?)", ((number, "x" * 100) for number in range(2000)))
    for ending in ("", "-journal"):
        shutil.copy(store + ending, path + ending)
    connection.close()
    name = os.fsencode(victim)
    with open(path + "-journal", "ab") as file:
        file.write(struct.pack(">L", (1 << 30) // 4096 + 1) + name + struct.pack(">LL", len(name), sum(name)) +
                   bytes.fromhex("D9D505F920A163D7"))
    return path


def test_no_journal_beside_a_store_deletes_another_file(tmp_path, naplps):
    """SQLite deletes the file that such a journal names, as it opens the database."""
    victim = file(tmp_path, "victim", b"precious")
    path = journal(str(tmp_path), victim)
    for opened in (open_to_read, open_unchanged, open_to_write):
        with pytest.raises(StoreFailed, match="its journal, -journal, isn't that of a store: it names another file"):
            opened(path)
    for command in (["files"], ["equal"], ["scan", "--merge"], ["scan"]):
        said = forked(words_of(command, "left.db", "", str(tmp_path)), str(tmp_path), naplps)
        assert said.status == 3 and said.err.endswith(b": it names another file\n")
    assert Path(victim).read_bytes() == b"precious"
    # (without that name it is what a killed scan leaves, which is taken back)
    os.truncate(path + "-journal", os.path.getsize(path + "-journal") - 20 - len(victim))
    open_to_read(path).close()
    assert rows(path, "SELECT count(*) FROM faults") == [(0,)] and not os.path.exists(path + "-journal")


def test_as_many_reasons_as_pages_take_no_longer_than_one(tmp_path):
    """A join of all reasons with all pages would take minutes."""
    store = str(tmp_path / "pages.db")
    written(store, b"/x", [(b"%d" % at, Answered(
        tables.hashed(b"%d" % at), tables.REFUSED, number=10, left_out="X%d" % at, place=1, fault="Outside"))
        for at in range(30_000)])
    connection = open_to_read(store)
    assert sum(1 for _ in every_file.refused_files(connection, None)) == 30_000
    plan = connection.execute("EXPLAIN QUERY PLAN " + every_file.MEMBERS).fetchall()
    assert not [row for row in plan if row[3].startswith("SCAN")]


def test_every_column_has_a_kind():
    connection = sqlite3.connect(":memory:")
    connection.executescript(tables.created())
    for table, declared in tables.TABLES.items():
        some = [(row[1], bool(row[3] or row[5])) for row in connection.execute("PRAGMA table_info(%s)" % table)]
        assert [(each.name, not each.may_lack) for each in declared.columns] == some
    assert set(tables.TABLES) | {"meta"} == {name for name, in connection.execute("SELECT name FROM sqlite_master "
                                                                                 "WHERE type = 'table'")}


# What FTS5 keeps of words, made by hand, and whether a search or a write can't do with it.
INDEXES = [
    ("UPDATE words_data SET block = x'00000000FFFFFFFF7F01'", True),
    ("UPDATE words_data SET block = zeroblob(100000) WHERE id > 10", True), ("DELETE FROM words_data", True),
    ("UPDATE words_data SET block = x'00000000010101010001018FFFFFFF7F' WHERE id = 10", True),
    ("UPDATE words_config SET v = 99 WHERE k = 'version'", True), ("DELETE FROM words_idx", False),
    ("UPDATE words_docsize SET sz = x'FFFFFFFFFFFFFFFFFF'", False), ("UPDATE words_docsize SET id = id + 1000", False),
    ("INSERT INTO words_config VALUES('rank', 'load_extension(''/x'')'), ('pgsz', -1), ('hashsize', 1 << 62)", False),
    ("UPDATE words_idx SET pgno = 9223372036854775807", False)]


@pytest.fixture(scope="module")
def indexed(tmp_path_factory, naplps):
    """A folder with a store that has words."""
    if not texts.has_fts5():
        pytest.skip("SQLite has no FTS5")
    stores = Stores(str(tmp_path_factory.mktemp("words")), naplps, keeps="words")
    tree(stores.pages, {"words%d" % number: b"hello number%d" % number for number in range(30)})
    assert forked(["scan", stores.pages, "-o", "good.db"], stores.folder, naplps).status == 0
    return stores


@pytest.mark.parametrize("words, damages", INDEXES)
def test_an_index_of_words_that_others_made(indexed, words, damages):
    """Nothing of it ends a command but with a line that names the store, and its texts aren't lost."""
    statuses = []
    for command in (["find"], ["files"], ["scan"], ["scan", "--merge"]):
        indexed.change(words + "; DELETE FROM texts WHERE page % 2 = 0")
        said = indexed.run(command, 60)
        require_told(said, command)
        assert said.status in (0, 1) or said.err.startswith(
            b"naplps-pages: bad.db: its index of words is damaged ("), said
        statuses.append(said.status)
    assert statuses[1] == statuses[3] == 0 and (3 in statuses) >= damages
    indexed.change(words)
    questions = Questions(indexed.bad)
    try:
        assert questions.ask("files", {"text": "hello", "from": "0", "count": "9"})
    except sqlite3.DatabaseError as error:
        assert str(error).startswith("its index of words is damaged (")
    questions.close()
    assert forked(["find", "hello", "merged.db"], indexed.folder, indexed.naplps).out.count(b"words") >= 15
