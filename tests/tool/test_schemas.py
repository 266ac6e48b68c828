"""Stores of both schemas: what is kept of kinds, treated copies and words; and that one of the schema before is read,
and renewed by the next scan."""
import json
import os
import sqlite3

import pytest

from naplps_pages.collection import tables, texts
from naplps_pages.collection.kept import CANON_TABLES
from naplps_pages.collection.tables import NotAStore
from naplps_pages.collection.store import StoreFailed, open_to_read, open_to_write, open_unchanged
from samples import OUTSIDE, POINT, SPELLED, with_parity
from scans import alter, rows, store_of, tree
from stores import copied, earlier

# A page that is drawn, and then defines a macro in whose body another one seems to begin.
SEVERAL = POINT + bytes.fromhex("1B40 21 1F 0C") + b"\x0f another\x1b\x45"
FILES = {"a/point.nap": POINT, "b/point.nap": SPELLED, "text": b"hello\r\n", "several": SEVERAL,
         "first": SEVERAL[len(POINT):] + POINT, "blank": b"", "nothing": b"\x0f\x0e", "out": OUTSIDE,
         "parity": with_parity(POINT), "cancel": b"\x0f" + POINT + b"\x0fA\x18B",
         "capture": POINT + b"\x18" + POINT, "twice": POINT + b"\x0c" + POINT,
         "pic.gif": b"GIF89a\x01\x02\x81", "gif.zip ": b"PK\x03\x04\x99"}
STOPPED = (["equal"], ["equal", "--skip", "copies"], ["files", "--refused"], ["files", "--json"],
           ["files", "--census"], ["files", "--csv"])
WORDS = "SELECT type, name, sql FROM sqlite_master WHERE sql IS NOT NULL ORDER BY 1, 2"


@pytest.fixture
def store(run, tmp_path):
    return store_of(run, tmp_path, FILES, keeps="repair")


@pytest.fixture
def old(store, tmp_path):
    return earlier(store, str(tmp_path / "old.db"))


def listed(store, *columns):
    """Some columns of each file, by its name."""
    found = rows(store, "SELECT name, %s FROM listing" % ", ".join(columns))
    return {os.path.basename(name): row for name, *row in found}


@pytest.mark.parametrize("schema", [tables.SCHEMA, tables.EARLIER])
def test_the_words_of_a_schema_are_those_that_sqlite_keeps(schema):
    connection = sqlite3.connect(":memory:")
    connection.executescript(f"{tables.created(schema)} {tables.listing(schema)}; {tables.INDICES}")
    assert {(kind, name): words for kind, name, words in connection.execute(WORDS)} == tables.objects(schema)
    connection.close()


def test_each_page_has_its_kind(store):
    assert listed(store, "kind", "looks_like", "perhaps_several") == {
        "point.nap": ["page", None, 0], "text": ["text", None, 0], "several": ["page", None, 1],
        "first": ["page", None, 0], "blank": ["blank", None, 0], "nothing": ["blank", None, 0],
        "out": [None, None, None], "parity": [None, None, None], "cancel": [None, None, None],
        "capture": ["capture", None, None], "twice": ["page", None, 1],
        "pic.gif": [None, "GIF", None], "gif.zip ": [None, "ZIP", None]}


def test_a_capture_has_the_number_of_its_pages(store, run):
    assert listed(store, "pages")["capture"] == [2] and listed(store, "pages")["twice"] == [None]
    said = run(["files", store, "--kind", "capture", "--json"])
    (row,) = map(json.loads, said.stdout.splitlines())
    assert row["name"].endswith("/capture") and (row["kind"], row["pages"], row["treatments"]) == ("capture", 2, None)
    assert b"1: capture, of 2 pages" in run(["files", store]).stdout
    assert json.loads(run(["check", "--json", row["name"]]).stdout)["pages"] == 2
    assert run(["check", row["name"]]).stdout == b"refused 6 LeftOut CAN at 5 (capture of 2 pages)\n"


def test_a_treated_page_has_what_its_copy_draws(store, run, tmp_path):
    said = run(["fix", "-o", str(tmp_path / "to"), *(str(tmp_path / "pages" / name) for name in ("parity", "cancel"))])
    assert said.returncode == 0
    found = listed(store, "treatments", "grade", "treated_entries", "treated_hash", "treated_canonical",
                   "treated_canonical_size")
    for name, treatments, grade in (("parity", "parity", "around"), ("cancel", "can", "within")):
        copy = tmp_path / "to" / name
        it, canon = json.loads(run(["check", "--json", str(copy)]).stdout), run(["canon", str(copy)]).stdout
        assert found[name] == [treatments, grade, it["entries"], tables.hashed(copy.read_bytes()).hex(),
                               tables.hashed(canon).hex(), len(canon)]
    assert found["out"] == found["point.nap"] == [None] * 6


def test_one_that_was_stopped_is_read_too(old, store, run):
    wanted = [run([*words[:1], old, *words[1:]]).stdout for words in STOPPED]
    for path in (old, store):
        alter(path, "DROP INDEX pages_by_canon; DROP INDEX pages_by_number; DROP INDEX files_by_page")
    assert [run([*words[:1], old, *words[1:]]).stdout for words in STOPPED] == wanted
    assert run(["equal", store, "--include", "treated"]).returncode == 0


def test_a_scan_renews_it(old, store, run, pages):
    assert run(["scan", os.path.join(pages, "a"), "-o", old], keeps="repair").stdout.startswith((
        b"1 file: 1 accepted (1 page)"))
    assert rows(old, WORDS) == rows(store, WORDS) and rows(old, "SELECT value FROM meta WHERE key = 'schema'") == [
        (str(tables.SCHEMA),)]
    assert listed(old, "kind", "pages")["capture"] == [None, None]
    assert b"13 of unknown kind" in run(["files", old]).stdout
    said = run(["scan", pages, "-o", old], keeps="repair")
    assert b"; 1 known, 13 pages asked about" in said.stdout
    assert listed(old, "*") == listed(store, "*")
    assert b"; 14 known, 0 pages asked about" in run(["scan", pages, "-o", old], keeps="repair").stdout


def test_copies_that_may_lack_a_page_are_unknown_until_they_are_made_anew(store, tmp_path, run, pages):
    alter(store, "UPDATE cures SET treatments = 'tail+header' WHERE treatments = 'parity'")
    old = earlier(store, str(tmp_path / "old.db"))
    said = run(["equal", old, "--include", "treated"])
    assert b"parity" not in said.stdout and b"for treated copies of 1 refused page it isn't known" in said.stderr
    assert b"parity: treated by tail+header" in run(["equal", store, "--include", "treated"]).stdout
    assert run(["scan", pages, "-o", old]).returncode == 0
    assert b"parity: treated by parity (around)" in run(["equal", old, "--include", "treated"]).stdout


@pytest.mark.parametrize("keeps", ["repair", "words", "repair words"])
def test_a_scan_keeps_to_what_those_before_kept(run, tmp_path, pages, keeps):
    store, whole, merged = (os.path.join(str(tmp_path), name) for name in ("kept.db", "whole.db", "merged.db"))
    assert run(["scan", os.path.join(pages, "a"), "-o", store], keeps=keeps).returncode == 0
    assert run(["scan", pages, "-o", store]).returncode == 0
    assert run(["scan", pages, "-o", whole], keeps=keeps).returncode == 0
    for table in ("cures", "texts"):
        counts = [rows(path, f"SELECT count(*) FROM {table}") for path in (store, whole)]
        assert counts[0] == counts[1]
        assert (counts[0] != [(0,)]) == ({"cures": "repair", "texts": "words"}[table] in keeps)
    assert run(["scan", "--merge", "-o", merged, store]).returncode == 0
    keys = "SELECT key FROM meta WHERE key IN ('cures', 'words') ORDER BY 1"
    renewed = earlier(store, str(tmp_path / "before.db"))
    assert run(["scan", pages, "-o", renewed]).returncode == 0
    assert rows(store, keys) == rows(merged, keys) == rows(renewed, keys) == [
        (word.replace("repair", "cures"),) for word in keeps.split()]
    assert b"left:            nothing" in run(["files", store]).stdout


def test_a_merge_takes_both_schemas(old, store, run, tmp_path, pages):
    more = tree(tmp_path / "more", {"text": b"hello\r\n", "parity": with_parity(POINT)})
    second, merged = (os.path.join(str(tmp_path), name) for name in ("more.db", "all.db"))
    assert run(["scan", more, "-o", second], keeps="repair").returncode == 0
    for order in ((old, second), (second, old)):
        assert run(["scan", "--merge", "-o", merged, *order]).returncode == 0
        kinds = dict(rows(merged, "SELECT name, kind FROM listing"))
        assert kinds[more + "/text"] == kinds[pages + "/text"] == "text" and kinds[pages + "/capture"] is None
        grades = dict(rows(merged, "SELECT name, grade FROM listing"))
        assert grades[more + "/parity"] == grades[pages + "/parity"] == "around"
        assert grades[pages + "/cancel"] == "within"
        assert rows(merged, WORDS) == rows(store, WORDS)
        os.unlink(merged)


def test_the_index_of_words(store, tmp_path, run):
    connection = open_to_write(store)
    assert texts.make(connection) and texts.make(connection)
    page, terms = connection.execute("SELECT id, terms FROM pages WHERE kind = ?", (tables.TEXT,)).fetchone()
    for text in ("h\u00e9llo world", "good day"):
        connection.execute(texts.FORGET, (page,))
        connection.execute("INSERT OR REPLACE INTO texts VALUES(?, ?, 0, ?, ?, NULL)", (page, terms, text, text[:4]))
        connection.execute(texts.NOTE, (page,))
        found = [connection.execute("SELECT rowid FROM words WHERE words MATCH ?", (word,)).fetchall()
                 for word in ("hello", "WORLD", "day")]
        assert found == ([[(page,)], [(page,)], []] if "world" in text else [[], [], [(page,)]])
    connection.execute("INSERT INTO words(words) VALUES('integrity-check')")
    connection.close()
    for opened in (open_to_read, open_unchanged, open_to_write):
        opened(store).close()
    merged = str(tmp_path / "all.db")
    assert run(["scan", "--merge", "-o", merged, store]).returncode == 0
    assert rows(merged, "SELECT t.text, t.source, t.first FROM words w JOIN texts t ON t.page = w.rowid "
                        "WHERE words MATCH 'good'") == [("good day", tables.WHOLE, "good")]


def test_an_index_of_words_that_is_another(store):
    connection = open_to_write(store)
    texts.make(connection)
    connection.close()
    for words, why in (("DROP TABLE words_idx", "no table words_idx"),
                       ("DROP TABLE words_config; CREATE TABLE words_config(k PRIMARY KEY, v, w)",
                        "its table words_config"),
                       ("DROP TABLE words", "")):
        bad = copied(store, store + ".bad", "PRAGMA writable_schema = ON; " + words)
        if why:
            for opened in (open_to_read, open_unchanged, open_to_write):
                with pytest.raises(StoreFailed, match=why):
                    opened(bad)
        else:
            open_to_read(bad).close()


WRONG = ["UPDATE pages SET kind = 3 WHERE state = 0", "UPDATE pages SET holds = 2 WHERE state = 0",
         "UPDATE pages SET holds = 1 WHERE kind = 3", "UPDATE pages SET holds = 2 WHERE number = 10",
         "UPDATE pages SET holds = -1", "UPDATE pages SET kind = 'page' WHERE state = 0",
         "UPDATE pages SET kind = 0 WHERE state = 1", "UPDATE pages SET looks_like = 'GIF' WHERE state = 0",
         "UPDATE pages SET looks_like = x'00' WHERE state = 1", "UPDATE pages SET several = 7",
         "UPDATE cures SET grade = 2 WHERE treatments IS NOT NULL",
         "UPDATE cures SET grade = 1 WHERE treatments IS NULL",
         "UPDATE cures SET canon = x'00' WHERE treatments IS NOT NULL", "UPDATE cures SET canon_size = NULL",
         "INSERT INTO texts VALUES(1, 1, 3, 'x', 'x', NULL)", "INSERT INTO texts VALUES(1, 1, 0, x'00', 'x', NULL)",
         "INSERT INTO texts VALUES(1, 99, 0, 'x', 'x', NULL)", "INSERT INTO texts VALUES(999, 1, 0, 'x', 'x', NULL)"]


@pytest.mark.parametrize("words", WRONG)
def test_values_that_no_scan_writes(store, words):
    connection = sqlite3.connect(store)
    tables.require_right(connection, [each.table for each in CANON_TABLES])
    connection.execute(words)
    with pytest.raises(NotAStore):
        tables.require_right(connection, [each.table for each in CANON_TABLES])
