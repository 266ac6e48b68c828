"""Words of pages: what a store keeps of them, and what `find` finds in it."""
import csv
import io
import json
import os
import subprocess
import sys

import pytest

from command import PACKAGES
from naplps_pages.collection import scan, texts
from naplps_pages.collection.store import StoreFailed, open_to_write
from samples import OUTSIDE, with_parity
from scans import alter, rows, store_of, tree
from stores import earlier
from stream_writer import StreamWriter


def page(*some):
    """A page that writes texts at places."""
    writer = StreamWriter().clear().domain()
    for x, y, text in some:
        writer.at(x, y, text, "normal")
    return writer.made()


FILES = {"news.nap": page((0.1, 0.2, "SCORES"), (0.1, 0.6, "ICE HOCKEY TODAY")),
         "sub/menu.nap": page((0.1, 0.5, "MENU")), "copy.nap": page((0.1, 0.5, "MENU")),
         "refused.nap": page((0.1, 0.5, "HOCKEY NEWS")) + OUTSIDE,
         "parity.nap": with_parity(page((0.1, 0.5, "HOCKEY BY PARITY"))), "empty.nap": b"", "a\nb.nap": b"hockey\r\n"}
NEEDS_FTS5 = pytest.mark.skipif(not texts.has_fts5(), reason="SQLite has no FTS5")


@pytest.fixture
def store(run, tmp_path):
    """A store with the words of a few pages."""
    return store_of(run, tmp_path, FILES, keeps="words repair")


def found(run, store, *words):
    """The lines that are found, by the names of their files."""
    said = run(["find", *words, store])
    assert said.returncode == (0 if said.stdout else 1) and said.stderr == b""
    top = os.path.join(os.path.dirname(store), "pages") + "/"
    return said.stdout.decode().replace(top, "").splitlines()


def test_lines_that_are_found(run, store):
    assert found(run, store, "hockey") == [
        "a\\nb.nap: hockey", "news.nap: ICE HOCKEY TODAY", "parity.nap: HOCKEY BY PARITY", "refused.nap: HOCKEY NEWS"]
    assert found(run, store, "Hock", "today") == ["news.nap: ICE HOCKEY TODAY"]
    assert found(run, store, "ice scores") == ["news.nap: ICE HOCKEY TODAY", "news.nap: SCORES"]
    assert found(run, store, '"menu"') == ["copy.nap: MENU", "sub/menu.nap: MENU"]
    assert found(run, store, "nothing") == [] == found(run, store, '"hockey today ice"')


@pytest.mark.parametrize("asked", ["hockey) OR text:menu", "NOT hockey", "hockey*", "{text}: hockey", "'; DROP"])
def test_syntax_is_words(run, store, asked):
    said = run(["find", asked, store])
    assert said.returncode in (0, 1) and said.stderr == b"" and b"menu.nap" not in said.stdout


@pytest.mark.parametrize("asked", ["--", "*", "\u0301", "x" * 500, " ".join("abcdefgh" * 5)])
def test_what_has_no_word_is_told(run, store, asked):
    said = run(["find", *(["--"] if asked == "--" else []), asked, store])
    assert said.returncode == 3 and said.stderr.count(b"\n") == 1 and b"to look for" in said.stderr


@pytest.mark.parametrize("written, asked", [("Montr\u00e9al", "montreal"), ("Montr\u00e9al", "Montr\u00e9al"),
                                            ("Montr\u00e9al", "MONTRE\u0301AL")])
def test_accents_make_no_difference(run, tmp_path, written, asked):
    store = store_of(run, tmp_path, {"m.nap": b"\x0fMontr\x19\x42eal"}, keeps="words")
    assert found(run, store, asked) == ["m.nap: " + written]


def test_forms(run, store):
    top = os.path.join(os.path.dirname(store), "pages")
    some = [json.loads(line) for line in run(["find", "hockey", store, "--json"]).stdout.splitlines()]
    assert [(each["source"], each["lines"]) for each in some] == [
        ("page", ["hockey"]), ("page", ["ICE HOCKEY TODAY"]), ("treated copy", ["HOCKEY BY PARITY"]),
        ("before the refusal", ["HOCKEY NEWS"])]
    names = run(["find", "hockey", store, "-0"]).stdout.split(b"\0")
    assert names == [os.fsencode(os.path.join(top, name)) for name in (
        "a\nb.nap", "news.nap", "parity.nap", "refused.nap")] + [b""]
    table = list(csv.DictReader(io.StringIO(run(["find", "hockey", store, "--csv"]).stdout.decode())))
    assert [each["line"] for each in table] == ["hockey", "ICE HOCKEY TODAY", "HOCKEY BY PARITY", "HOCKEY NEWS"]
    assert bytes.fromhex(table[0]["name_hex"]) == os.fsencode(os.path.join(top, "a\nb.nap"))


def test_what_is_kept(store):
    assert sorted(rows(store, "SELECT source, text, first, why FROM texts")) == [
        (0, "", "", None), (0, "ICE HOCKEY TODAY\nSCORES", "ICE HOCKEY TODAY SCORES", None), (0, "MENU", "MENU", None),
        (0, "hockey", "hockey", None), (1, "HOCKEY NEWS", "HOCKEY NEWS", None),
        (2, "HOCKEY BY PARITY", "HOCKEY BY PARITY", None)]


@NEEDS_FTS5
def test_the_index_follows_the_texts(run, tmp_path, store):
    top = str(tmp_path / "pages")
    tree(top, {"news.nap": page((0.1, 0.5, "CURLING"))})
    assert run(["scan", top, "-o", store, "--rescan"]).returncode == 0
    assert found(run, store, "scores") == [] and found(run, store, "curling") == ["news.nap: CURLING"]
    alter(store, "INSERT INTO words(words, rank) VALUES('integrity-check', 1)")


@NEEDS_FTS5
def test_without_the_index_the_same_is_found(run, store):
    asked = (["hockey"], ['"ice hockey"'], ["sc", "hock"])
    with_it = [found(run, store, *words) for words in asked]
    alter(store, "DROP TABLE words")
    assert [found(run, store, *words) for words in asked] == with_it


@NEEDS_FTS5
def test_that_there_is_no_fts5_is_told(store, monkeypatch, capsys):
    connection = open_to_write(store)
    monkeypatch.setattr(texts, "has_fts5", lambda: False)
    with pytest.raises(StoreFailed, match="has an index of words, and SQLite has no FTS5 here to write it"):
        scan._keep_words(connection, store)
    connection.execute("DROP TABLE words")
    scan._keep_words(connection, store)
    assert capsys.readouterr().err.endswith("SQLite has no FTS5 here: texts are kept without an index, and found more "
                                            "slowly\n")
    connection.close()


FORGOTTEN = "INSERT INTO words(words, rowid, text) SELECT 'delete', page, text FROM texts WHERE text"
OTHER_TERMS = "INSERT INTO terms(version, program_hash, form, budget) SELECT version, program_hash, form, 7 FROM terms"


@NEEDS_FTS5
@pytest.mark.parametrize("change, pages", [
    (f"{FORGOTTEN} = 'MENU'; DELETE FROM texts WHERE text = 'MENU'", 1),
    (f"{FORGOTTEN} NOTNULL; DELETE FROM texts WHERE text <> ''; UPDATE texts SET text = NULL, why = 'none'", 5),
    (f"{OTHER_TERMS}; UPDATE texts SET terms = 2 WHERE text = 'MENU'", 1), (OTHER_TERMS, 0),
    ("DROP TABLE words; DELETE FROM texts WHERE text <> 'hockey'", 5),
    ("INSERT INTO words(words) VALUES('rebuild')", 0)])
def test_pages_without_a_text_are_counted(run, store, change, pages):
    alter(store, f"BEGIN; {change}; COMMIT")
    lacking = f"{pages} page{'s have' if pages > 1 else ' has'} no text kept, and can't be found"
    assert run(["find", "hockey", store]).stderr.decode() == (
        f"naplps-pages: {store}: {lacking}: the next scan keeps it\n" if pages else "")


def test_texts_of_others_are_bounded(run, store):
    alter(store, "UPDATE texts SET text = '<b>\x1b[31m hockey' WHERE text = 'hockey'; INSERT INTO words(words) "
          "VALUES('rebuild')")
    assert found(run, store, "hockey")[0] == "a\\nb.nap: <b>\\x1b[31m hockey"


@pytest.mark.parametrize("change, wrong", [
    ("UPDATE texts SET text = x'00'", "1 bytes in place of a text"),
    ("UPDATE texts SET source = 7", "whose text it is"),
    ("UPDATE files SET name = CAST(name AS TEXT)", "in place of a name"),
    ("PRAGMA writable_schema = ON; DELETE FROM sqlite_master WHERE name = 'words_idx'", "words_idx")])
def test_a_store_that_is_none_is_told(run, store, change, wrong):
    alter(store, change)
    said = run(["find", "hockey", store])
    assert said.returncode == 3 and wrong in said.stderr.decode() and said.stderr.count(b"\n") == 1


def test_texts_of_the_schema_before_are_found(run, store, tmp_path):
    old = earlier(store, str(tmp_path / "old.db"))
    assert run(["find", "hockey", old]).stdout == run(["find", "hockey", store]).stdout != b""


# Modules that take long, of which a command needs none that only looks into a store.
HEAVY = ("asyncio", "concurrent", "ctypes", "dataclasses", "email", "hashlib", "http", "inspect", "multiprocessing",
         "naplps.drawing", "naplps.entry", "naplps_pages.collection.kept", "naplps_pages.collection.protocol",
         "naplps_pages.near_keys", "naplps_pages.report", "pathlib", "shutil", "site", "ssl", "subprocess", "tarfile",
         "tempfile", "threading", "urllib", "xml", "zipfile")
IMPORTED = """import sys
sys.path.insert(0, sys.argv[1])
from naplps_pages import cli
status = cli.main(sys.argv[2:], "naplps-pages")
print(status, *sorted(sys.modules), file=sys.stderr)"""


def test_find_imports_little(store):
    said = subprocess.run([sys.executable, "-I", "-S", "-c", IMPORTED, PACKAGES, "find", "hockey", store],
                          stdout=subprocess.PIPE, stderr=subprocess.PIPE, check=True)
    status, *names = said.stderr.decode().split()
    assert status == "0" and b"ICE HOCKEY TODAY" in said.stdout and "naplps_pages.collection.texts" in names
    assert [name for name in names if any(name == each or name.startswith(each + ".") for each in HEAVY)] == []


def test_a_text_that_a_spreadsheet_would_calculate_has_an_apostrophe_in_front(run, tmp_path):
    for number, text in enumerate((
            '=HYPERLINK("x","y") SCORES', "+1 SCORES", "-1 SCORES", "@SUM(A1) SCORES", "'=1 SCORES")):
        store = store_of(run, tmp_path / str(number), {"a.nap": page((0.1, 0.5, text))}, keeps="words")
        (row,) = csv.DictReader(io.StringIO(run(["find", "scores", store, "--csv"]).stdout.decode()))
        assert row["line"] == "'" + text
