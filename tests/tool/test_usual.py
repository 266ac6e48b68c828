"""What a new store keeps that nobody asked for anything else, and what it keeps to from then on: texts and repairs."""
import json
import os
import subprocess

import pytest

from command import COMMAND
from samples import POINT
from scans import rows, tree

# A page with words, one that treatments make readable, and another page with words.
WORDS, SICK, MORE = b"Harbour lights", POINT + b"\x1a", b"Harbour master"
KEEPS = ("its scans try repairs, and so does this one: --skip repair is for a new store",
         "its scans keep texts, and so does this one: --skip words is for a new store")
SKIP_BOTH = ("--skip", "words", "--skip", "repair")


@pytest.fixture
def tool(naplps, tmp_path):
    """Runs the command as people do; its output, or with a status what it says on standard error."""
    def runs(*words, status=0):
        ran = subprocess.run([COMMAND, *words], capture_output=True, text=True, cwd=tmp_path,
                             env=dict(os.environ, NAPLPS=naplps))
        assert ran.returncode == status, ran
        return ran.stdout if not status else ran.stderr
    tree(tmp_path / "pages", {"a.nap": WORDS, "sick.nap": SICK})
    return runs


def found(tool, store):
    """The names of the pages that have a word."""
    lines = tool("find", "harbour", store, "--json").splitlines()
    return [os.path.basename(json.loads(line)["name"]) for line in lines]


def test_a_new_store_has_texts_and_repairs(tool, tmp_path):
    tool("scan", "pages", "-o", "x.db")
    assert found(tool, "x.db") == ["a.nap"]
    assert rows(str(tmp_path / "x.db"), "SELECT treatments FROM cures") == [("tail",)]
    assert os.stat(tmp_path / "x.db").st_mode & 0o077 == 0
    told = tool("files", "x.db")
    assert "left:            nothing" in told and "\nwords:" not in told and "\nrepairs:" not in told


def test_a_store_has_texts_in_a_folder_of_any_name(tool, tmp_path):
    folder = os.fsdecode(b"bo\xeete")
    os.mkdir(tmp_path / folder)
    store = f"{folder}/x.db"
    tool("scan", "pages", "-o", store)
    assert found(tool, store) == ["a.nap"] and "left:            nothing" in tool("files", store)
    tool("scan", "--merge", "-o", f"{folder}/y.db", store)
    assert found(tool, f"{folder}/y.db") == ["a.nap"]


def test_it_keeps_to_them_and_what_is_skipped_then_is_told(tool, tmp_path):
    tool("scan", "pages", "-o", "x.db")
    tree(tmp_path / "pages", {"b.nap": MORE})
    said = subprocess.run([COMMAND, "scan", "pages", "-o", "x.db", *SKIP_BOTH], cwd=tmp_path, capture_output=True,
                          text=True)
    assert said.returncode == 0
    assert said.stderr.splitlines() == [f"naplps-pages: x.db: {each}" for each in KEEPS]
    assert found(tool, "x.db") == ["a.nap", "b.nap"]


def test_what_a_new_store_skips_it_lacks(tool, tmp_path):
    """No later scan adds it."""
    store = str(tmp_path / "x.db")
    tool("scan", "pages", "-o", "x.db", *SKIP_BOTH)
    for _ in range(2):
        assert rows(store, "SELECT 1 FROM texts UNION SELECT 1 FROM cures") == []
        assert rows(store, "SELECT key FROM meta WHERE key IN ('words', 'cures')") == []
        assert tool("find", "harbour", "x.db", status=3) == (
            "naplps-pages: x.db: has no texts: a scan into a new store keeps them, without --skip words\n")
        told = tool("files", "x.db")
        assert "words:           no text is kept, and nothing is found: a new store keeps texts" in told
        assert "repairs:         none is tried: a new store has them" in told
        assert "; 2 known, 0 pages asked about" in tool("scan", "pages", "-o", "x.db")


@pytest.mark.parametrize("first", [(), ("--skip", "words")])
def test_a_merged_store_keeps_to_what_one_of_them_kept(tool, tmp_path, first):
    tree(tmp_path / "more", {"b.nap": MORE})
    tool("scan", "pages", "-o", "x.db", *first)
    tool("scan", "more", "-o", "y.db", *(() if first else ("--skip", "words")))
    tool("scan", "--merge", "-o", "z.db", "x.db", "y.db")
    lacking = subprocess.run([COMMAND, "find", "harbour", "z.db"], cwd=tmp_path, capture_output=True, text=True)
    pages = "2 pages have" if first else "1 page has"
    assert f"z.db: {pages} no text kept, and can't be found: the next scan keeps it" in lacking.stderr
    assert lacking.returncode == 0 and lacking.stdout.endswith(": Harbour master\n" if first else ": Harbour lights\n")
    assert "without their text" in tool("files", "z.db")
    tool("scan", "pages", "more", "-o", "z.db")
    assert found(tool, "z.db") == ["b.nap", "a.nap"] and "left:            nothing" in tool("files", "z.db")


def test_a_report_tells_what_is_not_known(tool, tmp_path):
    tool("scan", "pages", "-o", "lacks.db", *SKIP_BOTH)
    tool("scan", "pages", "-o", "has.db")
    for name, has in (("lacks", True), ("has", False)):
        tool("report", f"{name}.db", "-o", f"{name}.html")
        text = (tmp_path / f"{name}.html").read_text("utf-8")
        for told in ("different pages without their text", "different pages refused without repairs tried"):
            assert (told in text) == has
