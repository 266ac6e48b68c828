"""What docs/COLLECTIONS.md and docs/STORE.md show: each command prints what stands after it, in their order."""
import json
import os
import re
import subprocess
import sys
from pathlib import Path
from xml.etree import ElementTree

import pytest

from archive_shell import archive_with_tool, scripted, shell
from command import TOP
from naplps_pages import commands
from naplps_pages.collection import kept, store, tables, texts
from samples import has
from scans import rows, tree

TEXT, STORE = (Path(TOP, "docs", name).read_text("utf-8") for name in ("COLLECTIONS.md", "STORE.md"))


@pytest.fixture
def archive(naplps, tmp_path, monkeypatch):
    return archive_with_tool(tmp_path, naplps, monkeypatch)


def test_the_tour(archive):
    shown = re.findall(r"^    (naplps-pages .*)\n((?:    # .*\n)+)", TEXT, re.MULTILINE)
    assert len(shown) == 9
    logo = Path(TOP, "examples", "gallery", "logo.nap").read_bytes()
    Path(archive, "disk.img").write_bytes((bytes(100_000) + logo + b"\x1a").ljust(164_000, b"\xe5"))
    for words, printed in shown:
        assert shell(archive, words) == printed.replace("    # ", "")


@pytest.mark.skipif(not has("sqlite3"), reason="there is no sqlite3")
def test_questions_to_the_store(archive):
    shell(archive, "naplps-pages scan pages -o pages.db")
    asked = {name: shell(archive, words) for name, words in re.findall(
        r"<!-- store: (\w+) -->\n```sh\n(.*?)```", STORE, re.DOTALL)}
    assert asked == {
        "listing": "14|/archive/pages/hello.nap\n10|/archive/pages/glyph.nap\n4|/archive/pages/fence by macro.nap\n",
        "reasons": "accepted||9\nrefused|Cut|1\nrefused|LeftOut|1\nrefused|Outside|1\n", "missing": ""}


def test_the_names_of_the_pages(archive):
    (words,) = re.findall(r"<!-- kinds: pages -->\n```sh\n(.*?)```", TEXT, re.DOTALL)
    assert shell(archive, words).splitlines() == [
        "pages/" + name for name in ("fence by macro.nap", "fence.nap", "glyph.nap", "grandma's house.nap", "hello.nap",
                                     "point again.nap", "point.nap", "old/point.nap")]


def test_the_tables_of_the_store(tmp_path):
    connection = store.open_to_write(str(tmp_path / "pages.db"))
    assert texts.make(connection)
    for table in kept.CANON_TABLES:
        table.make(connection)
    found = {name: [row[1] for row in connection.execute("PRAGMA table_info(%s)" % name)] for name, in
             connection.execute("SELECT name FROM sqlite_master WHERE type = 'table'").fetchall()}
    columns = [row[1] for row in connection.execute("PRAGMA table_info(listing)")]
    connection.close()
    told = dict(re.findall(r"^\| `(\w+)` \| (.*) \|$", STORE, re.MULTILINE))
    assert set(told) == set(found) - set(tables.SHADOWS)
    assert all(f"`{name}`" in STORE for name in tables.SHADOWS)
    for name, row in told.items():
        if name != "meta":
            assert re.findall(r"`(\w+)`", row) == found[name], name
    assert re.findall(r"`(\w+)`", re.search(r"a row for each file:([^.]*)\.", STORE.replace("\n", " "))[1]) == columns
    for states in (tables.FILE_STATES, tables.PAGE_STATES, tables.KINDS, tables.GRADES):
        assert ", ".join("%d %s" % each for each in enumerate(states)) in " ".join(STORE.split()).replace(
            "changed while it was read", "changed")


def recipe(name):
    """The lines of a recipe for other tools."""
    return re.search(r"<!-- other: %s -->\n```sh\n(.*?)```" % name, STORE, re.DOTALL)[1]


def test_pages_side_by_side_and_near_each_other(archive):
    line = re.search(r"^    (naplps-pages diff .* -o two.html)$", TEXT, re.MULTILINE)[1]
    assert scripted(archive, line) == ("", 1)
    assert Path(archive, "two.html").read_text("utf-8").startswith("<!DOCTYPE html>")
    (line,) = re.findall(r"^    (naplps-pages equal --nearly .*)$", TEXT, re.MULTILINE)
    assert shell(archive, f"naplps-pages scan pages -o pages.db > scan.txt 2>&1; {line}") == ""


@pytest.mark.skipif(not has("sha256sum"), reason="there is no sha256sum")
def test_a_bag(archive):
    shell(archive, "naplps-pages scan pages -o pages.db")
    assert scripted(archive, recipe("bag")) == ("6 written, 0 there\n", 0)
    lines = Path(archive, "bag", "manifest-sha256.txt").read_text("ascii").splitlines()
    assert len(lines) == 6 and all(re.fullmatch(r"([0-9a-f]{64})  data/[0-9a-f]{2}/\1\.nap", line) for line in lines)


@pytest.mark.skipif(not has("git"), reason="there is no git")
def test_changes_in_git(archive):
    user = "-c user.name=nobody -c user.email=nobody@example.org"
    shell(archive, f"git init -q . && git add pages && git {user} commit -q -m pages")
    assert scripted(archive, recipe("git")) == ("", 0)
    tree(archive, {"pages/point.nap": b"\x0fA\x07", "pages/hello.nap": b"\x0f\x18"})
    said = shell(archive, "git --no-pager diff")
    assert "\n+BELL\n" in said and "\n-CHAR primary 48 " in said and "refused 6 LeftOut CAN at 1" in said


@pytest.mark.skipif(not texts.has_fts5(), reason="SQLite has no FTS5")
def test_metadata_of_datasette(archive):
    (it,) = json.loads(Path(TOP, "examples", "datasette.json").read_bytes())["databases"].values()
    shell(archive, "naplps-pages scan pages -o pages.db")
    store = os.path.join(archive, "pages.db")
    columns = {name: {row[1] for row in rows(store, f"PRAGMA table_info({name})")} for name in it["tables"]}
    listing, words = it["tables"]["listing"], it["tables"]["texts"]
    assert {*listing["facets"], listing["sort"]} <= columns["listing"] and words["fts_pk"] in columns["texts"]
    assert words["fts_table"] == tables.INDEX
    found = rows(store, it["queries"]["find"]["sql"].replace(":words", "?"), "hello")
    assert [(os.path.basename(name), first) for name, first in found] == [("hello.nap", "Hello world!")]


@pytest.mark.skipif(not has("jq"), reason="there is no jq")
def test_a_note_as_an_event_of_premis(archive):
    os.symlink(os.path.join(TOP, "examples"), os.path.join(archive, "examples"))
    tree(archive, {"a&b.nap": b"\x0fHELLO\x1a<\x1a"})
    subprocess.run(["naplps-pages", "fix", "a&b.nap", "-o", "fixed"], cwd=archive, capture_output=True)
    note = json.loads(Path(archive, "fixed", "a&b.nap.json").read_bytes())
    said, status = scripted(archive, recipe("premis"), os.path.join("fixed", "a&b.nap.json"))
    event = ElementTree.fromstring(said)
    texts = {each.tag.split("}")[1]: (each.text or "").strip() for each in event.iter()}
    assert status == 0 and texts["eventDateTime"] == note["time"]
    assert texts["eventOutcome"] == "%s; then accepted %d entries" % (note["refusal"], note["entries"])
    values = [each.text for each in event.iter() if each.tag.endswith("linkingObjectIdentifierValue")]
    assert values == [note["source"]["sha256"], note["copy"]["sha256"]]
    assert all(each["what"] in texts["eventDetail"] for each in note["treatments"])
    assert texts["eventOutcomeDetailNote"] == note["note"]


COMMANDS = {name: sorted(each.word for each in commands.options(commands.command(name).parts()))
            for name in commands.MODULES}


def test_completions_and_synopses_are_made_of_the_commands():
    result = subprocess.run([sys.executable, "-B", "-m", "dev.completions", "--check"], capture_output=True, text=True,
                            cwd=TOP)
    assert (result.stdout, result.stderr, result.returncode) == ("", "", 0)


@pytest.mark.parametrize("name", sorted(COMMANDS))
def test_each_option_is_described_in_the_manual(name):
    text = Path(TOP, "man", "naplps-pages.1").read_text("utf-8").partition(".Sh DESCRIPTION")[2]
    for word in COMMANDS[name]:
        assert re.search(rf"Fl Fl {word[2:]}\b", text), word


def completed(folder, *words):
    """What bash completes these words to."""
    line = ('compopt() { :; }; . "$0"; COMP_WORDS=(naplps-pages "$@"); COMP_CWORD=2; _naplps_pages; '
            'printf "%s\\n" "${COMPREPLY[@]}"')
    return subprocess.run(["bash", "-c", line, os.path.join(TOP, "completions", "naplps-pages.bash"), *words],
                          capture_output=True, text=True, cwd=folder).stdout.splitlines()


@pytest.mark.skipif(not has("bash"), reason="there is no bash")
@pytest.mark.parametrize("name", sorted(COMMANDS))
def test_completion_by_bash(tmp_path, name):
    assert sorted(completed(tmp_path, name, "--")) == sorted([*COMMANDS[name], "--help"])
    tree(tmp_path, {"pages of mine.db": b"", "other": b""})
    assert name != "equal" or completed(tmp_path, name, "pa") == ["pages of mine.db"]
