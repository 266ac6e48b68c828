"""What a store keeps for comparing pages, keys of those that are almost equal and hashes of pictures: it is made once
for each list, kept, and goes.
"""
import os
import shutil
import stat
from typing import NamedTuple

import pytest

from alike import BASE, BEGINNINGS, GROUPS, LISTS, ORIGINAL, PICTURES, VARIANTS, fill, make, near_found, pictures_found
from command import file
from naplps.limits import USUAL_BUDGET
from naplps_pages.collection import canon_filling, kept
from naplps_pages.collection.progress import Stopping
from naplps_pages.collection.protocol import WorkerOptions
from naplps_pages.collection.store import open_to_write
from naplps_pages.collection.store_files import Lock
from scans import StopsSoon, alter, rows


class CanonKind(NamedTuple):
    """One of the two."""

    table: kept.CanonTable
    words: tuple
    found: object
    wanted: object
    # What is found without more.nap and places.nap.
    left: object
    # The source of another page, and a group to which it comes as places.nap.
    new: str
    group: tuple
    unknown: bytes
    changed: bytes
    # What others may make of the table, by what is said of it.
    forged: tuple


KINDS = {
    "near": CanonKind(
        kept.NEAR_KEYS, ("equal", "--nearly", "--json"), near_found, (GROUPS, BEGINNINGS),
        ({group for group in GROUPS if group[0] != "places"}, set()), BASE.replace("WET", "DRY"),
        ("words", ORIGINAL, ("places.nap",)), b"2 not compared with others that are almost equal",
        b"; it isn't compared", (
            ("CREATE INDEX mine ON near_keys(words)", b"something else: mine"),
            ("UPDATE near_keys SET words = 'x'", b"it has a text in place of a key"),
            ("UPDATE near_keys SET prefixes = x'00'", b"in place of keys of first entries"),
            ("UPDATE near_keys SET said = x'00'", b"in place of words"),
            ("UPDATE near_keys SET said = printf('%.*c', 70000, 'x')", b"in place of words"))),
    "pictures": CanonKind(
        kept.PICTURES, ("equal", "--pictures", "--json"), pictures_found, PICTURES, PICTURES,
        BASE + "BELL\n", (*ORIGINAL, "cut.nap", "places.nap"),
        b"2 without the hash of their picture", b"; its picture isn't known", (
            ("CREATE INDEX mine ON pictures(picture)", b"something else: mine"),
            ("UPDATE pictures SET picture = printf('%.*c', 32, 'x')", b"it has a text in place of a hash"),
            ("UPDATE pictures SET picture = x'00'", b"it has 1 bytes in place of a hash")))}


@pytest.fixture(params=sorted(KINDS))
def kind(request):
    return KINDS[request.param]


@pytest.fixture
def box(run, tmp_path):
    return fill(run, tmp_path / "box", {"base.nap": BASE, **VARIANTS})


@pytest.fixture
def scanned(run, box, store):
    """The store of the box, which keeps nothing for comparing."""
    assert run(["scan", box, "-o", store]).returncode == 0
    return store


def lists(store, kind):
    """The lists of which the store has a row, with the form of that."""
    return dict(rows(store, f"SELECT canon, form FROM {kind.table.name}"))


def has_table(store, kind):
    return bool(rows(store, "SELECT 1 FROM sqlite_master WHERE name = ?", kind.table.name))


def ask(run, store, kind):
    """Asks for what is found, which is all that there is."""
    said = run([*kind.words, store])
    assert (said.returncode, said.stderr) == (0, b"") and kind.found(said) == kind.wanted


def joined(said, kind):
    """Whether the new page is in its group."""
    if kind.table.name == "near_keys":
        return kind.group in kind.found(said)[0]
    return kind.group in [tuple(sorted(sum(group, ()))) for group in kind.found(said)]


def test_they_are_kept_and_go(run, scanned, box, kind):
    assert not any(has_table(scanned, each) for each in KINDS.values())
    mode = stat.S_IMODE(os.stat(scanned).st_mode)
    ask(run, scanned, kind)
    first = lists(scanned, kind)
    assert set(first.values()) == {kind.table.form} and len(first) == LISTS  # (a copy has that of its page)
    # (keys have words of pages)
    assert stat.S_IMODE(os.stat(scanned).st_mode) == (0o600 if kind.table.name == "near_keys" else mode)
    shutil.move(box, box + ".away")  # (so no page could be read)
    ask(run, scanned, kind)
    shutil.move(box + ".away", box)
    os.unlink(os.path.join(box, "words.nap"))
    file(box, "places.nap", make(run, kind.new))
    assert run(["scan", box, "-o", scanned]).returncode == 0
    left = lists(scanned, kind)
    assert len(left) == LISTS - 2 and set(left) < set(first)  # (until they are asked for)
    assert joined(run([*kind.words, scanned]), kind) and len(lists(scanned, kind)) == LISTS - 1


def test_a_scan_keeps_them_for_each_later_one(run, box, store, kind):
    name, option = kind.table.name, kind.table.option
    assert run(["scan", box, "-o", store, f"--{option}"]).returncode == 0 and len(lists(store, kind)) == LISTS
    file(box, "new.nap", make(run, kind.new))
    assert run(["scan", box, "-o", store]).returncode == 0 and len(lists(store, kind)) == LISTS + 1
    assert rows(store, "SELECT value FROM meta WHERE key = ?", option) == [(1,)]
    assert b"left:            nothing" in run(["files", store]).stdout
    alter(store, f"DELETE FROM {name} WHERE rowid = 1; UPDATE {name} SET form = form + 1 WHERE rowid = 2")
    assert kind.unknown in run(["files", store]).stdout
    assert run([*kind.words, store]).returncode == 0
    assert [*lists(store, kind).values()] == [kind.table.form] * (LISTS + 1)


def test_pages_that_changed_are_told(run, scanned, box, kind):
    file(box, "more.nap", b"\x0f changed")
    os.unlink(os.path.join(box, "places.nap"))
    said = run([*kind.words, scanned])
    assert said.returncode == 1 and kind.found(said) == kind.left
    assert b"more.nap: it isn't as it was when it was scanned" + kind.changed in said.stderr
    assert b"places.nap: it vanished" in said.stderr and len(lists(scanned, kind)) == LISTS - 2


def test_a_merge_joins_them(run, box, tmp_path, kind):
    parts = [str(tmp_path / f"part-{number}.db") for number in range(2)]
    for number, part in enumerate(parts):
        assert run(["scan", box, "-o", part, "--shard", f"{number}/2", f"--{kind.table.option}"]).returncode == 0
    merged = str(tmp_path / "all.db")
    assert run(["scan", "--merge", "-o", merged, *parts]).returncode == 0
    assert lists(merged, kind) == {**lists(parts[0], kind), **lists(parts[1], kind)} and len(
        lists(merged, kind)) == LISTS
    assert rows(merged, "SELECT value FROM meta WHERE key = ?", kind.table.option) == [(1,)]
    ask(run, merged, kind)


def require_not_kept(said, store, kind, why):
    """They are found all the same, and it is told why they aren't kept."""
    assert said.returncode == 0 and kind.found(said) == kind.wanted and not has_table(store, kind)
    told = "what is found out for this isn't kept, as the store can't be written now: " + why
    assert told in said.stderr.decode("utf-8")


def test_a_store_that_a_scan_is_at_work_on(run, scanned, kind):
    with Lock(scanned):
        said = run([*kind.words, scanned])
    require_not_kept(said, scanned, kind, "another scan is at work on it: process")


@pytest.mark.skipif(os.geteuid() != 0, reason="only root can run a command as somebody else")
def test_a_store_of_somebody_else(run_as_nobody, scanned, box, kind):
    for path in (scanned, *(os.path.join(box, name) for name in os.listdir(box))):
        os.chmod(path, 0o644)
    require_not_kept(run_as_nobody(*kind.words, scanned), scanned, kind, "")


def test_what_others_made_of_them(run, scanned, tmp_path, kind):
    ask(run, scanned, kind)
    other, merged, name = str(tmp_path / "other.db"), str(tmp_path / "all.db"), kind.table.name
    not_own = f" {name} isn't that of a store".encode()
    for words, why in (
            (f"DROP TABLE {name}; CREATE TABLE {name}(canon BLOB)", b"its table" + not_own),
            (f"DROP TABLE {name}; CREATE VIEW {name} AS SELECT 1", b"its view" + not_own), *kind.forged):
        alter(shutil.copy(scanned, other), words)
        said = run([*kind.words, other])
        assert said.returncode == 3 and b"isn't a store of naplps-pages" in said.stderr and why in said.stderr
        assert run(["scan", "--merge", "-o", merged, other]).returncode == 3 and not os.path.exists(merged)


def test_one_that_is_stopped_goes_on(naplps, scanned, monkeypatch, kind):
    monkeypatch.setattr(canon_filling, "MAX_FILES", 2)
    connection = open_to_write(scanned)
    kind.table.make(connection)
    how = WorkerOptions(naplps, USUAL_BUDGET, 20.0, 0)
    first = canon_filling.CanonPass(kind.table, connection, scanned, how, 1)
    assert first.run(StopsSoon(first)) == 0 and first.total == LISTS
    done = len(lists(scanned, kind))
    assert 0 < done < first.total
    second = canon_filling.CanonPass(kind.table, connection, scanned, how, 1)
    assert second.total == first.total - done and second.run(Stopping()) == 0
    assert len(lists(scanned, kind)) == first.total
    connection.close()
