"""Groups over several stores are those of the store into which they are merged."""
import os
import shutil
import subprocess
import sys

import pytest
from hypothesis import HealthCheck, given, settings
from hypothesis import strategies as st

from command import COMMAND, PACKAGES
from naplps_pages.collection import equal, sources, tables
from naplps_pages.collection.merge import merge
from naplps_pages.collection.tables import Answered, Terms
from naplps_pages.collection.store import open_to_read
from samples import OUTSIDE, POINT, POINT_AND_BELL, SPELLED
from scans import alter, made_up, made_up_parts, scan_parts, tree, written

FORMS = ([], ["--json", "--skip", "copies"], ["--csv"], ["-0"])


def nothing(name, why):
    raise AssertionError((name, why))


def same(into, stores):
    """Whether the groups of the stores are those of the merged one, and there are some."""
    for copies in (False, True):
        wanted = list(equal.groups(open_to_read(into), copies))
        assert wanted and list(sources.groups_over(stores, copies, nothing)) == wanted


def test_parts_of_a_scan(run, tmp_path):
    kinds = (POINT, SPELLED, POINT_AND_BELL, OUTSIDE, b"\x0fhello", b"\x0fhello\x0f")
    pages = tree(tmp_path / "pages", {
        "%d/%03d" % (at % 7, at): kinds[at % len(kinds)] + b"\x0f" * (at // 60) for at in range(240)})
    stores = scan_parts(run, pages, tmp_path, 5)
    into = str(tmp_path / "all.db")
    assert run(["scan", "--merge", "-o", into, *stores]).returncode == 0
    same(into, stores)
    for words in (*FORMS, ["--verify"]):
        assert run(["equal", into, *words]).stdout == run(["equal", *stores, *words]).stdout != b""
    for store in stores[1:3]:                                   # (as they are where a scan is stopped)
        alter(store, "DROP INDEX pages_by_canon; DROP INDEX files_by_page;")
    same(into, stores)
    tree(pages, {"0/000": b"changed"})
    one, some = run(["equal", into, "--verify"]), run(["equal", *stores, "--verify"])
    assert (one.stdout, one.stderr) == (some.stdout, some.stderr) and one.returncode == some.returncode == 1


def test_made_up_stores(run, tmp_path):
    stores, into = made_up_parts(tmp_path, 4, 1500, 40), str(tmp_path / "all.db")
    # (files of the next store, of the same bytes)
    alter(stores[0], "UPDATE files SET name = CAST('other ' || name AS BLOB) WHERE inode >= 1500")
    assert run(["scan", "--merge", "-o", into, *stores]).returncode == 0
    same(into, stores)


def test_what_lacks_is_told(run, tmp_path):
    stores = made_up_parts(tmp_path, 3, 100)
    alter(stores[2], "UPDATE runs SET ended = NULL")
    into = str(tmp_path / "some.db")
    assert run(["scan", "--merge", "-o", into, *stores[1:], "--force"]).returncode == 1
    said = run(["equal", *stores[1:]])
    assert (said.stdout, said.returncode) == (run(["equal", into]).stdout, 1)
    assert said.stderr.decode() == (
        "naplps-pages: %s: isn't finished: its scan was stopped, and the same command goes on\n"
        "naplps-pages: %s: part 0/3 of /archive isn't among the stores\n" % (stores[2], stores[1]))


def test_stores_without_any_group(run, tmp_path):
    stores = [str(tmp_path / name) for name in ("0.db", "1.db")]
    for at, store in enumerate(stores):
        made_up(store, 100 * at + 2, 4, "%d/2" % at)
    for words in FORMS:
        said = run(["equal", *stores, *words])
        assert (said.stderr, said.returncode) == (b"", 0)
        assert said.stdout == (b"canonical,spellings,files,entries,spelling,hash,name,name_hex\n" if "--csv" in words
                               else b"")


# What a store says of a page, which is a letter: that it draws x or y, is refused, or has no answer.
ANSWERS = st.dictionaries(st.sampled_from("abcdef"), st.sampled_from(["x", "y", "refused", "no answer"]), max_size=6)
STORES = st.lists(st.tuples(st.sampled_from("12"), ANSWERS), min_size=2, max_size=4)


def answered(at, letter, said):
    own = tables.hashed(letter.encode())
    if said == "refused":
        return Answered(own, tables.REFUSED, number=10, place=at, fault="Outside")
    if said == "no answer":
        return Answered(own, tables.NO_ANSWER, why="none")
    return Answered(own, tables.ACCEPTED, entries=at, canon=tables.hashed(said.encode()), canon_size=at)


@settings(max_examples=40, suppress_health_check=[HealthCheck.function_scoped_fixture, HealthCheck.too_slow])
@given(STORES)
def test_stores_that_differ_in_terms_and_answers(tmp_path, stores):
    room = str(tmp_path / "room")
    shutil.rmtree(room, ignore_errors=True)
    os.mkdir(room)
    paths = [os.path.join(room, "%d.db" % at) for at in range(len(stores))]
    for at, (form, answers) in enumerate(stores):
        found = [(b"%s %d" % (letter.encode(), each), answered(at, letter, said))
                 for letter, said in sorted(answers.items()) for each in range(1 + at % 2)]
        written(paths[at], b"/%d" % at, found, Terms("version %d" % at, b"%32d" % at, form, 1), began="%d" % at)
    into = os.path.join(room, "all.db")
    assert merge(into, paths[::-1], unfinished=False)
    for copies in (False, True):
        assert list(sources.groups_over(paths, copies, nothing)) == list(equal.groups(open_to_read(into), copies))


@pytest.mark.parametrize("words", [["-0"], []])
def test_a_reader_that_ends_early(naplps, tmp_path, words):
    stores = made_up_parts(tmp_path, 2, 3000)
    said = subprocess.run(["sh", "-c", '"$@" | head -c 10', "sh", COMMAND, "equal", *stores, *words],
                          capture_output=True, env=dict(os.environ, NAPLPS=naplps))
    assert len(said.stdout) == 10 and said.stderr == b""


LITTLE = """import sys; sys.path.insert(0, %r)
from naplps_pages import cli
from naplps_pages.collection import sources
sources.CACHE = 256; sys.exit(cli.main(sys.argv[1:], 'naplps-pages'))""" % PACKAGES


def test_no_room_for_temporary_files(tmp_path, small_disk):
    stores = made_up_parts(tmp_path, 2, 20_000)
    said = subprocess.run([sys.executable, "-Bc", LITTLE, "equal", *stores], capture_output=True,
                          env=dict(os.environ, SQLITE_TMPDIR=small_disk))
    assert (said.stdout, said.returncode) == (b"", 3)
    assert said.stderr.decode() == (
        "naplps-pages: temporary files of %s and others: database or disk is full\n" % stores[0])
    assert os.listdir(small_disk) == []
