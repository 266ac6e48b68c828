"""One table, however it was scanned: processes, orders, one page at a time, scans and workers that are killed."""
import os
import random
import shutil
import signal
import subprocess
import sys
import time

import pytest
from hypothesis import HealthCheck, given, settings
from hypothesis import strategies as st

from command import PACKAGES, bare
from naplps.answers import Accepted, Refusal
from naplps.client import Client
from naplps_pages.collection import tables
from naplps_pages.collection.store_files import is_held
from naplps_pages.file_kinds import kind, looks_like
from scans import (
    SMALL_FILES, FileRow, children, count, every_table, is_sound, mixed, rows, slow, start, table, tree, wait_until,
)
from strategies import pages as made_pages


def test_any_number_of_processes_and_any_order(run, tmp_path):
    files = mixed(1500)
    pages = tree(tmp_path / "pages", files)
    shuffled = list(files.items())
    random.Random(1).shuffle(shuffled)
    copy = tree(tmp_path / "copy", dict(shuffled))
    found = []
    for top, processes in ((pages, 1), (pages, 2), (pages, 4), (copy, 3)):
        store = os.path.join(str(tmp_path), "%d.db" % processes)
        said = run(["scan", top, "-o", store, "-j", str(processes)], keeps="repair")
        assert said.returncode == 0 and said.stdout.startswith(b"1500 files: ")
        found.append(table(store, top))
    assert all(each == found[0] for each in found) and len(found[0]) == 1500


def test_the_answers_of_a_process_a_page(run, naplps, tmp_path, store):
    files = mixed(200)
    pages = tree(tmp_path / "pages", files)
    assert run(["scan", pages, "-o", store]).returncode == 0
    wanted = [one(naplps, pages, name, data) for name, data in sorted(files.items())]
    assert table(store, pages) == wanted


def one(path, top, name, data):
    """The row of a file by a process of its own."""
    program = Client(path)
    answer, canon = program.ask("check", data), program.ask("canon", data)
    program.close()
    folder, _, leaf = os.fsencode(name).rpartition(b"/")
    row = FileRow(b"/" + folder if folder else b"", leaf, size=len(data), own=tables.hashed(data))
    if isinstance(answer, Accepted):
        return row._replace(answer=tables.ACCEPTED, entries=answer.entries, canon=tables.hashed(canon.body),
                            canon_size=len(canon.body), several=0,
                            kind=tables.KINDS.index(kind((data,), answer)))
    assert isinstance(answer, Refusal)
    return row._replace(answer=tables.REFUSED, number=answer.number, left_out=answer.code, place=answer.place,
                        looks_like=looks_like(data, len(data)) or "")


def test_killed_five_times_and_resumed(run, naplps, tmp_path, store):
    pages = tree(tmp_path / "pages", mixed(24_000))
    taken = 0
    for least in (1, 2500, 5000, 7500, 10_000):
        scan = start(["scan", pages, "-o", store, "-j", "2"], naplps)
        wait_until(lambda: count(store) >= least, scan)
        workers = children(scan.pid)
        scan.kill()
        scan.communicate()
        assert scan.returncode == -signal.SIGKILL and is_sound(store) and not is_held(store)
        wait_until(lambda: not any(os.path.exists("/proc/%d" % each) for each in workers))
        assert taken <= count(store) < 24_000                   # (it was amid, and nothing that was taken is lost)
        taken = count(store)
    known = rows(store, "SELECT count(*) FROM files f JOIN pages p ON p.id = f.page")[0][0]
    said = run(["scan", pages, "-o", store])
    assert known >= 10_000 and b"; %d known, " % known in said.stdout
    other = store + ".other"
    assert run(["scan", pages, "-o", other]).returncode == 0
    assert table(store, pages) == table(other, pages)


COMMANDS = (["files"], ["equal"], ["find", "hello"], ["files", "--census"])


def test_killed_at_twenty_moments_it_has_the_tables_of_one_that_was_not(run, naplps, tmp_path, store):
    """Between the scans a command makes the indices, or none does."""
    pages = tree(tmp_path / "pages", mixed(6000))
    # (a store whose first scan was killed before it began is still a new one)
    words = ["scan", pages, "--skip", "words", "--skip", "repair", "-o"]
    chance = random.Random(7)
    for number in range(20):
        scan = start([*words, store, "-j", "2"], naplps)
        time.sleep(chance.random() * 0.8)
        scan.kill()
        scan.communicate()
        assert scan.returncode in (0, -signal.SIGKILL)
        if number % 3 == 2 and os.path.exists(store):
            run([COMMANDS[number % len(COMMANDS)][0], *COMMANDS[number % len(COMMANDS)][1:], store])
    assert run([*words, store]).returncode == 0 and is_sound(store)
    other = store + ".other"
    assert run([*words, other]).returncode == 0
    assert table(store, pages) == table(other, pages)
    assert every_table(store)["indices"] == every_table(other)["indices"]


KILLED = """import os, sys
sys.path.insert(0, sys.argv[1])
from naplps_pages import cli
from naplps_pages.collection import scan
before, last = scan.INDICES.split(";", 1)
class Connection(scan.sqlite3.Connection): pass
def killed(self, roots):
    self.connection.executescript({before})
    self.connection.create_function("die", 0, lambda: os.kill(os.getpid(), 9))
    self.connection.executescript("BEGIN; " + {amid} + "; SELECT die();")
scan.Writer.sweep = killed
cli.main(sys.argv[2:], "naplps-pages")"""


@pytest.mark.parametrize("before, amid", [("''", "'SELECT 1'"), ("before", "'SELECT 1'"), ("''", "before")])
@pytest.mark.parametrize("command", COMMANDS)
def test_killed_before_its_indices_are_made(run, naplps, tmp_path, store, before, amid, command):
    pages = tree(tmp_path / "pages", mixed(100))
    lines = KILLED.format(before=before, amid=amid)
    words = bare(["scan", pages, "-o", store])
    killed = subprocess.run([sys.executable, "-ESc", lines, PACKAGES, *words],
                            env={**os.environ, "NAPLPS": naplps})
    assert killed.returncode == -signal.SIGKILL and is_sound(store)
    indices = "SELECT name, sql FROM sqlite_master WHERE type = 'index' AND sql IS NOT NULL ORDER BY name"
    assert len(rows(store, indices)) == (before == "before")
    other = store + ".other"
    assert run(["scan", pages, "-o", other]).returncode == 0
    said, wanted = run([*command, store]), run([*command, other])
    assert said.stdout.replace(os.fsencode(store), b"") == wanted.stdout.replace(os.fsencode(other), b"") or (
        command == ["files"])                                   # (it says when the scan ended)
    assert rows(store, indices) == rows(other, indices) and is_sound(store)
    assert run(["scan", pages, "-o", store]).returncode == 0
    assert table(store, pages) == table(other, pages)


def test_workers_that_are_killed_cost_nothing(run, fake, tmp_path, store):
    pages, go = tree(tmp_path / "pages", mixed(1000)), tmp_path / "go"
    program = fake(slow(0.05, go))
    scan = start(["scan", pages, "-o", store, "-j", "2"], program)
    killed = set()
    for least in (1, 300, 600):    # (by then no file is tried alone, of those of a killed worker)
        wait_until(lambda: count(store) >= least and set(children(scan.pid)) - killed, scan)
        victim = min(set(children(scan.pid)) - killed)
        os.kill(victim, signal.SIGKILL)
        killed.add(victim)
    go.touch()
    out, told = scan.communicate()
    assert (told, scan.returncode) == (b"", 0) and out.startswith(b"1000 files: ")
    other = store + ".other"
    assert run(["scan", pages, "-o", other], program=program).returncode == 0
    assert table(store, pages) == table(other, pages)


NAMES = st.binary(min_size=1, max_size=255).map(lambda raw: raw.replace(b"/", b"\n").replace(b"\0", b"\xff")).filter(
    lambda raw: raw not in (b".", b".."))
FILES = st.one_of(made_pages(), st.sampled_from(SMALL_FILES), st.binary(max_size=40))
TREES = st.recursive(st.dictionaries(NAMES, FILES, max_size=4),
                     lambda below: st.dictionaries(NAMES, st.one_of(FILES, below), max_size=4), max_leaves=12)


def grow(folder, made):
    """Makes a folder with these files and folders."""
    os.mkdir(folder)
    for name, what in made.items():
        path = os.path.join(folder, name)
        if isinstance(what, dict):
            grow(path, what)
        else:
            with open(path, "wb") as file:
                file.write(what)


def plainly(program, top):
    """The table of a folder, read plainly."""
    found = []
    for folder, _, names in os.walk(os.fsencode(top)):
        for name in names:
            with open(os.path.join(folder, name), "rb") as file:
                data = file.read()
            said = program.ask("canon", data)
            entries = said.entries if isinstance(said, Accepted) else None
            refusal = (said.number, said.place) if isinstance(said, Refusal) else (None, None)
            canon = tables.hashed(said.body) if isinstance(said, Accepted) else None
            found.append((os.path.join(folder, name), tables.hashed(data), entries, *refusal, canon))
    return sorted(found)


@settings(max_examples=12, suppress_health_check=[HealthCheck.function_scoped_fixture, HealthCheck.too_slow])
@given(made=TREES)
def test_any_tree_gives_the_table_of_a_plain_reading(run, naplps, tmp_path_factory, made):
    at = str(tmp_path_factory.mktemp("tree"))
    top, store = os.path.join(at, "top"), os.path.join(at, "pages.db")
    grow(os.fsencode(top), made)
    assert run(["scan", top, "-o", store, "-j", "2"]).returncode == 0
    program = Client(naplps)
    wanted = plainly(program, top)
    program.close()
    found = rows(store, "SELECT d.path, f.name, p.own, p.entries, p.number, p.place, p.canon FROM files f "
                        "JOIN folders d ON d.id = f.folder JOIN pages p ON p.id = f.page")
    assert sorted((os.path.join(folder, name), *rest) for folder, name, *rest in found) == wanted
    shutil.rmtree(at)
