"""Merges: what is refused, what is joined all the same, and that none leaves a half or changes a part."""
import os
import re
import shlex
import shutil
import signal
import subprocess
import sys

import pytest

from command import COMMAND, PACKAGES
from naplps_pages.collection import tables
from naplps_pages.collection.store_files import Lock
from naplps_pages.collection.tables import Answered, Terms
from scans import (
    FAKE, FOLDER_NO_STORE, NO_STORE, alter, children, count, every_table, is_sound, made_up, made_up_parts, rows, start,
    statuses, tree,
    wait_until, written,
)

NOT_MADE = "isn't made; with --force it is, of what is there"


@pytest.fixture
def here(tmp_path, monkeypatch):
    """An empty folder, which is the current one."""
    folder = str(tmp_path / "here")
    os.mkdir(folder)
    monkeypatch.chdir(folder)
    return folder


def scan(run, program, folder, store, *words):
    said = run(["scan", folder, "-o", store, *words], program=program)
    assert said.stderr == b"" and said.returncode == 0
    return said


def told(said):
    return [line.replace("naplps-pages: ", "", 1) for line in said.stderr.decode().splitlines()]


def contents():
    """The files of the current folder, and what they hold."""
    return {name: open(name, "rb").read() for name in os.listdir(".") if os.path.isfile(name)}


def refused(run, words, *lines):
    """A merge that makes nothing, with what it tells."""
    before = contents()
    said = run(["scan", "--merge", "-o", *words])
    assert (told(said), said.stdout, said.returncode) == (list(lines), b"", 3)
    assert contents() == before


def test_stores_that_differ(run, fake, here):
    tree("one", {"good": b"good", "bad": b"bad", "more": b"other", "only": b"here"})
    tree("two", {"copy": b"good", "bad": b"bad too", "a/more": b"other", "c": b"bad"})
    scan(run, fake(FAKE), "one", "one.db")
    scan(run, fake(FAKE.replace("b'bad'", "b'goo'").replace("len(page)", "5")), "two", "two.db")
    canon = {letter: tables.hashed(b"canonical " + letter).hex() for letter in (b"g", b"b", b"o")}
    lines = {b"good": "one.db: %s/one/good: accepted 4 entries, canonical %s; two.db: %s/two/copy: "
                      "refused 10 Outside at 0, of the same bytes" % (here, canon[b"g"], here),
             b"bad": "one.db: %s/one/bad: refused 10 Outside at 0; two.db: %s/two/c: accepted 5 entries, "
                     "canonical %s, of the same bytes" % (here, here, canon[b"b"])}
    refused(run, ["all.db", "one.db", "two.db"], *(lines[each] for each in sorted(lines, key=tables.hashed)),
            "all.db: isn't made: 2 pages with two answers under one budget and version")
    # (another budget, or another version, may answer differently: then what was asked last counts)
    scan(run, fake(FAKE.replace("b'bad'", "b'goo'").replace("9.9", "9.8")), "two", "newer.db")
    said = run(["scan", "--merge", "-o", "all.db", "newer.db", "one.db"])
    assert (said.returncode, said.stderr) == (0, b"")
    assert said.stdout in (b"8 files: 6 accepted (6 texts), 2 refused; from 2 stores\n",)
    assert statuses("all.db")["good"] == statuses("all.db")["copy"]


def test_answers_are_compared_with_all_of_their_version(run, here):
    own = tables.hashed(b"page")
    for at, (version, entries) in enumerate((("1", 5), ("2", 6), ("1", 7))):
        answer = Answered(own, tables.ACCEPTED, entries=entries, canon=own, canon_size=1)
        written("%d.db" % at, b"/%d" % at, [(b"page", answer)], Terms(version, b"%32d" % at, "2", 1), began=str(at))
    refused(run, ["all.db", "0.db", "1.db", "2.db"],
            "0.db: /0/page: accepted 5 entries, canonical {0}; 2.db: /2/page: accepted 7 entries, canonical {0}, "
            "of the same bytes".format(own.hex()), "all.db: isn't made: 1 page with two answers under one budget and "
            "version")
    assert run(["scan", "--merge", "-o", "all.db", "1.db", "0.db"]).returncode == 0
    assert rows("all.db", "SELECT name, entries FROM listing ORDER BY 1") == [("/0/page", 6), ("/1/page", 6)]
    assert rows("all.db", "SELECT id, began, files, asked FROM runs") == [(1, "0", 1, 0), (2, "1", 1, 1)]


def test_many_differences(run, fake, here):
    tree("one", {"%d" % number: b"bad %d" % number for number in range(30)})
    shutil.copytree("one", "two")
    scan(run, fake(FAKE), "one", "one.db")
    scan(run, fake(FAKE.replace("10 Outside", "12 Other")), "two", "two.db")
    said = run(["scan", "--merge", "-o", "all.db", "one.db", "two.db"])
    assert said.returncode == 3 and len(told(said)) == 11
    assert all("refused 10 Outside at 0; two.db: " in line for line in told(said)[:10])
    assert told(said)[-1] == "all.db: isn't made: 30 pages with two answers under one budget and version"


def test_an_answer_counts_more_than_none(run, fake, here):
    program = fake(FAKE.replace("page == b'die'", "page == b'die' and 'dies' in sys.argv[0]"))
    dies = shutil.copy(program, os.path.join(os.path.dirname(program), "dies"))
    tree("one", {"dies": b"die", "fine": b"fine"})
    tree("two", {"copy": b"die"})
    scan(run, program, "one", "one.db")
    said = run(["scan", "two", "-o", "two.db"], program=dies)
    assert said.returncode == 3 and statuses("two.db")["copy"][0] == "no answer"
    for name, words in (("a.db", ["one.db", "two.db"]), ("b.db", ["two.db", "one.db"])):
        said = run(["scan", "--merge", "-o", name, *words])
        assert (said.returncode, said.stdout) == (0, b"3 files: 3 accepted (3 texts), 0 refused; from 2 stores\n")
        assert statuses(name)["copy"] == statuses(name)["dies"] == ("accepted", None)


def test_unfinished_parts(run, fake, here):
    tree("pages", {"%02d/%03d" % (number // 100, number): b"page %d" % number for number in range(400)})
    program = fake(FAKE.replace("    fail(page)\n", """    fail(page)
    if page and 'slow' in sys.argv[0]: time.sleep(0.8)
"""))
    slow = shutil.copy(program, os.path.join(os.path.dirname(program), "slow"))
    work = start(["scan", "pages", "-o", "0.db", "--shard", "0/2", "-j", "1"], slow)
    wait_until(lambda: count("0.db") > 0, work)
    scan(run, program, "pages", "1.db", "--shard", "1/2")
    said = run(["scan", "--merge", "-o", "all.db", "0.db", "1.db"])
    assert (told(said), said.returncode) == (["0.db: isn't finished: its scan is at work", "all.db: " + NOT_MADE], 3)
    workers = children(work.pid)
    for number, pids in ((signal.SIGSTOP, workers), (signal.SIGKILL, [work.pid]), (signal.SIGKILL, workers)):
        for each in pids:                                       # (so that nobody folds the log)
            os.kill(each, number)
    work.communicate()
    wait_until(lambda: not any(os.path.exists("/proc/%d" % each) for each in workers))
    stopped = "0.db: isn't finished: its scan was stopped, and the same command goes on"
    before = contents()
    assert "0.db-wal" in before
    said = run(["scan", "--merge", "-o", "all.db", "0.db", "1.db"])
    assert (told(said), said.returncode) == ([stopped, "all.db: " + NOT_MADE], 3)
    said = run(["scan", "--merge", "-o", "all.db", "0.db", "1.db", "--force"])
    assert (told(said), said.returncode) == ([stopped], 1)
    assert {name: before[name] for name in before if not name.endswith("-shm")} == {
        name: data for name, data in contents().items() if name in before and not name.endswith("-shm")}
    met = rows("all.db", "SELECT count(*) FROM files")[0][0]
    assert said.stdout == (
        b"%d files: %d accepted (%d texts), 0 refused; from 2 stores\n") % (met, met, met) and 200 < met < 400
    state = run(["files", "all.db"]).stdout
    assert b", was stopped: the same command goes on\n" in state and state.endswith(b"what the scan hasn't reached\n")
    # (the whole continues from there, and so does the part)
    assert b"; %d known" % met in scan(run, program, "pages", "all.db").stdout
    scan(run, program, "pages", "0.db", "--shard", "0/2")
    assert run(["scan", "--merge", "-o", "both.db", "0.db", "1.db"]).stdout == (
        b"400 files: 400 accepted (400 texts), 0 refused; from 2 stores\n")


def test_a_folder_that_was_not_there(run, fake, here):
    tree("pages", {"%d" % number: b"%d" % number for number in range(10)})
    scan(run, fake(FAKE), "pages", "0.db", "--shard", "0/2")
    scan(run, fake(FAKE), "pages", "1.db", "--shard", "1/2")
    os.rename("pages", "away")
    assert run(["scan", "pages", "-o", "1.db", "--shard", "1/2"], program=fake(FAKE)).returncode == 3
    lack = "1.db: isn't finished: its scan couldn't read %s/pages: No such file or directory" % here
    refused(run, ["all.db", "0.db", "1.db"], lack, "all.db: " + NOT_MADE)
    os.rename("away", "pages")
    scan(run, fake(FAKE), "pages", "1.db", "--shard", "1/2")
    assert run(["scan", "--merge", "-o", "all.db", "0.db", "1.db"]).stdout == (
        b"10 files: 10 accepted (10 texts), 0 refused; from 2 stores\n")


def test_parts_that_lack(run, fake, here):
    tree("pages", {"%d" % number: b"%d" % number for number in range(40)})
    for number in (0, 3):
        scan(run, fake(FAKE), "pages", "%d.db" % number, "--shard", "%d/9" % number)
    lack = "0.db: parts 1/9, 2/9, 4/9, 5/9, 6/9 and 2 more of %s/pages aren't among the stores" % here
    refused(run, ["all.db", "0.db", "3.db"], lack, "all.db: " + NOT_MADE)
    said = run(["scan", "--merge", "-o", "all.db", "0.db", "3.db", "--force"])
    assert (told(said), said.returncode) == ([lack], 1)
    assert b"left:            what the scan hasn't reached" in run(["files", "all.db"]).stdout


def test_stores_that_may_have_the_same_files(run, fake, here):
    tree("pages", {"a/b": b"b", "c": b"c"})
    program = fake(FAKE)
    for store, folder, words in (("whole.db", "pages", []), ("again.db", "pages", []), ("a.db", "pages/a", []),
                                 ("0.db", "pages", ["--shard", "0/2"]), ("1.db", "pages", ["--shard", "1/2"]),
                                 ("third.db", "pages", ["--shard", "1/3"])):
        scan(run, program, folder, store, *words)
    shutil.copy("0.db", "copy.db")
    for one, other, folder in (("whole.db", "again.db", "pages"), ("whole.db", "a.db", "pages/a"),
                               ("0.db", "copy.db", "pages"), ("0.db", "third.db", "pages"),
                               ("whole.db", "0.db", "pages"), ("1.db", "1.db", "pages")):
        refused(run, ["all.db", one, other], "%s: may hold the same files as %s, of %s/%s" % (other, one, here, folder))
        said = run(["equal", one, other, "--skip", "copies"])
        assert (said.returncode, said.stdout) == (3, b"") and b" may hold the same files as " in said.stderr


def test_stores_of_folders_that_stand_apart(run, fake, here):
    tree("one", {"a": b"a", "b/c": b"bad"})
    tree("one more", {"a": b"a too", "copy": b"bad"})
    program = fake(FAKE)
    scan(run, program, "one", "1.db")
    scan(run, program, "one more", "2.db")
    assert run(["scan", "--merge", "-o", "all.db", "1.db", "2.db"]).stdout == (
        b"4 files: 2 accepted (2 texts), 2 refused; from 2 stores\n")
    run(["scan", "one", "one more", "-o", "both.db"], program=program)
    assert every_table("all.db") == every_table("both.db")


@pytest.mark.parametrize("kind", ["store", "file", "folder", "link to nowhere"])
def test_an_existing_file_is_not_written_over(run, here, kind):
    made_up("part.db", 0, 20)
    if kind == "store":
        made_up("all.db", 0, 20)
    elif kind == "file":
        tree(".", {"all.db": b"mine"})
    elif kind == "folder":
        os.mkdir("all.db")
    else:
        os.symlink("nowhere", "all.db")
    refused(run, ["all.db", "part.db"], "all.db: is there already, and isn't written over")


def test_what_is_no_store(run, here):
    made_up("part.db", 0, 20)
    made_up("other.db", 0, 20)
    alter("other.db", "UPDATE meta SET value = 4 WHERE key = 'schema'")
    alter("foreign.db", "CREATE TABLE other(x)")
    tree(".", {"text.db": b"what is this?" * 100, "short.db": open("part.db", "rb").read()[:5000]})
    os.mkdir("folder.db")
    for name, reason in (("other.db", "is a store of schema 4, and this tool knows schemas 2 and 3"),
                         ("foreign.db", "is a database of something else, and no store of naplps-pages"),
                         ("text.db", NO_STORE), ("short.db", "database disk image is malformed"),
                         ("folder.db", FOLDER_NO_STORE), ("none.db", "No such file or directory")):
        refused(run, ["all.db", "part.db", name], "%s: %s" % (name, reason))
        said = run(["equal", "part.db", name, "--skip", "copies"])
        assert (told(said), said.stdout, said.returncode) == (["%s: %s" % (name, reason)], b"", 3)
    refused(run, ["no/all.db", "part.db"], "no/all.db: No such file or directory")


def test_a_store_into_which_nothing_was_scanned(run, here):
    made_up("part.db", 0, 20)
    alter("part.db", "DELETE FROM runs; DELETE FROM files; DELETE FROM pages; DELETE FROM roots; DELETE FROM folders; "
                     "DELETE FROM terms")
    refused(run, ["all.db", "part.db"], "part.db: nothing was scanned into it", "all.db: " + NOT_MADE)
    said = run(["scan", "--merge", "-o", "all.db", "part.db", "--force"])
    assert (said.stdout, said.returncode) == (b"0 files: 0 accepted, 0 refused; from 1 store\n", 1)
    assert run(["equal", "part.db", "all.db", "--skip", "copies"]).stdout == b""


@pytest.fixture(scope="module")
def kept(tmp_path_factory):
    """Two parts that take a while."""
    return made_up_parts(tmp_path_factory.mktemp("kept"), 2, 20_000)


@pytest.fixture
def large(kept, here):
    """Two parts that take a while, in the current folder."""
    return [os.path.basename(shutil.copy(each, here)) for each in kept]


@pytest.mark.parametrize("number", [signal.SIGKILL, signal.SIGTERM, signal.SIGINT])
def test_a_merge_that_is_ended_amid(naplps, run, large, number):
    before = contents()
    merge = start(["scan", "--merge", "-o", "all.db", *large], naplps)
    wait_until(lambda: os.path.exists("all.db.new") and os.path.getsize("all.db.new") > 100_000, merge)
    merge.send_signal(number)
    assert merge.communicate() == (b"", b"") and merge.returncode == -number
    after = contents()
    assert {name: after[name] for name in before} == before and "all.db" not in after
    if number != signal.SIGKILL:
        assert after == before
    said = run(["scan", "--merge", "-o", "all.db", *large])
    assert (said.stdout, said.returncode) == ((
        b"40000 files: 40000 accepted (40000 pages), 0 refused; from 2 stores\n"), 0)
    assert is_sound("all.db") and {*contents()} == {*before, "all.db"}


def test_a_full_disk(run, here, small_disk):
    some = made_up_parts(".", 2, 5000)
    into = os.path.join(small_disk, "all.db")
    said = run(["scan", "--merge", "-o", into, *some])
    assert (told(said), said.returncode) == (["%s: database or disk is full" % into], 3)
    assert os.listdir(small_disk) == []


def test_one_at_a_time(run, here):
    made_up("part.db", 0, 20)
    with Lock("all.db"):
        refused(run, ["all.db", "part.db"], "all.db: another process is at work on it: process %d" % os.getpid())


def test_parts_that_may_only_be_read(run, here):
    some = made_up_parts(".", 2, 100)
    for name in some:
        os.chmod(name, 0o444)
    assert run(["scan", "--merge", "-o", "all.db", *some]).returncode == 0
    assert sorted(os.listdir(".")) == ["0.db", "1.db", "all.db"]


# The command, which tells how far it is at each look.
TELLING = ("from naplps_pages.__main__ import run; from naplps_pages.collection import progress; "
           "progress.OFTEN = 1e-9; run(%r)" % COMMAND)


def test_progress_on_a_terminal(naplps, large):
    if not shutil.which("script"):
        pytest.skip("there is no command script")
    words = [sys.executable, "-c", TELLING, "scan", "--merge", "-o", "all.db", *large]
    said = subprocess.run(["script", "-qec", " ".join(map(shlex.quote, words)), "/dev/null"], capture_output=True,
                          env=dict(os.environ, NAPLPS=naplps, PYTHONPATH=PACKAGES))
    told_of = re.findall(rb"\r\x1b\[K([0-9]+) of 9 MiB, [0-9,]+ a second", said.stdout)
    assert told_of and [int(each) for each in told_of] == sorted(int(each) for each in told_of)
    assert said.returncode == 0 and said.stdout.endswith((
        b"40000 files: 40000 accepted (40000 pages), 0 refused; from 2 stores\r\n"))


def test_more_stores_than_files_may_be_open(naplps, here):
    some = made_up_parts(".", 60, 5)
    merge = [COMMAND, "scan", "--merge", *some, "-o", "all.db"]
    said = subprocess.run(["sh", "-c", 'ulimit -S -n 40; exec "$@"', "sh", *merge],
                          capture_output=True, env=dict(os.environ, NAPLPS=naplps))
    assert (said.stdout, said.stderr) == (b"300 files: 300 accepted (300 pages), 0 refused; from 60 stores\n", b"")
