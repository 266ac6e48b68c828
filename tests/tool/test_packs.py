"""Pages in packs: the same answers as for the same files in folders, what is known again, and each command on them."""
import hashlib
import json
import os
import shutil
import signal
import sqlite3
import tarfile
from collections import namedtuple
from contextlib import closing

import pytest

from naplps.client import Client
from naplps_pages.collection import tables
from naplps_pages.packs import named
from naplps_pages.report.drawing import DrawingLimits, draw
from naplps_pages.report.questions import Questions
from packers import add, entry, pack, written, zip_of
from reports import held
from samples import OUTSIDE, POINT, SPELLED, with_parity
from scans import FAKE, children, count, is_sound, mixed, rows, slow, start, statuses, table, tree, wait_until
from stores import earlier

FILES = {"a": POINT, "b": SPELLED, "c": POINT, "sub/bad": OUTSIDE, "sub/parity": with_parity(POINT), "empty": b""}


@pytest.fixture
def store(tmp_path):
    return os.path.join(str(tmp_path), "pages.db")


@pytest.fixture
def at(tmp_path):
    """Where packs are made."""
    return tree(os.path.join(str(tmp_path), "archive"), {"other": b"\x18"})


def scan(run, *words, **more):
    said = run(["scan", *words], **more)
    assert b"Traceback" not in said.stderr
    return said


# A file as the view for people shows it, without its name.
ListingRow = namedtuple("ListingRow", "status number code place entries size hash canonical canonical_size reason")


def answers(store, front):
    """What is known of each file below a folder or in a pack, by its name there."""
    found = rows(store, f"SELECT CAST(name AS BLOB), {', '.join(ListingRow._fields)} FROM listing")
    front = os.fsencode(front)
    return {name[len(front):]: ListingRow(*rest) for name, *rest in found if name.startswith(front)}


def groups(run, store, front):
    """The groups of equal pages, by names without what stands before them."""
    found = [json.loads(line) for line in run(["equal", store, "--json"]).stdout.splitlines()]
    return [(each["canonical"], [(one["hash"], [name["name"][len(front):] for name in one["files"]])
                                 for one in each["spellings"]]) for each in found]


@pytest.mark.parametrize("ending, keeps", [(".tar", ""), (".tar.gz", "repair"), (".TGZ", ""), (".zip", "repair")])
def test_the_same_answers_as_for_files_in_folders(run, tmp_path, ending, keeps):
    files = mixed(450)
    top, path = tree(tmp_path / "pages", files), pack(tmp_path / ("pages" + ending), files)
    plain, packed = str(tmp_path / "plain.db"), str(tmp_path / "packed.db")
    said = scan(run, top, "-o", plain, keeps=keeps)
    again = scan(run, path, "-o", packed, keeps=keeps)
    assert again.stdout == said.stdout.replace(b" asked about", b" asked about; 1 pack")
    assert (again.stderr, again.returncode) == (b"", 0)
    wanted = answers(plain, top + "/")
    assert len(wanted) == 450 and answers(packed, path + "!") == wanted
    assert groups(run, packed, path + "!") == groups(run, plain, top + "/")
    if keeps:
        told = [json.loads(line) for line in run(["files", packed, "--refused", "--json"]).stdout.splitlines()]
        assert any(each["treatments"] == "parity" for each in told)


@pytest.mark.parametrize("form", [tarfile.USTAR_FORMAT, tarfile.GNU_FORMAT, tarfile.PAX_FORMAT])
def test_names_of_all_kinds(run, tmp_path, store, at, form):
    names = [b"\xff.nap", b"a\nb", b"quote\"'", b"!", b"a!/b", "\u202e".encode(), b"%", b" ", b"-x",
             b"deep/" * 20 + b"x"]
    if form != tarfile.USTAR_FORMAT:
        names += [b"long" * 60, b"folder/" * 40 + b"\xe9"]
    files = {os.fsdecode(name): b"\x0f%d" % number for number, name in enumerate(names)}
    path = pack(os.path.join(at, "pack.tar"), files, format=form, errors="surrogateescape")
    assert scan(run, path, "-o", store).returncode == 0
    assert {name: each.hash for name, each in answers(store, path + "!").items()} == {
        os.fsencode(name): hashlib.sha256(data).hexdigest() for name, data in files.items()}
    for name in run(["equal", store, "--print0"]).stdout.split(b"\0"):
        assert not name or run(["check", os.fsdecode(name)]).returncode == 0


def test_names_of_a_zip_file(run, at, store):
    some = [entry(b"dos\x82.nap", b"\x0fA", 2, 0), entry("utf\u00e9".encode(), b"\x0fB", 2, 0, flags=1 << 11)]
    path = written(os.path.join(at, "pack.zip"), zip_of(some))
    assert scan(run, path, "-o", store).returncode == 0
    assert set(answers(store, path + "!")) == {b"dos\x82.nap", "utf\u00e9".encode()}
    assert run(["check", os.fsdecode(os.fsencode(path) + b"!dos\x82.nap")]).stdout == b"accepted 1 entries (text)\n"


def test_names_are_whole_and_without_what_says_nothing():
    assert [named(raw) for raw in (b"a", b"./a", b"a//b/./c", b"...", b"a/")] == [
        (b"a", None), (b"a", None), (b"a/b/c", None), (b"...", None), (b"a", None)]
    for raw in (b"", b".", b"/a", b"../a", b"a/../b", b"a/..", b"a\0b", b"x" * 4097):
        assert named(raw)[1]


def test_packs_below_a_folder_and_named(run, at, store):
    tree(at, {"page": POINT, "deep/in/page": SPELLED, "folder.zip/page": POINT})
    for name in ("b.tar", "deep/in/c.zip", "deep/d.tgz"):
        pack(os.path.join(at, name), {"x/y": OUTSIDE, "z": b"\x0fz"})
    os.symlink("b.tar", os.path.join(at, "link.tar"))
    os.mkfifo(os.path.join(at, "fifo.zip"))
    said = scan(run, at, "-o", store)
    assert said.stdout == (
        b"12 files: 6 accepted (3 pages, 3 texts), 4 refused, 2 not regular files; 0 known, 5 pages asked about; "
        b"3 packs\n") and said.returncode == 0
    assert b"; 10 known, 0 pages asked about; 3 packs\n" in scan(run, at, "-o", store).stdout
    names = {os.path.relpath(name, at) for name, in rows(store, "SELECT name FROM listing")}
    assert {"b.tar!x/y", "deep/in/c.zip!z", "deep/d.tgz!x/y", "folder.zip/page", "link.tar", "fifo.zip"} < names
    other = store + ".other"
    named_too = [os.path.join(at, name) for name in ("link.tar", "deep", "deep/d.tgz")]
    said = scan(run, *named_too, "-o", other)
    assert said.stdout.endswith(b"; 0 known, 3 pages asked about; 3 packs\n") and said.returncode == 0
    assert set(answers(other, os.path.join(at, "link.tar!"))) == {b"x/y", b"z"}


def test_a_pack_that_is_unchanged_is_not_read_again(run, at, store):
    path = pack(os.path.join(at, "pack.tgz"), FILES)
    scan(run, at, "-o", store)
    said = scan(run, at, "-o", store)
    assert said.stdout == b"7 files: 4 accepted (3 pages, 1 blank), 3 refused; 7 known, 0 pages asked about; 1 pack\n"
    runs = "SELECT DISTINCT f.run FROM files f JOIN folders d ON d.id = f.folder WHERE substr(d.path, -2) = x'212F'"
    assert rows(store, runs) == [(1,)]
    os.utime(path, (1, 1))                                      # (read again, but its bytes are known)
    assert b"; 1 known, 0 pages asked about" in scan(run, at, "-o", store).stdout
    assert rows(store, runs) == [(3,)]
    assert b"; 0 known, 6 pages asked about" in scan(run, at, "-o", store, "--rescan").stdout
    assert b"; 0 known, 6 pages asked about" in scan(run, at, "-o", store, "--budget", "7").stdout
    assert b"; 7 known, 0 pages asked about" in scan(run, at, "-o", store, "--budget", "7").stdout


def test_members_and_packs_that_change_and_that_are_gone(run, at, store):
    one, two = (pack(os.path.join(at, name), FILES) for name in ("one.tar", "two.zip"))
    scan(run, at, "-o", store)
    pack(one, {"a": b"\x18", "new": POINT, "sub/bad": OUTSIDE})
    os.unlink(two)
    said = scan(run, at, "-o", store)
    assert said.stdout.endswith(b"; 1 known, 0 pages asked about; 10 gone; 1 pack\n") and said.returncode == 0
    found = answers(store, one + "!")
    assert {name for name, each in found.items() if each.status == "gone"} == {b"b", b"c", b"empty", b"sub/parity"}
    assert {each.status for each in answers(store, two + "!").values()} == {"gone"}
    pack(two, FILES)
    scan(run, at, "-o", store)
    assert "gone" not in {each.status for each in answers(store, two + "!").values()}
    os.unlink(two)                                              # (a pack that is named and isn't there marks nothing)
    before = table(store)
    said = scan(run, two, "-o", store)
    assert said.stderr.decode() == "naplps-pages: %s: No such file or directory\n" % two
    assert said.returncode == 3 and table(store) == before


def test_a_file_that_was_taken_for_a_page_before(run, at, store):
    path = pack(os.path.join(at, "pack.tar"), FILES)
    os.rename(path, path + ".page")
    scan(run, at, "-o", store)
    os.rename(path + ".page", path)
    said = scan(run, at, "-o", store)
    assert said.stdout.endswith(b"; 1 gone; 1 pack\n") and len(answers(store, path + "!")) == len(FILES)


def test_what_is_too_long_is_read_once_that_is_allowed(run, at, store):
    path = pack(os.path.join(at, "pack.tar"), {
        "short": POINT, "long": b"\x0f" + b"A" * 100, "more": bytes((16 << 20) + 1)})
    assert b"2 too long; 0 known" in scan(run, path, "-o", store, "--max-size", "50").stdout
    assert b"2 too long; 3 known" in scan(run, path, "-o", store, "--max-size", "50").stdout
    assert b"1 too long; 0 known, 1 page asked" in scan(run, path, "-o", store, "--max-size", str(1 << 30)).stdout
    assert b"1 too long; 3 known" in scan(run, path, "-o", store, "--max-size", str(1 << 30)).stdout
    assert statuses(store)["pack.tar!more"] == ("too long", "16777217 bytes")


def test_killed_amid_a_pack_and_resumed(run, fake, at, store):
    path = pack(os.path.join(at, "pack.tgz"), {"%d" % number: b"page %d" % number for number in range(3000)})
    go = os.path.join(at, "..", "go")
    program, taken = fake(slow(0.003, go)), 0
    for least in (1, 1000):
        it = start(["scan", path, "-o", store], program)
        wait_until(lambda: rows_asked(store) >= least, it)
        it.kill()
        it.communicate()
        assert is_sound(store) and taken <= rows_asked(store) < 3000
        taken = rows_asked(store)
    open(go, "wb").close()
    said = scan(run, path, "-o", store, program=program)
    assert b"3000 files: 3000 accepted" in said.stdout and b" %d pages asked about" % (3000 - taken) in said.stdout
    other = store + ".other"
    scan(run, path, "-o", other, program=fake(FAKE))
    assert table(store) == table(other)


def rows_asked(store):
    """How many pages a store has, also while it is made."""
    try:
        return rows(store, "SELECT count(*) FROM pages")[0][0]
    except sqlite3.Error:
        return 0


def test_a_signal_amid_a_pack_stops_in_order(run, fake, at, store):
    path = pack(os.path.join(at, "pack.tgz"), {"%d" % number: b"page %d" % number for number in range(3000)})
    it = start(["scan", path, "-o", store], fake(slow(0.02)))
    wait_until(lambda: rows_asked(store) > 0, it)
    it.send_signal(signal.SIGINT)
    _, told = it.communicate()
    assert (told, it.returncode) == (
        b"naplps-pages: stopped; what was taken is kept, and the same command goes on\n", -signal.SIGINT)
    assert 0 < count(store) < 3000
    assert b"3000 files: 3000 accepted" in scan(run, path, "-o", store, program=fake(FAKE)).stdout


def test_a_worker_that_is_killed_amid_a_pack_costs_nothing(run, fake, at, store):
    path = pack(os.path.join(at, "pack.tgz"), {"%d" % number: b"page %d" % number for number in range(1500)})
    go = os.path.join(at, "..", "go")
    it = start(["scan", path, "-o", store, "--jobs", "2"], fake(slow(0.02, go)))
    wait_until(lambda: rows_asked(store) > 0 and children(it.pid), it)
    os.kill(children(it.pid)[0], signal.SIGKILL)
    open(go, "wb").close()
    out, told = it.communicate()
    assert (told, it.returncode) == (b"", 0) and out.startswith(b"1500 files: 1500 accepted (1500 texts)")
    assert b" gone" not in out


def test_a_page_that_ends_its_worker(run, fake, at, store):
    path = pack(os.path.join(at, "pack.tar"), {"a": b"page", "b": b"kill its parent", "c": b"page c"})
    tree(at, {"other": b"page too"})
    said = scan(run, at, "-o", store, "--jobs", "2", program=fake(FAKE))
    reason = "the worker that looked at it ended by SIGKILL"
    assert said.stderr.decode() == "naplps-pages: %s: %s\n" % (path, reason) and said.returncode == 3
    assert statuses(store)["pack.tar"] == ("unreadable", reason) and statuses(store)["other"] == ("accepted", None)


def test_a_pack_that_grows_while_it_is_read(run, fake, at, store):
    path = pack(os.path.join(at, "pack.tar"), {"%d" % number: b"page %d" % number for number in range(600)})
    go = os.path.join(at, "..", "go")
    it = start(["scan", path, "-o", store], fake(slow(0.05, go)))
    wait_until(lambda: children(it.pid), it)
    wait_until(lambda: rows_asked(store) > 0, it)
    with open(path, "ab") as file:
        file.write(bytes(10240))
    open(go, "wb").close()
    _, told = it.communicate()
    assert told.decode() == "naplps-pages: %s: it grew while it was read\n" % path and it.returncode == 3
    said = scan(run, path, "-o", store, program=fake(FAKE))
    assert b"600 files: 600 accepted (600 texts), 0 refused; 0 known" in said.stdout and said.returncode == 0


@pytest.mark.skipif(os.geteuid() != 0, reason="only root can be another user")
def test_a_pack_that_can_not_be_read(run_as_nobody, tmp_path):
    work = tree(os.path.join(str(tmp_path), "work"), {"pages/page": POINT})
    path, store = pack(os.path.join(work, "pages", "pack.zip"), FILES), os.path.join(work, "pages.db")
    os.chown(work, 65534, 65534)
    run_as_nobody("scan", "pages", "-o", store, cwd=work)
    os.chmod(path, 0)
    said = run_as_nobody("scan", "pages", "-o", store, cwd=work)
    assert said.stderr.decode() == "naplps-pages: %s: Permission denied\n" % path and said.returncode == 3
    assert "gone" not in {each.status for each in answers(store, path + "!").values()}
    os.chmod(path, 0o644)
    said = run_as_nobody("scan", "pages", "-o", store, cwd=work)
    assert said.returncode == 0 and said.stdout.startswith(b"7 files: ")


@pytest.mark.parametrize("ending", [".tar", ".tgz", ".zip"])
def test_each_command_reads_members_again(run, naplps, at, store, ending):
    path = pack(os.path.join(at, "pack" + ending), FILES)
    scan(run, at, "-o", store)
    said = run(["equal", store, "--skip", "copies", "--verify"])
    assert (said.stderr, said.returncode) == (b"", 0) and "  1: %s!" % path in said.stdout.decode()
    into = os.path.join(os.path.dirname(at), "canonical")
    said = run(["canon", store, "-o", into])
    assert (said.stderr, said.returncode) == (b"", 0) and b" written, 0 there\n" in said.stdout
    html = os.path.join(os.path.dirname(at), "report.html")
    said = run(["report", store, "-o", html])
    assert (said.stderr, said.returncode) == (b"", 0)
    plain = tree(os.path.join(os.path.dirname(at), "plain"), FILES)
    for command in (["check"], ["check", "--explain"], ["show", "--format", "text"], ["fix"], ["list"], ["show"],
                    ["canon"]):
        names = ["sub/parity"] if command in (["show"], ["canon"]) else list(FILES)
        got, wanted = (run([*command, *(front + name for name in names)]) for front in (path + "!", plain + "/"))
        assert got.returncode == wanted.returncode < 3 and b"Traceback" not in got.stderr
        # (a shell needs quotes around the name of a member)
        told = got.stdout.replace(os.fsencode(path) + b"!", os.fsencode(plain) + b"/").replace(b"'", b"")
        assert told == wanted.stdout.replace(b"'", b"")


def test_a_report_of_packs(run, naplps, at, store):
    pack(os.path.join(at, "sub.tar"), FILES)
    scan(run, at, "-o", store)
    html = store + ".html"
    run(["report", store, "-o", html])
    found, _ = held(html)
    assert "sub.tar!/" in found["folders"] and "sub/bad" in found["columns"]["name"]
    assert len(found["columns"]["name"]) == 7 and all(each >= 0 for each in found["columns"]["sketch"])
    with closing(Questions(store)) as questions, closing(Client(naplps)) as client:
        told = questions.ask("files", {"text": "tar!sub/b", "from": "0", "count": "9"})
        assert [each["name"] for each in told["files"]] == ["sub.tar!sub/bad"]
        it = questions.drawing_task({"key": told["files"][0]["key"]})
        assert it and draw(client, it, DrawingLimits(1 << 20, 1000, 10)).why == ""


@pytest.mark.parametrize("ending", [".tar", ".tgz", ".zip"])
def test_a_pack_that_is_not_as_it_was(run, at, store, ending):
    path = pack(os.path.join(at, "pack" + ending), FILES)
    scan(run, at, "-o", store)
    moved = {"front": b"another", "a": POINT, "b": b"\x18", "sub/bad": OUTSIDE}
    pack(path, moved)                                           # (one is elsewhere now, one is another, one is gone)
    said = run(["equal", store, "--verify"])
    told = said.stderr.decode()
    assert said.returncode == 1 and "%s!a:" % path not in told
    assert "%s!b: it isn't as it was when it was scanned\n" % path in told
    assert "%s!c: the pack has no such member\n" % path in told
    shutil.move(path, path + ".away")
    said = run(["canon", store, "-o", os.path.join(os.path.dirname(at), "canonical")])
    assert "%s!a: No such file or directory\n" % path in said.stderr.decode() and said.returncode == 1


@pytest.mark.parametrize("length", [255, 256, 300, 4096])
def test_names_that_are_longer_than_those_of_files(run, at, store, length):
    path, name = os.path.join(at, "long.tar"), "n" * length
    pack(path, {name: POINT, "d/" + "e" * (length - 2): POINT})
    assert scan(run, at, "-o", store).returncode == 0
    for each in (name, "d/" + "e" * (length - 2)):
        said = run(["check", "%s!%s" % (path, each)])
        assert (said.returncode, said.stderr) == (0, b"") and said.stdout.startswith(b"accepted 1 entries")
    assert run(["equal", store, "--verify"]).returncode == 0


def test_a_store_of_an_earlier_version(run, at, store):
    tree(at, {"page": POINT})
    scan(run, at, "-o", store + ".new")
    earlier(store + ".new", store)
    assert run(["equal", store, "--skip", "copies"]).returncode == 0
    pack(os.path.join(at, "pack.tar"), FILES)
    assert scan(run, at, "-o", store).returncode == 0
    assert statuses(store)["pack.tar!a"] == ("accepted", None)
    assert rows(store, "SELECT value FROM meta WHERE key = 'schema'") == [(str(tables.SCHEMA),)]


def test_parts_have_packs_as_a_whole(run, at, store):
    for number in range(6):
        pack(os.path.join(at, "%d.tar" % number), {"%d" % each: b"\x0f%d %d" % (number, each) for each in range(5)})
    found = set()
    for part in ("0/3", "1/3", "2/3"):
        into = store + part[0]
        assert scan(run, at, "-o", into, "--shard", part).returncode == 0
        some = {name for name, in rows(into, "SELECT name FROM listing")}
        assert not found & some
        found |= some
        assert all(number in (0, 5) for number in [
            sum(1 for name in some if "/%d.tar!" % each in name) for each in range(6)])
    assert len(found) == 31
    parts = [store + number for number in "012"]
    assert run(["scan", "--merge", *parts, "-o", store]).returncode == 0
    assert scan(run, at, "-o", store + ".whole").returncode == 0
    assert table(store) == table(store + ".whole")
    pack(os.path.join(at, "0.tar"), {"moved": POINT, "0": b"\x0f0 0"})
    said = run(["equal", *parts, "--verify"])
    assert (said.stdout, said.returncode) == (b"", 0)


def test_commands_on_members_that_are_not_there(run, at):
    path = pack(os.path.join(at, "pack.tar"), {"a": POINT, "long": bytes((16 << 20) + 1)})
    with tarfile.open(path, "a") as out:
        add(out, "a", SPELLED)
    for name, reason in (("pack.tar!b", "the pack has no such member"), ("pack.tar!", "the pack has no such member"),
                         ("none.tar!a", "No such file or directory"), ("other!a", "No such file or directory"),
                         ("pack.tar!a", "the pack has several members of this name"),
                         ("pack.tar!long", "16777217 bytes")):
        said = run(["check", os.path.join(at, name)])
        told = "naplps-pages: %s: %s\n" % (os.path.join(at, name), reason)
        assert (said.stderr.decode(), said.returncode) == (told, 3)
    tree(at, {"pack.tar!b": POINT})                             # (a file of that very name is what is meant)
    assert run(["check", os.path.join(at, "pack.tar!b")]).stdout == b"accepted 1 entries\n"
