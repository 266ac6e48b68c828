"""The command box: what it makes is what the single commands make of the same files, in one run that opens each file
once, whatever ends it.

KILLED names how often a run is ended at a moment by chance, and BOXED how many files the box has.
"""
import hashlib
import json
import os
import re
import resource
import shutil
import signal
import subprocess
from collections import Counter
from random import Random

import pytest

from box_runs import FOLDERS, box_words, note_of, table
from command import COMMAND, file
from folders import files_in
from forked import forked
from gallery import stored
from mixed_box import write
from naplps_pages.box import making
from reports import held
from samples import POINT, SPELLED, has
from scans import every_table, start, tree, wait_until
from spelled import image_with_logo, logo

KILLED, BOXED = int(os.environ.get("KILLED", "6")), int(os.environ.get("BOXED", "160"))
needs_strace = pytest.mark.skipif(not has("strace"), reason="there is no strace")
# The program, which writes down what it is asked.
LOGS = r"""
import hashlib, subprocess
real = {!r}
if sys.argv[1:] != ["batch"]:
    os.execv(real, [real, *sys.argv[1:]])
child = subprocess.Popen([real, "batch"], stdin=subprocess.PIPE)
log = os.open({!r}, os.O_WRONLY | os.O_APPEND | os.O_CREAT)
for line in iter(sys.stdin.buffer.readline, b""):
    call, _, length = line.split()
    page = sys.stdin.buffer.read(int(length))
    os.write(log, b"%s %s\n" % (call, hashlib.sha256(page).hexdigest().encode()))
    child.stdin.write(line + page)
    child.stdin.flush()
"""

# The files of a box, and those that are the same bytes whenever it is made.
FILES = {"box.db", "box.json", "kept.db", "index.html", "files.csv", "cut.csv"}


@pytest.fixture(scope="module")
def mixed(naplps, tmp_path_factory):
    """A folder of files of all kinds."""
    folder = str(tmp_path_factory.mktemp("disks"))
    write(folder, BOXED, 1992, naplps)
    return folder


@pytest.fixture(scope="module")
def place(mixed, naplps, tmp_path_factory):
    """The box of these files, and what was printed."""
    made = str(tmp_path_factory.mktemp("made") / "box")
    ran = subprocess.run([COMMAND, "box", mixed, "-o", made], capture_output=True, timeout=900,
                         env=dict(os.environ, NAPLPS=naplps))
    assert (ran.returncode, ran.stderr) == (0, b""), ran
    return made, ran.stdout.decode()


def byte_of(escape):
    """The byte that strace shows so."""
    digits = escape[1]
    return bytes([int(digits[1:], 16) if digits.startswith(b"x") else int(digits, 8)])


def without_dates(report):
    """A report without the time of its scan."""
    return re.sub(rb"<time>[^<]*</time>", b"", report)


def tables_of(place):
    """The tables of its store, and its files but these, as they are independent of when it was made and in how many
    runs."""
    tables = every_table(os.path.join(place, "box.db"))
    files = {name: data for name, data in files_in(place).items() if name not in (b"box.db", b"kept.db")}
    files[b"index.html"] = without_dates(files[b"index.html"])
    assert len(tables.pop("runs")) > 0
    tables["roots"] = sorted(set(tables["roots"]))
    return {name: [row[:-1] if name in ("folders", "pages", "files") else row for row in rows]
            for name, rows in tables.items()}, {name: hashlib.sha256(data).hexdigest() for name, data in files.items()}


def separately(run, folder, into):
    """What the single commands make of a folder."""
    store = os.path.join(into, "box.db")

    def ran(*words, statuses=(0, 1)):
        got = run([*words], keeps="words repair")
        assert got.returncode in statuses, got
        return got.stdout
    ran("scan", folder, "-o", store, statuses=(0,))
    file(into, "files.csv", ran("files", store, "--csv"))
    ran("canon", store, "-o", os.path.join(into, "canonical"), statuses=(0,))
    ran("fix", store, "--only", "repair", "-o", os.path.join(into, "readable"))
    ran("fix", store, "--only", "split", "-o", os.path.join(into, "captures"))
    some = list(map(json.loads, ran("files", store, "--json", "--refused").splitlines()))
    cut = files_in(os.path.join(into, "captures"))
    captures = {json.loads(data)["source"]["sha256"] for name, data in cut.items() if name.endswith(b".json")}
    names = [os.fsdecode(bytes.fromhex(it["name_hex"])) if "name_hex" in it else it["name"] for it in some
             if it["treated_hash"] is None and it["hash"] not in captures]
    assert any(it["looks_like"] == "disk of DOS" for it in some)
    ran("fix", "--only", "carve", *names, "-o", os.path.join(into, "carved"))
    ran("report", store, "-o", os.path.join(into, "index.html"), statuses=(0,))


def test_it_makes_what_the_single_commands_make(run, mixed, place, tmp_path):
    separately(run, mixed, str(tmp_path))
    made, _ = place
    assert set(os.listdir(made)) == FILES | set(FOLDERS)
    for folder in FOLDERS:
        one, other = files_in(tmp_path / folder), files_in(os.path.join(made, folder))
        assert len(one) > 5 and set(one) == set(other), folder
        assert one == other, folder
    rows = table(made, "files.csv")
    assert [row.pop("readable") != "" for row in rows] == [row["treated_hash"] != "" for row in rows]
    assert table(tmp_path, "files.csv") == rows
    one, other = (without_dates(files_in(each)[b"index.html"]) for each in (tmp_path, made))
    assert one == other
    tables = [every_table(os.path.join(str(each), "box.db")) for each in (tmp_path, made)]
    for each in tables:
        each.pop("runs")
    assert tables[0] == tables[1]


def test_its_ten_lines_are_right_to_the_number(place):
    made, told = place
    lines = told.splitlines()
    numbers = {line.split(":")[0]: list(map(int, re.findall(r"\d+", line.split(":", 1)[1]))) for line in lines}
    rows = table(made, "files.csv")
    accepted = [row for row in rows if row["status"] == "accepted"]
    kinds = [sum(row["kind"] == kind for row in accepted) for kind in ("page", "text", "blank")]
    captures = [row for row in rows if row["kind"] == "capture"]
    copies = [row for row in rows if row["treated_hash"]]
    refused = [row for row in rows if row["status"] == "refused" and not row["treatments"] and not row["kind"]]
    cut = table(made, "cut.csv")
    carved = [row for row in cut if row["how"] == "carve"]
    assert len(lines) == 10
    assert numbers["files"] == [len(rows)]
    assert numbers["accepted"] == [len(accepted), *kinds]
    assert numbers["captures"] == [len(captures), sum(row["how"] == "split" for row in cut)]
    assert numbers["readable copies"] == [len(copies), sum(row["grade"] == "within" for row in copies)]
    assert numbers["carved"] == [len(carved), len({row["source"] for row in carved})]
    canonical = [row["canonical"] for row in accepted]
    groups = {each for each in canonical if canonical.count(each) > 1}
    drawn = Counter([*canonical, *(row["treated_canonical"] for row in copies)])
    with_copies = [own for own, number in drawn.items() if number > 1]
    assert numbers["equal pages"] == [len(groups), len(with_copies), len(set(canonical))]
    assert len(groups) < len(with_copies) == len(held(os.path.join(made, "index.html"))[0]["groups"])
    assert numbers["other kinds"][0] == sum(bool(row["looks_like"]) for row in refused)
    assert numbers["not known"] == [sum(not row["looks_like"] for row in refused)]
    assert lines[8] == "not read:        nothing" and f"{made}/index.html" in lines[9]
    assert min(len(accepted), len(captures), len(copies), len(carved), len(groups), len(refused)) > 1


def test_pages_that_were_cut_stand_in_a_table_with_source_and_offset(mixed, place):
    made, _ = place
    files, sources, rows, looked = files_in(made), files_in(mixed), table(made, "cut.csv"), 0
    for row in rows:
        path, source = os.fsencode(row["path"]), os.fsencode(os.path.relpath(row["source"], mixed))
        if path in files and source in sources:
            at, length = int(row["offset"]), int(row["bytes"])
            assert files[path] == sources[source][at:at + length]
            looked += 1
    assert looked > len(rows) // 2 > 10
    assert len(rows) == sum(name.split(b"/")[0] in (b"captures", b"carved") and not name.endswith((b".json", b".csv"))
                            for name in files)


def test_again_it_asks_nothing_and_changes_nothing(run, mixed, place):
    made, told = place
    before, names = tables_of(made), sorted(files_in(made))
    ran = run(["box", mixed, "-o", made])
    assert (ran.returncode, ran.stderr, ran.stdout.decode()) == (0, b"", told)
    assert (tables_of(made), sorted(files_in(made))) == (before, names)


def test_a_folder_that_is_no_box_stays_as_it_is(run, mixed, tmp_path):
    file(tmp_path, "letter.txt", b"mine")
    ran = run(["box", mixed, "-o", str(tmp_path)])
    assert ran.returncode == 3 and b"isn't empty, and is no box of this tool: it has letter.txt" in ran.stderr
    assert files_in(tmp_path) == {b"letter.txt": b"mine"}


def test_a_file_of_somebody_else_in_place_of_one_of_its_own_stays(run, tmp_path):
    disks, place = tmp_path / "disks", tmp_path / "box"
    tree(disks, {"a.nap": POINT, "sick.nap": POINT + b"\x1a"})
    assert run(box_words(tmp_path)).returncode == 0
    for name in ("files.csv", "readable/sick.nap"):
        (place / name).write_bytes(b"mine")
    tree(disks, {"b.nap": SPELLED})
    ran = run(box_words(tmp_path))
    assert ran.returncode == 3 and ran.stderr.decode().splitlines() == [
        f"naplps-pages: {place}/{name}: isn't as the box made it, and isn't written over: move it away, and the same "
        "command makes it anew" for name in ("readable/sick.nap", "files.csv")]
    assert (place / "files.csv").read_bytes() == (place / "readable/sick.nap").read_bytes() == b"mine"
    for name in ("files.csv", "readable/sick.nap"):
        os.unlink(place / name)
    assert run(box_words(tmp_path)).returncode == 0
    assert len(table(place, "files.csv")) == 3
    assert (place / "readable" / "sick.nap").read_bytes() == POINT


def test_a_copy_of_a_file_that_changed_is_made_anew(run, tmp_path):
    for data, copy in ((POINT + b"\x1a", POINT), (SPELLED + b"\x1a\x1a", SPELLED)):
        tree(tmp_path / "disks", {"sick.nap": data})
        made_in(run, tmp_path)
        assert (tmp_path / "box" / "readable" / "sick.nap").read_bytes() == copy
        note = note_of(tmp_path / "box", "readable/sick.nap")
        assert note["source"]["sha256"] == hashlib.sha256(data).hexdigest()


@pytest.mark.parametrize("into", ["", ".", "below", "below/deeper", "link/box"])
def test_a_place_within_what_is_searched_is_refused(run, tmp_path, into):
    disks = tmp_path / "disks"
    tree(disks, {"a.nap": POINT, "below/b.nap": POINT})
    (tmp_path / "link").symlink_to(disks / "below")
    place = str(tmp_path / into) if into.startswith("link") else os.path.join(str(disks), into)
    ran = run(["box", str(disks), "-o", place])
    assert ran.returncode == 3 and f"stands in {disks}, of which it would be the box" in ran.stderr.decode()
    assert set(files_in(disks)) == {b"a.nap", b"below/b.nap"}


def test_a_folder_within_the_place_is_refused(run, tmp_path):
    tree(tmp_path, {"disks/a.nap": POINT})
    ran = run(["box", str(tmp_path / "disks"), "-o", str(tmp_path)])
    assert ran.returncode == 3 and b"a box has a folder of its own" in ran.stderr
    assert set(files_in(tmp_path)) == {b"disks/a.nap"}


def test_what_is_foreign_in_a_box_is_refused_before_anything_is_written(run, tmp_path):
    disks, place = tmp_path / "disks", tmp_path / "box"
    tree(disks, {"a.nap": POINT})
    tree(tmp_path, {"mine/letter": b"mine"})
    assert run(box_words(tmp_path)).returncode == 0
    tree(disks, {"b.nap": SPELLED, "sick.nap": POINT + b"\x1a"})
    before = files_in(place)

    def refused(name, why):
        ran = run(box_words(tmp_path))
        assert ran.returncode == 3 and f"{place}/{name}: {why}" in ran.stderr.decode(), ran
    os.symlink(tmp_path / "mine", place / "readable")
    refused("readable", "isn't a folder of the box, which has one of that name; move it away")
    os.unlink(place / "readable")
    for name in ("box.db", "kept.db", "index.html"):
        os.rename(place / name, tmp_path / "kept")
        os.symlink(tmp_path / "mine" / "letter", place / name)
        refused(name, "isn't a file of the box, which has one of that name; move it away")
        os.replace(tmp_path / "kept", place / name)
    os.rename(place / "box.json", tmp_path / "kept")
    for marker in (b"", b"{}", b"[1]", b"{" * 5000, b'{"what": "a box", "folders": []}', b"\xff"):
        (place / "box.json").write_bytes(marker)
        refused("box.json", "isn't the marker of a box of this tool")
    os.replace(tmp_path / "kept", place / "box.json")
    assert files_in(place) == before and files_in(tmp_path / "mine") == {b"letter": b"mine"}
    assert run(box_words(tmp_path)).returncode == 0


def test_a_box_of_other_folders_is_refused(run, tmp_path):
    for name in ("disks", "other"):
        tree(tmp_path / name, {"a.nap": POINT})
    assert run(box_words(tmp_path)).returncode == 0
    before = files_in(tmp_path / "box")
    ran = run(["box", str(tmp_path / "other"), "-o", str(tmp_path / "box")])
    assert ran.returncode == 3 and f"is the box of {tmp_path}/disks" in ran.stderr.decode()
    assert files_in(tmp_path / "box") == before


def test_folders_that_are_not_there_leave_nothing(run, tmp_path):
    ran = run(box_words(tmp_path))
    assert ran.returncode == 3 and b"No such file or directory" in ran.stderr
    assert not (tmp_path / "box").exists()


@pytest.mark.skipif(os.geteuid() != 0, reason="only root can be another user")
def test_a_folder_that_cannot_be_read_is_told(run_as_nobody, tmp_path):
    work = tmp_path / "work"
    tree(work / "disks", {"a.nap": POINT, "shut/b.nap": POINT})
    os.chown(work, 65534, 65534)
    (work / "disks" / "shut").chmod(0)
    ran = run_as_nobody("box", "disks", "-o", "box", cwd=str(work))
    assert ran.returncode == 3 and ran.stderr.endswith(b"/disks/shut: Permission denied\n")
    assert b"\nnot read:        1 folder unreadable\n" in ran.stdout
    assert b"<dt>unreadable folders</dt><dd>1</dd>" in (work / "box" / "index.html").read_bytes()


def test_two_at_once(naplps, run, fake, tmp_path):
    place, go = tmp_path / "box", tmp_path / "go"
    tree(tmp_path / "disks", {f"{number}.nap": b"page %d" % number for number in range(20)})
    waits = (f"while not os.path.exists({str(go)!r}): time.sleep(0.01)\n"
             f"os.execv({naplps!r}, [{naplps!r}, *sys.argv[1:]])")
    first = start(box_words(tmp_path, "--timeout", "900"), fake(waits))
    wait_until(lambda: (place / "box.lock").exists() and (place / "box.lock").read_bytes(), first)
    ran = run(box_words(tmp_path))
    assert ran.returncode == 3
    assert f"another run is at work on it: process {first.pid}" in ran.stderr.decode()
    go.touch()
    assert first.wait() == 0, first.communicate()
    assert (place / "index.html").exists() and not (place / "box.lock").exists()


def test_killed_at_any_moment_it_continues_to_the_same_folder(naplps, mixed, place, tmp_path):
    """Ends a run at moments by chance, again and again, until it comes to its end; KILLED names how many times."""
    chance, again = Random(7), str(tmp_path / "box")
    ends = [signal.SIGKILL, signal.SIGTERM, signal.SIGINT, signal.SIGKILL]
    for number in range(KILLED):
        process = start(["box", mixed, "-o", again], naplps)
        try:
            process.wait(chance.uniform(0.2, 1.5 + number / 2))
        except subprocess.TimeoutExpired:
            process.send_signal(ends[number % len(ends)])
        process.communicate()
    process = start(["box", mixed, "-o", again], naplps)
    told, complaint = process.communicate()
    assert (process.returncode, complaint) == (0, b"")
    assert told.decode().replace(again, place[0]) == place[1]
    assert tables_of(again) == tables_of(place[0])
    assert sorted(os.listdir(again)) == sorted(FILES | set(FOLDERS))


def test_a_full_disk_gets_a_message_and_loses_nothing(run, mixed, place, small_disk):
    into = os.path.join(small_disk, "box")
    ran = run(["box", mixed, "-o", into])
    assert ran.returncode == 3 and re.search(b"No space left on device|database or disk is full", ran.stderr), ran
    subprocess.run(["mount", "-o", "remount,size=200m", small_disk], check=True)
    assert_made_as(run, mixed, into, place)


def assert_made_as(run, mixed, into, place):
    """The same command comes to its end, and to the same folder."""
    ran = run(["box", mixed, "-o", into])
    assert (ran.returncode, ran.stderr) == (0, b"")
    assert tables_of(into) == tables_of(place[0])


@pytest.mark.parametrize("most", [4096, 100_000, 400_000])
def test_files_that_may_not_become_long_get_a_message_and_lose_nothing(naplps, run, mixed, place, tmp_path, most):
    into = str(tmp_path / "box")
    ran = subprocess.run([COMMAND, "box", mixed, "-o", into], capture_output=True,
                         env=dict(os.environ, NAPLPS=naplps),
                         preexec_fn=lambda: resource.setrlimit(resource.RLIMIT_FSIZE, (most, most)))
    assert ran.returncode == 3 and ran.stderr.count(b"\n") == 1 and b"the tool itself failed" not in ran.stderr, ran
    assert_made_as(run, mixed, into, place)


def test_each_file_is_opened_once_and_each_page_is_asked_about_once(naplps, fake, mixed, tmp_path):
    log, into = tmp_path / "log", str(tmp_path / "box")
    process = start(["box", mixed, "-o", into, "--jobs", "3"], fake(LOGS.format(naplps, str(log))))
    assert process.communicate()[1] == b""
    counts, rows = Counter(log.read_text("ascii").splitlines()), table(into, "files.csv")
    # (the empty page is asked about first of all, and several files may have one treated copy)
    of_pages = {row["hash"] for row in rows} - {row["treated_hash"] for row in rows} - {hashlib.sha256(b"").hexdigest()}
    canon = {line.split()[1]: number for line, number in counts.items() if line.startswith("canon ")}
    assert of_pages <= set(canon) and max(number for own, number in canon.items() if own in of_pages) == 1
    assert not any(line.startswith("list ") for line in counts)


@needs_strace
def test_no_file_is_opened_twice(naplps, mixed, tmp_path):
    trace = tmp_path / "trace"
    subprocess.run(["strace", "-f", "-e", "trace=openat", "-y", "-s", "4096", "-o", str(trace), COMMAND, "box", mixed,
                    "-o", str(tmp_path / "box"), "--jobs", "2"], check=True, capture_output=True,
                   env=dict(os.environ, NAPLPS=naplps))
    opened = Counter(re.sub(rb"\\([0-7]{3}|x[0-9a-f]{2})", byte_of, found) for found in re.findall(
        rb"(?m)= \d+<(/.*)>\s*$", trace.read_bytes()))
    files = [os.path.join(os.fsencode(mixed), name) for name in files_in(mixed)]
    assert len(files) > 100 and {opened[path] for path in files} == {1}


def test_pages_are_found_in_a_file_too_long_for_a_page(run, tmp_path):
    disks, place, at = tmp_path / "disks", tmp_path / "box", (17 << 20) + 300
    data = Random(3).randbytes(1 << 20) * 17 + bytes(300) + logo() + bytes(2 << 20)
    tree(disks, {"disk.img": data, "film.img": b"\xff\xd8\xff" + data})
    ran = run(box_words(tmp_path))
    assert (ran.returncode, ran.stderr) == (0, b"")
    row, film = table(place, "cut.csv")
    assert (row["source"], row["how"], int(row["offset"])) == (f"{disks}/disk.img", "carve", at)
    assert (film["source"], int(film["offset"])) == (f"{disks}/film.img", at + 3)
    made = f"carved/disk.img-{at:010}.nap"
    assert (place / made).read_bytes() == data[at:at + int(row["bytes"])]
    assert note_of(place, made)["source"] == {"bytes": len(data), "sha256": hashlib.sha256(data).hexdigest()}
    assert "carved:          2 pages out of 2 files, in carved" in ran.stdout.decode()
    again = run(box_words(tmp_path))
    assert (again.stdout, again.returncode) == (ran.stdout, ran.returncode)


def test_a_long_file_outside_of_the_folders_is_not_read(naplps, tmp_path, monkeypatch):
    """Where a folder above it becomes a link after the scan, to one with a file of the same name, length and time."""
    data = Random(3).randbytes(1 << 20) * 17
    tree(tmp_path, {"disks/top/disk.img": data + bytes(2000),
                    "outside/disk.img": data + logo() + bytes(2000 - len(logo()))})
    for name in ("disks/top/disk.img", "outside/disk.img"):
        os.utime(tmp_path / name, (1e9, 1e9))
    carve, top = making.carve_long, tmp_path / "disks" / "top"

    def exchanged(*given):
        top.rename(tmp_path / "disks" / "moved")
        top.symlink_to("../outside")
        return carve(*given)
    monkeypatch.setattr(making, "carve_long", exchanged)
    said = forked(["box", "disks", "-o", "box"], str(tmp_path), naplps)
    assert (said.status, said.err.decode()) == (3, f"naplps-pages: {top}/disk.img: Not a directory\n")
    assert not files_in(tmp_path / "box" / "carved")


def made_in(run, folder, *words):
    """The names of the files of a box of a folder's disks, after a run that goes well."""
    ran = run(box_words(folder, *words))
    assert (ran.returncode, ran.stderr) == (0, b""), ran
    return {os.fsdecode(name) for name in files_in(folder / "box")} - FILES


def test_what_a_new_box_leaves_out(run, tmp_path):
    """What was carved is no part of its store, and is made once that isn't left out."""
    tree(tmp_path / "disks", {"sick.nap": POINT + b"\x1a", "disk.img": image_with_logo()})
    carved = {"carved/disk.img-0000000790.nap", "carved/disk.img-0000000790.nap.json"}
    assert made_in(run, tmp_path, "--skip", "carve", "--skip", "repair", "--skip", "words") == set()
    assert made_in(run, tmp_path, "--skip", "carve") == set()
    assert made_in(run, tmp_path) == made_in(run, tmp_path) == carved
    assert b"has no texts" in run(["find", "hello", str(tmp_path / "box")]).stderr


# Commands that take a store, with a word for the store and, where they make files, one for where these go.
OF_STORES = (["files", "S"], ["files", "S", "--csv"], ["files", "S", "--census"], ["find", "zurich", "S"],
             ["equal", "S", "--verify"], ["equal", "S", "--nearly"], ["show", "S", "-o", "OUT/shown"],
             ["show", "S", "-o", "OUT/sheet.svg"], ["fix", "S", "-o", "OUT/fixed"], ["canon", "S", "-o", "OUT/canon"],
             ["report", "S", "-o", "OUT/report.html"], ["scan", "--merge", "S", "-o", "OUT/merged.db"])


@pytest.mark.parametrize("words", OF_STORES, ids=lambda words: " ".join(words))
def test_the_folder_of_a_box_is_its_store(run, box_of_few, tmp_path, words):
    said, made = [], []
    for store in (box_of_few, os.path.join(box_of_few, "box.db")):
        out = tmp_path / "out"
        out.mkdir()
        ran = run([{"S": store}.get(word, word).replace("OUT", str(out)) for word in words])
        said.append((ran.returncode, ran.stdout, ran.stderr))
        made.append(files_in(out))
        shutil.rmtree(out)
    assert said[0] == said[1] and said[0][0] in (0, 1)
    assert made[0].keys() == made[1].keys() and bool(made[0]) == ("-o" in words)
    assert {name for name in made[0] if made[0][name] != made[1][name]} <= {b"merged.db"}


@pytest.fixture(scope="module")
def box_of_few(naplps, tmp_path_factory):
    """A box of an accepted page with words, of one that is repaired, and of two that draw the same."""
    top = tmp_path_factory.mktemp("few")
    tree(top / "disks", {"ferry.nap": stored("ferry.nap"), "sick.nap": POINT + b"\x1a", "a": POINT, "b": SPELLED})
    subprocess.run([COMMAND, *box_words(top)], check=True, capture_output=True, env=dict(os.environ, NAPLPS=naplps))
    return str(top / "box")


@pytest.mark.parametrize("name", ["box.db", "kept.db", "cut.csv", "index.html", "readable", "carved"])
def test_what_was_taken_away_is_made_again(run, tmp_path, name):
    tree(tmp_path / "disks", {"a.nap": SPELLED, "sick.nap": POINT + b"\x1a", "disk.img": image_with_logo()})
    made_in(run, tmp_path)
    before = tables_of(str(tmp_path / "box"))
    at = tmp_path / "box" / name
    if at.is_dir():
        shutil.rmtree(at)
    else:
        at.unlink()
    made_in(run, tmp_path)
    assert tables_of(str(tmp_path / "box")) == before


@pytest.mark.parametrize("data", [b"mine", b"SQLite format 3\0" + bytes(4080), b""])
def test_a_foreign_file_in_place_of_what_is_kept_is_told(run, tmp_path, data):
    tree(tmp_path / "disks", {"sick.nap": POINT + b"\x1a"})
    made_in(run, tmp_path)
    kept = tmp_path / "box" / "kept.db"
    kept.write_bytes(data)
    ran = run(box_words(tmp_path))
    if data:
        assert ran.returncode == 3 and b"kept.db: isn't what a box keeps of its pages" in ran.stderr
        assert kept.read_bytes() == data
        kept.unlink()
    made_in(run, tmp_path)
    assert (tmp_path / "box" / "readable" / "sick.nap").read_bytes() == POINT


def test_a_place_of_any_name(run, tmp_path):
    for name in (os.fsdecode(b"bo\xeete"), "a?b#c%d e"):
        tree(tmp_path / name / "disks", {"sick.nap": POINT + b"\x1a"})
        assert "readable/sick.nap" in made_in(run, tmp_path / name)
