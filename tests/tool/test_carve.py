"""Pages inside files of any kind: those that were planted are found, others aren't, and nothing that was found is lost.

CARVED names how many MiB of a system's files and of random bytes are searched, and PLANTED_IMAGES how many images.
"""
import glob
import hashlib
import io
import json
import os
import signal
import subprocess
import time
from pathlib import Path
from random import Random

import pytest

from command import COMMAND, NOBODY, file
from folders import files_in
from naplps.answers import Accepted
from naplps_pages.fixing import carve
from naplps_pages.console import NotWritten
from naplps_pages.page_finder import PageFinder
from packers import pack
from planted import pool
from scans import start, wait_until
from spelled import logo

MIB = int(os.environ.get("CARVED", "12"))
IMAGES = int(os.environ.get("PLANTED_IMAGES", "40"))
# What a processor does in a second at least, in bytes, where it isn't shared; here it may be.
LEAST_SPEED = 5_000_000
TEXT = b"The quick brown fox jumps over the lazy dog, 0123456789 times.\r\n"
FILES = ("/usr/lib/*/*.so*", "/usr/bin/*", "/usr/share/doc/*/*", "/usr/share/fonts/*/*/*", "/usr/lib/python3*/*.py")
LOGO = logo()
SHAPES = (b"POINT", b"LINE", b"ARC", b"RECT", b"POLY")


@pytest.fixture(scope="module")
def pages(program):
    """Pages of all beginnings that have the least number of entries and shapes."""
    return [page for page in pool(program) if is_large(program, page)]


def is_large(program, page):
    """Whether a page has as much as one that is looked for."""
    lines = [line.partition(b" ")[2] for line in program.ask("places", page).body.splitlines()]
    return len(lines) >= 12 and any(line.startswith(SHAPES) for line in lines)


def found_in(program, data, **how):
    """What is found in some bytes."""
    return list(PageFinder(program, **how).find(io.BytesIO(data).read))


def image(chance, pages):
    """Pages in zeros, in E5, F6 or FF, in random bytes or text, each at a sector; and where they are."""
    room = chance.choice((lambda size: bytes(size), lambda size: b"\xe5" * size, lambda size: b"\xf6" * size,
                          chance.randbytes, lambda size: (TEXT * (size // len(TEXT) + 1))[:size]))
    data, places = room(chance.randrange(4096)), []
    for page in chance.sample(pages, 10):
        places.append((len(data), len(data) + len(page)))
        data += page
        data += room(-len(data) % 512 + 512 * chance.randrange(4) + 32)
    return data, places


def test_planted_pages_are_found(program, pages):
    chance, planted, found, others = Random(86), 0, 0, 0
    for _ in range(IMAGES):
        data, places = image(chance, pages)
        some = found_in(program, data)
        planted += len(places)
        found += sum(any(each.offset <= at and end <= each.end for each in some) for at, end in places)
        others += sum(not any(each.offset < end and at < each.end for at, end in places) for each in some)
        for one, other in zip(some, some[1:]):
            assert one.end <= other.offset
        for each in some:
            assert data[each.offset:each.end] == each.data and program.ask("check", each.data) == each.answer
            assert each.most_begin <= each.offset < each.least_end <= each.end
    print(f"\nplanted {planted}, found {found}, others {others}")
    assert 100 * found >= 99 * planted and others == 0


def system_files(most):
    """Files of this system, of a number of bytes in all."""
    names = sorted(name for each in FILES for name in glob.glob(each) if os.path.isfile(name))
    Random(2).shuffle(names)
    for name in names:
        if most <= 0:
            return
        with open(name, "rb") as source:
            data = source.read(min(most, 8 << 20))
        most -= len(data)
        yield name, data


def test_hardly_anything_is_found_in_other_bytes(program):
    chance, size, found = Random(3), 0, []
    began = time.process_time()
    for name, data in [*system_files(MIB << 19), *(("random", chance.randbytes(1 << 20)) for _ in range(MIB // 2))]:
        size += len(data)
        found += [(name, each.offset, each.answer) for each in found_in(program, data)]
    speed = size / (time.process_time() - began)
    print(f"\n{size} bytes, found {found}, {speed:.0f} bytes a second of a processor")
    assert found == []
    assert speed >= LEAST_SPEED / 2


@pytest.mark.parametrize("unit", [
    b"\x0c", b"\x0e\x26", b"\x0e\x26\x52", b"\x0c" * 999 + b"\x1b\x1b\x26\x52", b"\x1b\x40A", b"\x0e\x0f",
    b"\x0e\x26" + b"\x52" * 13 + b"\x1b\x51", b"\x0e\x26" + b"\x52" * 12 + b"\x28\x7f", bytes(1000)],
    ids=["CS", "SO", "points", "CS and a fault", "DEF MACRO", "shifts", "EDC1", "outside", "zeros"])
def test_false_beginnings_cost_little(program, unit):
    data = unit * ((1 << 19) // len(unit))
    began = time.process_time()
    some = found_in(program, data)
    assert time.process_time() - began < 10
    assert [data[each.offset:each.end] == each.data for each in some] == [True] * len(some)


def test_pages_longer_than_a_block_and_over_its_edge(program):
    long = LOGO + b"\x0e\x26" + b"\x52\x40\x40" * 5000
    data = bytes((4 << 20) - 100) + LOGO + b"\xff" * 100 + bytes(5 << 20) + long + b"\xff"
    some = found_in(program, data)
    assert [each.data for each in some] == [LOGO, long] and some[0].offset == (4 << 20) - 100


DISK = bytes(100_000) + LOGO + b"\xff" * 3000 + b"see: " + LOGO + b"\x1a" + bytes(50_000)
LAST = DISK.rindex(LOGO)
NAMES = [f"disk.img-{offset:010}.nap" for offset in (100_000, LAST)]
STATE = ".disk.img.carve.json"


@pytest.fixture
def path(tmp_path):
    """A disk with two pages."""
    return file(tmp_path, "disk.img", DISK)


def test_each_page_is_a_file_with_a_note(run, path, to):
    said = run(["fix", "--only", "carve", path, "-o", to])
    assert (said.stderr, said.returncode) == (b"", 0)
    assert sorted(os.listdir(to)) == sorted([*NAMES, *(name + ".json" for name in NAMES)])
    lines = said.stdout.decode().splitlines()
    assert lines[0] == "%s: %d bytes at 100000, at least %d, at most %d from 100000: accepted 36 entries" % (
        os.path.join(to, NAMES[0]), len(LOGO), LOGO.rindex(b"\x0f") + 1, len(LOGO))
    assert lines[-1] == f"{path}: 2 pages found in {len(DISK)} bytes"
    for name in NAMES:
        data, row = Path(to, name).read_bytes(), json.loads(Path(to, name + ".json").read_bytes())
        assert data == LOGO == DISK[row["offset"]:row["offset"] + row["bytes"]]
        assert row["source_name"] == path and row["answer"] == "accepted 36 entries" and row["least"] == 12
        assert row["source"] == {"bytes": len(DISK), "sha256": hashlib.sha256(DISK).hexdigest()}
        assert row["copy"] == {"bytes": len(data), "sha256": hashlib.sha256(data).hexdigest()}
    assert row["at_most"] == {"offset": row["offset"] - 5, "bytes": len(LOGO) + 5}
    again = run(["fix", "--only", "carve", path, "-o", to])
    assert (again.stdout, again.stderr, again.returncode) == (said.stdout, b"", 0)
    assert run(["scan", to, "-o", to + ".db"]).stdout.startswith(b"2 files: 2 accepted (2 pages)")


def test_without_a_folder_nothing_is_made_and_least_is_kept(run, tmp_path, path):
    rows = [json.loads(line) for line in run(["fix", "--only", "carve", path, "--json"]).stdout.splitlines()]
    assert [(row["name"], row["status"], row["offset"], row["bytes"]) for row in rows] == [
        (path, "accepted", 100_000, len(LOGO)), (path, "accepted", LAST, len(LOGO))]
    said = run(["fix", "--only", "carve", path, "--min-entries", "37"])
    assert said.stdout.decode() == f"{path}: 0 pages found in {len(DISK)} bytes\n" and said.returncode == 1
    assert os.listdir(str(tmp_path)) == ["disk.img"]


def test_members_of_packs_and_standard_input(run, tmp_path, to):
    pack(os.path.join(str(tmp_path), "old.tar"), {"disk.img": DISK})
    said = run(["fix", "--only", "carve", os.path.join(str(tmp_path), "old.tar") + "!disk.img"])
    assert said.returncode == 0 and said.stdout.count(b"accepted 36 entries") == 2
    assert run(["fix", "--only", "carve", "-", "-o", to], DISK).returncode == 0
    assert "page-0000100000.nap" in os.listdir(to)


def test_a_foreign_file_stays_and_the_rest_is_found(run, path, to):
    os.mkdir(to)
    file(to, NAMES[0], b"mine")
    said = run(["fix", "--only", "carve", path, "-o", to])
    assert said.returncode == 3 and b"is there already with other bytes" in said.stderr
    assert files_in(to)[NAMES[0].encode()] == b"mine" and len(os.listdir(to)) == 3


@pytest.mark.parametrize("kind", ["a file", "a pipe", "a link", "a folder"])
def test_what_is_foreign_where_a_search_keeps_how_far_it_is(run, tmp_path, path, to, kind):
    state, other = os.path.join(to, STATE), file(tmp_path, "other", b"mine")
    os.mkdir(to)
    {"a file": lambda state: os.link(other, state), "a pipe": os.mkfifo,
     "a link": lambda state: os.symlink(other, state), "a folder": os.mkdir}[kind](state)
    said = run(["fix", "--only", "carve", path, "-o", to])
    assert said.returncode == 3 and b".disk.img.carve.json: is there already, and isn't of this tool" in said.stderr
    assert os.listdir(to) == [STATE] and Path(other).read_bytes() == b"mine"


def test_a_full_disk_loses_nothing(naplps, tmp_path, to, monkeypatch, capfd):
    from naplps_pages.cli import main
    monkeypatch.setenv("NAPLPS", naplps)
    path, put, written = file(tmp_path, "disk.img", DISK * 3), carve.put_inside, []

    def put_on_full_disk(path, data):
        if len(written) == 5:
            raise NotWritten(path, os.strerror(28))
        written.append(path)
        put(path, data)
    monkeypatch.setattr(carve, "put_inside", put_on_full_disk)
    assert main(["fix", "--only", "carve", path, "-o", to], COMMAND) == 3
    assert b"No space left on device" in capfd.readouterr().err.encode()
    monkeypatch.setattr(carve, "put_inside", put)
    assert main(["fix", "--only", "carve", path, "-o", to], COMMAND) == 0
    made = sorted(name for name in os.listdir(to) if name.endswith(".nap"))
    assert len(made) == 6 and sorted(os.listdir(to)) == sorted(made + [name + ".json" for name in made])
    assert capfd.readouterr().out.endswith(f"disk.img: 6 pages found in {3 * len(DISK)} bytes\n")


def test_a_search_that_is_stopped_goes_on(run, naplps, path, to):
    with open(path, "wb") as disk:  # (sparse)
        for at in range(0, 400 << 20, 100 << 20):
            disk.seek(at)
            disk.write(LOGO + b"\xff")
        disk.truncate(400 << 20)
    started = start(["fix", "--only", "carve", path, "-o", to], naplps)
    wait_until(lambda: glob.glob(to + "/*.nap"), started)
    started.send_signal(signal.SIGINT)
    told = started.communicate(timeout=120)[1]
    assert started.returncode == -signal.SIGINT and b"stopped; what was found is kept, and the same command" in told
    with open(os.path.join(to, ".disk.img.carve.json"), encoding="ascii") as state:
        assert 0 < json.load(state)["at"] < 400 << 20
    said = run(["fix", "--only", "carve", path, "-o", to])
    assert said.stdout.endswith(f"{path}: 4 pages found in {400 << 20} bytes\n".encode()) and said.returncode == 0
    assert said.stdout.count(b"accepted") < 4 and len(os.listdir(to)) == 8


def state_of(naplps, path, at, found):
    """A state of a search, as an earlier run leaves it, of a file that is there."""
    data = Path(path).read_bytes()
    line = subprocess.run([naplps, "--version"], stdout=subprocess.PIPE, check=True, text=True).stdout.strip()
    terms = [hashlib.sha256(data).hexdigest(), len(data), 12, line]
    return json.dumps({"what": carve.WHAT, "at": at, "found": found, "terms": terms}).encode("ascii")


@pytest.fixture
def earlier(naplps, path, to):
    """Puts a state of a search of the disk, as an earlier run leaves it, in its place; its path."""
    os.mkdir(to)
    return lambda at: file(to, STATE, state_of(naplps, path, at, 7))


@pytest.mark.parametrize("at", [len(DISK) + 1, 9_999_999, 10 ** 20, 10 ** 400, -1, True, 1.5, "7", None], ids=range(9))
def test_a_search_does_not_continue_outside_of_its_file(run, path, to, earlier, at):
    earlier(at)
    said = run(["fix", "--only", "carve", path, "-o", to])
    assert (said.returncode, said.stderr) == (0, b"")
    assert said.stdout.endswith(f"{path}: 2 pages found in {len(DISK)} bytes\n".encode())
    assert sorted(os.listdir(to)) == sorted(name + ending for name in NAMES for ending in ("", ".json"))


def test_a_search_that_continues_says_so_and_counts_the_pages_that_are_there(run, path, to, earlier):
    for found in (0, 1):
        earlier(101_000)
        said = run(["fix", "--only", "carve", path, "-o", to])
        assert said.returncode == 0 and said.stderr.decode() == (
            f"naplps-pages: {path}: the search continues at byte 101000, where an earlier run stopped; pages found "
            f"before: {found}\n")
        pages = "2 pages" if found else "1 page"
        assert said.stdout.endswith(f"{path}: {pages} found in {len(DISK)} bytes\n".encode())
        assert len(os.listdir(to)) == 2 * (found + 1)
        for ending in ("", ".json"):
            file(to, NAMES[0] + ending, LOGO)


@pytest.mark.skipif(os.geteuid() != 0, reason="only root can be another user")
def test_a_search_of_another_user_is_not_continued(run, path, to, earlier):
    state = earlier(101_000)
    os.chown(state, NOBODY, NOBODY)
    said = run(["fix", "--only", "carve", path, "-o", to])
    assert (said.returncode, said.stdout) == (3, b"") and said.stderr.decode() == (
        f"naplps-pages: {state}: is another user's: move it away, and the search begins at the first byte\n")
    assert os.listdir(to) == [STATE]


def test_a_search_of_a_file_with_a_long_name_can_be_continued(run, naplps, tmp_path, to):
    path = file(tmp_path, "n" * 235, DISK)
    full = carve.CarveState(os.path.join(to, carve.state_name("n" * 255)), "", [])
    os.mkdir(to)
    full.keep(7, 0)
    name, = os.listdir(to)
    assert len(name) <= 255 and name.endswith(".json") and name.startswith(".nnn")
    os.unlink(os.path.join(to, name))
    file(to, carve.state_name("n" * 235), state_of(naplps, path, 101_000, 7))
    assert b"the search continues at byte 101000" in run(["fix", "--only", "carve", path, "-o", to]).stderr


def test_a_page_that_is_refused_later_ends_before(program):
    found, = found_in(program, b"\xff" * 9 + LOGO + b"\x1b\x43A\x0e\x26\x52\x40\x40\xff")
    assert isinstance(found.answer, Accepted) and found.data == LOGO
