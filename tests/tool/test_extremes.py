"""No number that a pack, a program or a file has ends a scan: what can't be kept is a row with its reason."""
import gzip
import os

import pytest
from hypothesis import given, settings
from hypothesis import strategies as st

from command import COMMAND
from extremes import NUMBERS, gzips, paxes, tars, zip_with, zips
from naplps.answers import Accepted, Nonsense, Refusal, read_line
from naplps_pages import unexpected
from naplps_pages.cli import main
from naplps_pages.collection import tables
from naplps_pages.collection.file_reader import PackScan
from naplps_pages.collection.protocol import FolderFiles, block_of
from naplps_pages.collection.tables import File, Terms
from naplps_pages.collection.store import open_to_write
from naplps_pages.collection.writer import Writer
from naplps_pages.packs import PackLimits
from naplps_pages.packs import inside
from naplps_pages.packs.reading import PACKS
from packers import written
from samples import POINT, SPELLED
from scans import FAKE, rows, statuses, tree

MOST = (1 << 63) - 1


class KeptRows:
    """A store into which packs are read in this process, as a scan does."""

    def __init__(self, folder):
        self.folder = folder
        self.connection = open_to_write(os.path.join(folder, "kept.db"))
        self.connection.execute("PRAGMA synchronous = OFF")
        self.connection.execute("PRAGMA journal_mode = MEMORY")
        self.writer = Writer(self.connection, b"naplps", Terms("naplps", bytes(32), "2", 0))

    def read(self, name, data):
        """The rows of a pack of these bytes, by name, and the member that is read again by each."""
        path = os.fsencode(written(os.path.join(self.folder, name), data))
        number, _ = self.writer.folder(inside(path), tables.READ, None)
        scan = PackScan(FolderFiles(number, inside(path), (b"",)), PackLimits(1 << 20))
        members = {seen.file.name: seen.file for seen in scan.members()}
        self.writer.take(block_of(((*members.values(), scan.own), ())))
        self.writer.write()
        found = rows_of(self.connection, number)
        for member, _, state, _, at in found:
            if state == tables.READ and member:
                assert tables.hashed(PACKS.read(path, member, at)) == members[member].own
        self.connection.execute("DELETE FROM files")
        return found


def rows_of(connection, number):
    """The rows of a pack, each number of which is one that is kept."""
    found = connection.execute("SELECT name, why, state, size, inode FROM files WHERE folder = ? ORDER BY name",
                               (number,)).fetchall()
    for _, why, state, size, at in found:
        assert all(each is None or 0 <= each <= MOST for each in (size, at))
        assert state in range(7) and (why is None or (isinstance(why, str) and len(why) < 400))
    return found


@pytest.fixture(scope="module")
def kept(tmp_path_factory):
    return KeptRows(str(tmp_path_factory.mktemp("kept")))


@pytest.mark.parametrize("number", NUMBERS + (-1, -(1 << 63)))
def test_each_number_in_each_field_of_tar(kept, number):
    for what, data in tars(number):
        assert {b"", b"first.nap"} <= {row[0] for row in kept.read("odd.tar", data)}, what


@pytest.mark.parametrize("text", [b"%d" % number for number in NUMBERS] + [
    b"-1", b"-%d" % (1 << 63), b"9" * 400, b"9" * 5000, b"1e999", b"nan", b"inf", b"0x10", b"", b"1_000", b"\xd9\xa1",
    b" 5 ", b"5\0", b"+5"])
def test_each_number_of_pax(kept, text):
    for what, data in paxes(text):
        assert {b"", b"first.nap"} <= {row[0] for row in kept.read("odd.tar", data)}, what


@pytest.mark.parametrize("number", NUMBERS)
def test_each_number_of_zip_zip64_and_gzip(kept, number):
    for what, data in zips(number):
        assert kept.read("odd.zip", data)[0][0] == b"", what
    for what, data in gzips(number):
        assert kept.read("odd.tgz", data)[0][0] == b"", what
    assert kept.read("plain.zip", zip_with())[1][:3] == (b"odd.nap", None, tables.READ)
    assert kept.read("narrow.zip", zip_with(wide=False))[1][:3] == (b"odd.nap", None, tables.READ)


NUMBER = st.one_of(st.sampled_from(NUMBERS), st.integers(0, (1 << 90) - 1), st.integers(-(1 << 80), 0))


@settings(max_examples=60)
@given(NUMBER, st.integers(0, 1 << 30), st.booleans())
def test_any_number_in_any_field(kept, number, which, packs):
    some = [*tars(number), *paxes(b"%d" % number), *zips(number), *gzips(number)]
    what, data = some[which % len(some)]
    ending = "zip" if what.startswith("zip") else "tar"
    kept.read("odd." + ending, gzip.compress(data) if packs and ending == "tar" else data)


@pytest.fixture
def store(tmp_path):
    return os.path.join(str(tmp_path), "pages.db")


def test_a_scan_of_all_of_them(run, tmp_path, store):
    packs = {}
    for number in (1 << 63, (1 << 64) - 1, (1 << 88) - 1):
        for what, data in [*tars(number), *paxes(b"%d" % number), *zips(number), *gzips(number)]:
            ending = "zip" if what.startswith("zip") else "tgz" if what.startswith("gzip") else "tar"
            packs["%04d.%s" % (len(packs), ending)] = data
    top = tree(str(tmp_path / "packs"), {**packs, "page.nap": POINT})
    for _ in range(2):
        said = run(["scan", top, "-o", store])
        assert said.returncode == 3 and b"Traceback" not in said.stderr and b"the tool itself" not in said.stderr
        assert said.stdout.endswith(b"; %d packs\n" % len(packs))
        assert rows(store, "SELECT count(*) FROM folders WHERE substr(path, -2) = x'212F'") == [(len(packs),)]
        assert rows(store, "SELECT count(*) FROM runs WHERE ended IS NULL") == [(0,)]
        assert statuses(store)["page.nap"] == ("accepted", None)
    for words in (["files"], ["files", "--refused"], ["equal", "--verify"]):
        said = run([words[0], store, *words[1:]])
        assert said.returncode in (0, 1) and b"Traceback" not in said.stderr and b"the tool itself" not in said.stderr


def test_what_is_said_of_a_size_and_a_place_that_can_not_be_kept(run, tmp_path, store):
    top = tree(str(tmp_path / "packs"), {"size.zip": zip_with(("extra", "size"), 1 << 63),
                                         "place.zip": zip_with(("extra", "offset"), (1 << 64) - 1)})
    said = run(["scan", top, "-o", store])
    assert said.stderr.decode() == "naplps-pages: %s/place.zip!odd.nap: it begins outside of the pack\n" % top
    assert statuses(store) == {
        "place.zip!odd.nap": ("unreadable", "it begins outside of the pack"),
        "size.zip!odd.nap": ("too long", "more than 9223372036854775807 bytes")}
    said = run(["check", top + "/place.zip!odd.nap", top + "/size.zip!odd.nap"])
    assert said.returncode == 3 and said.stderr.decode() == (
        "naplps-pages: %s/place.zip!odd.nap: it begins outside of the pack\n"
        "naplps-pages: %s/size.zip!odd.nap: more than 9223372036854775807 bytes\n" % (top, top))


@pytest.mark.parametrize("line", [b"accepted %d entries", b"refused 10 Outside at %d"])
def test_a_number_of_the_program(line):
    most = 10 ** 18 - 1
    assert read_line(line % most, None) in (Accepted(most), Refusal(10, "Outside", None, most))
    for number in (10 ** 18, MOST, 10 ** 19 - 1, 1 << 70):
        with pytest.raises(Nonsense):
            read_line(line % number, None)


def test_a_program_that_answers_numbers_that_can_not_be_kept(run, fake, tmp_path, store):
    pages = tree(os.path.join(str(tmp_path), "pages"), {"a": b"a", "b": b"bb", "c": b"bad"})
    usual = "b'accepted %d entries' % len(page)"
    lines = FAKE.replace(usual, "b'accepted 9999999999999999999 entries' if len(page) == 1 else " + usual)
    assert lines != FAKE
    said = run(["scan", pages, "-o", store], program=fake(lines))
    assert (said.returncode, b"Traceback" in said.stderr) == (3, False)
    assert statuses(store) == {"a": ("no answer", "the program answered something that is no answer"),
                               "b": ("accepted", None), "c": ("refused", None)}


def test_an_exception_that_nobody_expected_names_the_file(tmp_path, store, monkeypatch, capfd, naplps):
    """The status is 70, and no traceback is printed."""
    monkeypatch.setenv("NAPLPS", naplps)
    pages = tree(os.path.join(str(tmp_path), "pages"), {"a": POINT, "b": SPELLED})

    def number(row):
        return File(*row)._replace(size=1 << 63) if File(*row).name == b"b" else row
    take = Writer.take
    monkeypatch.setattr(Writer, "take", lambda self, block: take(
        self, block._replace(files=list(map(number, block.files)))))
    assert main(["scan", pages, "-o", store], COMMAND) == 70
    said = capfd.readouterr()
    start = "naplps-pages: %s/b: the tool itself failed (collection/writer.py line " % pages
    assert said.out == "" and said.err.startswith(start)
    assert said.err.endswith("): OverflowError: Python int too large to convert to SQLite INTEGER\n")
    monkeypatch.undo()
    monkeypatch.setenv("NAPLPS", naplps)
    monkeypatch.setattr("naplps_pages.page_session.Session.print_answer", lambda *_, **__: [][0])
    assert main(["check", "--json", pages + "/a", pages + "/b"], COMMAND) == 70
    said = capfd.readouterr().err.splitlines()
    assert [line.split(": the tool")[0] for line in said] == ["naplps-pages: %s/%s" % (pages, name) for name in "ab"]
    monkeypatch.setattr("naplps_pages.collection.status.status", lambda *_: [][0])
    open_to_write(store).close()
    assert main(["files", store], COMMAND) == 70
    assert capfd.readouterr().err.startswith("naplps-pages: %s: the tool itself failed (" % store)


def test_what_is_told_of_an_exception():
    assert unexpected.failure_message(OSError(28, "no matter")) == "No space left on device"
    assert unexpected.failure_message(MemoryError()) == "there is no memory for it"
    assert unexpected.failure_message(ValueError("\x1b[31m\n")) == (
        "the tool itself failed (outside of it): ValueError: \\x1b[31m\\n")
    assert len(str(unexpected.Unexpected("\x1b", ValueError("x" * 10_000)))) < 400
