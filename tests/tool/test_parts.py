"""Parts of a scan: which files each takes, that it continues as itself alone, and that all of them are one scan."""
import os
import zlib

import pytest
from hypothesis import given
from hypothesis import strategies as st

from naplps_pages.collection.kept import Part, below, read_part
from samples import MACRO, OUTSIDE, POINT, POINT_AND_BELL, SPELLED, with_parity
from scans import FAKE, every_table, rows, scan_parts, table, tree

SOME = [POINT, OUTSIDE, MACRO, b"", b"\x18", b"\x1b", with_parity(POINT), SPELLED, POINT_AND_BELL, b"\x0fhello"]


@pytest.fixture
def pages(tmp_path):
    files = {"%02d/%s%03d" % (at // 50, "x/" * (at % 3), at): SOME[at % len(SOME)] + (b"\x0f%d" % at if at % 4 else b"")
             for at in range(300)}
    return tree(tmp_path / "pages", {**files, b"\xff\xfe": POINT, "top": POINT})


def names(store, top):
    """The paths of the files of a store below the top folder."""
    return {below(os.fsencode(top), folder + b"/" + name) for folder, name in rows(
        store, "SELECT d.path, f.name FROM files f JOIN folders d ON d.id = f.folder WHERE f.state <> 6")}


def test_a_part_has_the_files_whose_crc_32_is_its_own(run, fake, pages, tmp_path):
    stores = scan_parts(run, pages, tmp_path, 5, program=fake(FAKE))
    everything = {os.fsencode(os.path.relpath(os.path.join(folder, name), pages))
                  for folder, _, some in os.walk(pages) for name in some}
    assert len(everything) == 302
    for at, store in enumerate(stores):
        assert names(store, pages) == {path for path in everything if zlib.crc32(path) % 5 == at}


def test_eight_parts_merged_are_one_scan(run, pages, tmp_path):
    stores = scan_parts(run, pages, tmp_path, 8, keeps="repair")
    before = [open(store, "rb").read() for store in stores]
    into, one = str(tmp_path / "all.db"), str(tmp_path / "one.db")
    said = run(["scan", "--merge", "-o", into, *reversed(stores)])
    assert (said.returncode, said.stderr) == (0, b"")
    whole = run(["scan", pages, "-o", one], keeps="repair")
    assert said.stdout == whole.stdout.split(b"; ")[0] + b"; from 8 stores\n"
    assert every_table(into) == every_table(one)
    assert [open(store, "rb").read() for store in stores] == before
    for words in (["equal"], ["files", "--refused"], ["equal", "--json"], ["files", "--csv"]):
        told = [run([words[0], store, *words[1:]]).stdout.splitlines() for store in (into, one)]
        assert told[0][4:] == told[1][4:]
    # (it is a store like others, which continues)
    tree(pages, {"new": POINT})
    said = run(["scan", pages, "-o", into])
    assert said.stdout.startswith(b"303 files: ") and b"; 302 known, 0 pages asked about\n" in said.stdout
    assert sorted(os.listdir(str(tmp_path))) == sorted(["pages", "all.db", "one.db", *map(os.path.basename, stores)])


def test_a_part_goes_on_as_itself_alone(run, fake, pages, tmp_path):
    part, whole = (os.path.join(str(tmp_path), name) for name in ("part.db", "whole.db"))
    program = fake(FAKE)
    assert run(["scan", pages, "-o", part, "--shard", "0/3"], program=program).returncode == 0
    assert run(["scan", pages, "-o", whole], program=program).returncode == 0
    before = table(part)
    for store, words, reason in (
            (part, ["--shard", "1/3"], "holds part 0/3, not part 1/3"),
            (part, ["--shard", "0/4"], "holds part 0/3, not part 0/4"), (part, [], "holds part 0/3, not all files"),
            (whole, ["--shard", "0/3"], "holds all files, not part 0/3")):
        said = run(["scan", pages, "-o", store, *words], program=program)
        assert (said.stdout, said.returncode) == (b"", 3)
        assert said.stderr.decode() == "naplps-pages: %s: %s: each has a store of its own\n" % (store, reason)
    said = run(["scan", os.path.join(pages, "00"), "-o", part, "--shard", "0/3"], program=program)
    assert said.returncode == 3 and said.stderr.decode() == (
        "naplps-pages: %s: holds part 0/3 of %s, which isn't that of %s/00\n" % (part, pages, pages))
    assert table(part) == before and not os.path.exists(part + ".lock")
    said = run(["scan", pages, "-o", part, "--shard", "00/3"], program=program)
    assert said.returncode == 0 and b"; %d known, 0 pages asked about\n" % len(before) in said.stdout
    assert b"part:            0/3\n" in run(["files", part]).stdout
    assert b"part:            " not in run(["files", whole]).stdout


def test_only_files_of_the_part_are_gone(run, fake, pages, tmp_path):
    program = fake(FAKE)
    stores = scan_parts(run, pages, tmp_path, 3, program=program)
    before = [names(store, pages) for store in stores]
    for name in ("00/000", "00/x/001", "top"):
        os.unlink(os.path.join(pages, name))
    os.rename(os.path.join(pages, "05"), str(tmp_path / "away"))
    lost = {path for some in before for path in some if path.startswith(b"05/")} | {b"00/000", b"00/x/001", b"top"}
    for at, store in enumerate(stores):
        said = run(["scan", pages, "-o", store, "--shard", "%d/3" % at], program=program)
        gone = len(lost & before[at])
        assert gone and said.stdout.decode().endswith("; %d gone\n" % gone)
        assert names(store, pages) == before[at] - lost
    into = str(tmp_path / "all.db")
    said = run(["scan", "--merge", "-o", into, *stores])
    assert said.stdout == b"249 files: 249 accepted (149 pages, 100 texts), 0 refused; from 3 stores; 53 gone\n"
    assert rows(into, "SELECT count(*) FROM files WHERE state = 6") == [(len(lost),)] == [(53,)]


@pytest.mark.parametrize("word", ["3/3", "4/3", "-1/3", "1", "/", "1/", "/3", "0/0", "1/2/3", "0x0/2", "1.0/2", " 0/2",
                                  "0/1000001", "٠/٢", ""])
def test_words_that_name_no_part(run, tmp_path, word):
    said = run(["scan", str(tmp_path), "-o", str(tmp_path / "pages.db"), "--shard=" + word])
    assert said.returncode == 2 and not said.stdout and os.listdir(str(tmp_path)) == []
    assert b"a part K/N, where N is from 1 to 1000000 and K from 0 to N - 1, not " in said.stderr


@given(st.lists(st.binary(min_size=1, max_size=9), max_size=9), st.binary(max_size=9), st.integers(1, 9))
def test_a_folder_at_a_time_and_a_file_at_a_time(some, folder, of):
    parts = [Part(number, of) for number in range(of)]
    for part in parts:
        path = folder + b"/" if folder else b""
        assert list(part.names(folder, tuple(some))) == [name for name in some if part.takes(path + name)]
        assert read_part(str(part)) == part
    assert sorted(name for part in parts for name in part.names(folder, tuple(some))) == sorted(some)


def test_paths_below_a_root():
    for root, path, rest in ((b"/a", b"/a", b""), (b"/a", b"/a/b", b"b"), (b"/", b"/", b""), (b"/", b"/b/c", b"b/c")):
        assert below(root, path) == rest
