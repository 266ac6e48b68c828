"""Packs that are made to do harm, or are damaged: rows with a reason, and the rest is read."""
import gzip
import os
import resource
import struct
import subprocess
import sys
import tarfile
from random import Random

import pytest
from hypothesis import given, settings
from hypothesis import strategies as st

from command import COMMAND, PACKAGES
from extremes import FIELDS, SPARSE, pax, record, with_field
from naplps_pages.collection import tables
from naplps_pages.packs import PackLimits
from naplps_pages.packs.reading import open_file, open_pack
from packers import (
    GIBIBYTE, add, deflated, entry, gzipped, header, member, pack, squeezed, tar_bomb, written, zip_bomb, zip_of,
)
from peaks import with_peak
from random_packs import random_pack
from samples import OUTSIDE, POINT, SPELLED
from scans import rows

MOST = 16 << 20
END = bytes(1024)
SIZE = 10 * GIBIBYTE


@pytest.fixture
def at(tmp_path):
    path = os.path.join(str(tmp_path), "archive")
    os.mkdir(path)
    return path


@pytest.fixture
def found(run, tmp_path):
    """A function that scans a pack: the members by their names, what was said, and the status."""
    def finds(path, *words):
        store = os.path.join(str(tmp_path), "pages.db")
        said = run(["scan", path, "-o", store, *words])
        assert b"Traceback" not in said.stderr and said.stdout
        members = {name[len(os.fsencode(path)):]: (status, reason) for name, status, reason in rows(
            store, "SELECT CAST(name AS BLOB), status, reason FROM listing")}
        again = run(["scan", path, "-o", store, *words])    # (what is known of it is told again, and nothing asked)
        assert sorted(again.stderr.splitlines()) == sorted(said.stderr.splitlines())
        assert again.returncode == said.returncode
        assert b", 0 pages asked about" in again.stdout.replace(b"known", b"", 1)
        told = said.stderr.decode().replace("naplps-pages: " + path, "")
        return members, told.splitlines(), said.returncode
    return finds


def members_of(path, most=MOST):
    """The members of a pack, and what is wrong with it."""
    with open_file(os.fsencode(path)) as file:
        made = open_pack(file, os.fsencode(path), PackLimits(most))
        return list(made.members()), made


def test_a_tar_file_with_what_is_no_page(found, at):
    path = os.path.join(at, "hostile.tar")
    with tarfile.open(path, "w", format=tarfile.GNU_FORMAT) as out:
        add(out, "first", POINT)
        for name in ("../up", "a/../../up", "/etc/passwd", "sub/.."):
            add(out, name, POINT)
        for name, kind in (("link", tarfile.SYMTYPE), ("copy", tarfile.LNKTYPE), ("fifo", tarfile.FIFOTYPE),
                           ("device", tarfile.CHRTYPE), ("disk", tarfile.BLKTYPE), ("folder", tarfile.DIRTYPE),
                           ("odd", b"Z")):
            add(out, name, type=kind, linkname="/etc/passwd")
        add(out, "inner.zip", b"PK")
        add(out, "in.TGZ", b"")
        add(out, "long", b"A" * 300)
        add(out, ".", POINT)
        add(out, "last", OUTSIDE)
    members, told, status = found(path, "--max-size", "299")
    away, nested = ("unreadable", "its name leads out of the pack"), ("unreadable", "a pack in a pack isn't opened")
    device = ("not a file", "a device")
    assert members == {
        b"!first": ("accepted", None), b"!../up": away, b"!a/../../up": away, b"!sub/..": away,
        b"!/etc/passwd": ("unreadable", "its name is absolute"), b"!link": ("not a file", "a symbolic link"),
        b"!copy": ("not a file", "a hard link"), b"!fifo": ("not a file", "a fifo"), b"!device": device,
        b"!disk": device, b"!odd": ("not a file", "of another kind"), b"!inner.zip": nested, b"!in.TGZ": nested,
        b"!long": ("too long", "300 bytes"), b"!.": ("unreadable", "it has no name"), b"!last": ("refused", None)}
    assert sorted(told) == sorted("%s: %s" % (name.decode(), reason) for name, (state, reason) in members.items()
                                  if state == "unreadable") and status == 3


def test_several_members_of_one_name(found, at):
    path = os.path.join(at, "twice.tar")
    with tarfile.open(path, "w") as out:
        for name, data in (("a", POINT), ("b", POINT), ("./a", SPELLED), ("c", OUTSIDE), ("a", POINT)):
            add(out, name, data)
    reason = "the pack has several members of this name"
    wanted = {b"!a": ("unreadable", reason), b"!b": ("accepted", None), b"!c": ("refused", None)}
    assert found(path) == (wanted, ["!a: " + reason], 3)
    entries = [entry(name, data, len(data), 0) for name, data in ((b"a", POINT), (b"b", POINT), (b"a", SPELLED),
                                                                  (b"c", OUTSIDE))]
    assert found(written(os.path.join(at, "twice.zip"), zip_of(entries)))[0] == wanted


def test_names_that_can_not_be_taken(found, at):
    path = os.path.join(at, "names.tar")
    with tarfile.open(path, "w", format=tarfile.PAX_FORMAT) as out:
        add(out, "x" * 5000, POINT)
        add(out, "good", POINT, pax_headers={"path": "a\0b"})
        add(out, "last", POINT)
    members, _, status = found(path)
    assert {reason for _, reason in members.values()} == {
        None, "its name is longer than 4096 bytes", "its name has a NUL"} and status == 3


def test_a_sparse_file(found, at):
    sparse = header("holes", 512, type=tarfile.GNUTYPE_SPARSE)
    for name, number in (("offset", 0), ("bytes", 512), ("real", 1 << 32)):
        sparse = with_field(sparse, SPARSE[name], b"%011o\0" % number)
    path = written(os.path.join(at, "sparse.tar"), sparse + bytes(512) + member("last", POINT) + END)
    assert found(path)[0] == {b"!holes": ("unreadable", "a sparse file isn't read in a pack"),
                              b"!last": ("accepted", None)}


def whole():
    """A tar file of five members, of which each has a block of header and a block of bytes."""
    return b"".join(member("%d" % number, b"\x0f%d" % number) for number in range(5)) + END


@pytest.mark.parametrize("length, number, reason", [
    (4096, 4, "it has no mark of its end: it may be cut"), (4096 + 300, 4, "it is cut: it ends at byte 4396"),
    (4096 + 512 + 1, 5, "it is cut: it ends at byte 4609"), (512, 1, "it is cut: it ends at byte 512"),
    (100, 0, "it is cut: it ends at byte 100"), (5120 + 512, 5, None), (5120 + 100, 5, None), (0, 0, None)])
@pytest.mark.parametrize("ending", [".tar", ".tar.gz"])
def test_a_tar_file_that_is_cut(at, length, number, reason, ending):
    path = os.path.join(at, "cut" + ending)
    (written if ending == ".tar" else squeezed)(path, whole()[:length])
    members, made = members_of(path)
    assert len(members) == number
    assert made.why == ("it has no mark of its end: it may be cut" if not length else reason)
    broken = [each for each in members if each.state != tables.READ]
    assert [each.why for each in broken] == ["the pack is cut or damaged amid it"] * len(broken)
    assert bool(broken) == (length in (512, 4609))


def test_a_gzip_file_that_is_cut_or_damaged(found, at):
    data = os.urandom(1 << 16)
    good = gzip.compress(member("a", POINT) + member("b", data) + member("c", POINT) + END)
    path = written(os.path.join(at, "cut.tgz"), good[:5000])
    members, told, status = found(path)
    assert members[b"!a"] == ("accepted", None) and status == 3
    assert members[b"!b"] == ("unreadable", "the pack is cut or damaged amid it")
    assert members[b""][0] == "unreadable" and members[b""][1].startswith("it is cut: it ends at byte ")
    assert len(told) == 2
    broken = bytearray(good)
    broken[-6] ^= 1                                             # (its length, after its sum)
    members, told, _ = found(written(os.path.join(at, "sum.tgz"), bytes(broken)))
    assert members[b"!c"] == ("accepted", None) and "incorrect" in members[b""][1]
    members, made = members_of(written(os.path.join(at, "none.tgz"), b"\x1f\x8b" + bytes(500)))
    assert not members and made.why.startswith("it is damaged behind byte 0")


def test_behind_a_header_that_is_damaged_the_rest_is_read(found, at):
    data = bytearray(whole())
    data[2048 + 3] ^= 0x55
    path = written(os.path.join(at, "damaged.tar"), bytes(data))
    reason = "it is damaged at byte 2048"
    members, told, status = found(path)
    assert members == {b"": ("unreadable", reason), **{b"!%d" % each: ("accepted", None) for each in (0, 1, 3, 4)}}
    assert (told, status) == ([": " + reason], 3)
    members, told, _ = found(squeezed(os.path.join(at, "damaged.tar.gz"), bytes(data)))
    assert len(members) == 5 and members[b""] == ("unreadable", reason)


MORE = "something stands behind its end, and isn't read"


@pytest.mark.parametrize("data, reason", [
    (b"what is this?" * 1000, "it is no tar file"), (whole() + whole(), MORE), (whole() + bytes(8192) + b"x", MORE),
    (whole() + bytes(2 << 20), None), (bytes(10240), None)], ids=range(5))
def test_what_is_no_tar_file_or_more_than_one(at, data, reason):
    _, made = members_of(written(os.path.join(at, "x.tar"), data))
    assert made.why == reason
    members, made = members_of(squeezed(os.path.join(at, "x.tar.gz"), data))
    assert made.why == reason


def test_a_pack_by_another_name_is_read_as_what_it_is(at):
    for name, data in (("plain.tgz", whole()), ("packed.tar", gzip.compress(whole())),
                       ("two.tgz", gzip.compress(whole()[:3000]) + gzip.compress(whole()[3000:]) + b"\0\0")):
        members, made = members_of(written(os.path.join(at, name), data))
        assert len(members) == 5 and made.why is None


LONGNAME, NEGATIVE = b"L", b"\xff" * 12
TYPE = (156, 1)


@pytest.mark.parametrize("head", [
    header("x", SIZE, type=LONGNAME), header("x", SIZE, type=tarfile.XHDTYPE),
    header("x", SIZE, type=tarfile.XGLTYPE), header("x", 2 << 20, type=LONGNAME),
    with_field(header("x", 0), FIELDS["size"], NEGATIVE),
    with_field(header("x", 0, type=tarfile.XHDTYPE), FIELDS["size"], NEGATIVE),
    with_field(header("x", 0), FIELDS["size"], b"\x80" + b"\x7f" * 11),
    (header("x", 512, type=LONGNAME) + bytes(512)) * 1500,
    (header("x", 512, type=tarfile.XHDTYPE) + b"9" * 512) * 1500,
    header("x", 30, type=tarfile.XHDTYPE) + b"30 GNU.sparse.map=1,2,3,4,5,\n".ljust(512, b"\0"),
    header("x", 28, type=tarfile.XHDTYPE) + b"28 GNU.sparse.major=" .ljust(512, b"\0"),
    header("x", 512, type=tarfile.GNUTYPE_SPARSE) + bytes(512), b"\xff" * 512, pax(b"9" * 20_000),
    pax(b"9" * 1_000_000), pax(record("comment", b"x" * 70_000)), pax(record("size", b"9" * 5000)),
    pax(record("path", b"")) * 16 + pax(record("path", b"other")),
    b"".join(pax(record("comment", b"x" * 9000), record("path", b"other")) for _ in range(8)),
    header("x", 0, type=tarfile.XGLTYPE) * 40, header("x", 5, type=tarfile.XGLTYPE) + b"what?".ljust(512, b"\0")],
    ids=range(21))
def test_headers_that_are_made_up(at, head):
    path = written(os.path.join(at, "made up.tar"), member("first", POINT) + head + member("last", POINT) + END)
    before = resource.getrusage(resource.RUSAGE_SELF).ru_maxrss
    members, made = members_of(path)
    assert members[0].name == b"first" and (made.why or len(members) >= 2)
    assert members[-1].name == b"last" and len(members) >= 2
    assert resource.getrusage(resource.RUSAGE_SELF).ru_maxrss - before < 32 << 10


@pytest.mark.parametrize("head, number", [
    (pax(record("path", b"other")), 16), (header("x", 6, type=LONGNAME) + b"other\0".ljust(512, b"\0"), 16),
    (header("x", 0, type=tarfile.XGLTYPE), 16), (header("x", 0, type=LONGNAME), 16),
    (header("x", 0, type=tarfile.GNUTYPE_LONGLINK), 16), (pax(record("comment", b"x" * 15_000)), 4)], ids=range(6))
def test_how_much_may_stand_before_a_member(at, head, number):
    """So many headers, or 64 KiB, are used; where one more stands there, none is, and the pack has its reason."""
    name = b"other" if b"other" in head else b"last"
    for ending, place in ((".tar", written), (".tar.gz", squeezed)):
        path = place(os.path.join(at, "most" + ending), head * number + member("last", POINT) + END)
        members, made = members_of(path)
        assert [(each.name, each.state) for each in members] == [(name, tables.READ)] and made.why is None
        path = place(os.path.join(at, "more" + ending),
                     member("first", POINT) + head * (number + 1) + member("last", POINT) + member("b", POINT) + END)
        members, made = members_of(path)
        assert [each.name for each in members] == [b"first", b"last", b"b"]
        assert made.why == "it is damaged at byte 1024"
        with open_file(os.fsencode(path)) as file:
            again = open_pack(file, os.fsencode(path), PackLimits(MOST), goes_back=True)
            assert [again.member_at(each.at) for each in members] == members


def test_what_a_header_says_of_a_member(at):
    """The first of several headers counts, and a name that ends with '/' is a folder where the old form has it."""
    long = header("x", 6, type=LONGNAME) + b"other\0".ljust(512, b"\0")
    old = with_field(header("short/", 0), TYPE, b"\0")
    data = (long + pax(record("path", b"second")) + member("a", POINT) + old + pax(record("path", b"b/c"))
            + with_field(header("b/", 5), TYPE, b"\0") + POINT.ljust(512, b"\0") + pax(record("size", b"5"))
            + header("c", 600) + POINT.ljust(512, b"\0") + header("d", 5, type=tarfile.CONTTYPE)
            + POINT.ljust(512, b"\0") + END)
    members, made = members_of(written(os.path.join(at, "said.tar"), data))
    assert [(each.name, each.data) for each in members] == [
        (b"other", POINT), (b"b/c", POINT), (b"c", POINT), (b"d", POINT)] and made.why is None


def test_names_of_the_forms_of_tar(at):
    """Where GNU tar's own form has times, that of POSIX has the beginning of a name."""
    posix = tarfile.TarInfo("front/" * 18 + "name").tobuf(tarfile.USTAR_FORMAT)
    gnu = with_field(header("name", 0), (345, 12), b"13700000000\0")
    members, made = members_of(written(os.path.join(at, "forms.tar"), posix + gnu + END))
    assert [each.name for each in members] == [b"front/" * 18 + b"name", b"name"] and made.why is None


def entries_at(places, data=POINT):
    """A zip file of members that have these places, each by itself; a place is a number or none for the next."""
    body = rows = b""
    for number, place in enumerate(places):
        local, front, rest = entry(b"%d" % number, data, len(data), 0)
        rows += front + struct.pack("<L", len(body) if place is None else place) + rest
        body += local if place is None else b""
    end = struct.pack("<HHHHLLH", 0, 0, len(places), len(places), len(rows), len(body), 0)
    return body + rows + b"PK\5\6" + end


@pytest.mark.parametrize("data, names", [
    (entries_at([None, None, None]), b"012"), (entries_at([None, 0, None]), b"2"),
    (entries_at([None, None, 3, None]), b"13"), (entries_at([None] * 3 + [0] * 400), b"12"),
    (zip_of([entry(b"0", POINT, 5, 0), (entry(b"1", b"", 1 << 20, 0)[0], *entry(b"1", bytes(1 << 20), 5, 0)[1:])]),
     b"0")], ids=range(5))
def test_members_of_a_zip_file_that_overlap(at, data, names):
    members, made = members_of(written(os.path.join(at, "overlap.zip"), data))
    assert b"".join(each.name for each in members if each.state == tables.READ) == names and made.why is None
    reason = "it overlaps another member, or the directory"
    assert {each.why for each in members if each.state != tables.READ} <= {reason}


@pytest.mark.parametrize("make", [
    tar_bomb, zip_bomb, lambda path, size: zip_bomb(path, size, 100),
    lambda path, size: written(path, gzipped(deflated(header("x", size, type=LONGNAME), size=size))),
    lambda path, size: written(path, gzipped(deflated(b"", size=size)))],
    ids=["tar.gz", "zip", "zip that lies", "name", "nothing but zeros"])
def test_a_bomb(naplps, at, make, request):
    """10 GiB are a row, cost no memory, and aren't unpacked."""
    kind = request.node.callspec.id
    path = make(os.path.join(at, "bomb.zip" if "zip" in kind else "bomb.tar.gz"), SIZE)
    assert os.path.getsize(path) < 16 << 20
    store = os.path.join(at, "pages.db")
    ran, memory = with_peak([COMMAND, "scan", path, "-o", store, "--jobs", "1"], env=dict(os.environ, NAPLPS=naplps))
    status, said = ran.returncode, ran.stderr.decode()
    assert memory < 64 << 20 and "Traceback" not in said
    if kind in ("tar.gz", "zip"):
        told = dict(rows(store, "SELECT replace(name, ?, ''), reason FROM listing", path))
        assert told["!bomb.nap"] == "%d bytes" % SIZE
    if kind == "zip that lies":
        assert "!bomb.nap: it can't be unpacked: Bad CRC-32" in said and status == 3
    if kind == "tar.gz":
        assert "isn't read: it unpacks to more than 100 times its size" in said and status == 3
    _, made = members_of(path)
    if kind not in ("zip", "zip that lies"):
        assert made.stream.come < 2 * MOST


def test_a_long_member_that_is_no_bomb_is_passed_over(at):
    noise = os.urandom(20 << 20)
    members, made = members_of(pack(os.path.join(at, "long.tgz"), {"a": POINT, "noise": noise, "b": POINT}))
    assert [each.state for each in members] == [tables.READ, tables.TOO_LONG, tables.READ] and made.why is None


def test_a_hole_in_a_tar_file_is_passed_over(at):
    path = written(os.path.join(at, "hole.tar"), header("hole", SIZE))
    with open(path, "r+b") as file:
        file.seek(512 + SIZE)
        file.write(member("last", POINT) + END)
    members, made = members_of(path)
    assert [(each.name, each.state) for each in members] == [(b"hole", tables.TOO_LONG), (b"last", tables.READ)]


COUNT = """
import resource, sys
sys.path.insert(0, sys.argv[1])
from naplps_pages.packs.reading import open_file, open_pack
from naplps_pages.packs import PackLimits
def peak():
    return resource.getrusage(resource.RUSAGE_SELF).ru_maxrss
with open_file(sys.argv[2].encode()) as file:
    pack = open_pack(file, sys.argv[2].encode(), PackLimits(1 << 24))
    members = pack.members()
    next(members)
    before = peak()
    number = 1 + sum(1 for _ in members)
print(number, peak() - before)
"""


@pytest.mark.parametrize("ending", [".tar", ".tgz"])
def test_a_hundred_thousand_members_cost_no_memory(at, ending):
    path = os.path.join(at, "many" + ending)
    block = bytearray(header("0000000", 0))
    total = sum(block) - sum(block[148:156]) + 8 * 32 - 7 * 48
    with (open(path, "wb") if ending == ".tar" else gzip.open(path, "wb", 1)) as out:
        for number in range(100_000):
            name = b"%07d" % number
            block[:7] = name
            block[148:156] = b"%06o\0 " % (total + sum(name))
            out.write(block)
        out.write(END)
    said = subprocess.run([sys.executable, "-c", COUNT, PACKAGES, path], capture_output=True, text=True, check=True)
    number, more = map(int, said.stdout.split())
    assert number == 100_000 and more < 2 << 10


def test_a_zip_file_with_what_is_no_page(found, at):
    stored = [
        entry(b"first", POINT, 5, 0), entry(b"secret", POINT, 5, 0, flags=1), entry(b"squeezed", POINT, 5, 12),
        entry(b"imploded", POINT, 5, 6), entry(b"strong", POINT, 5, 0, flags=0x40),
        entry(b"link", b"/etc", 4, 0, mode=0o120777), entry(b"device", b"", 0, 0, mode=0o20666),
        entry(b"folder", b"", 0, 0, mode=0o40755), entry(b"folder/", b"", 0, 0),
        entry(b"sum", POINT, 5, 0, sum_of=b"other"), entry(b"short", POINT, 9, 0),
        entry(b"named", POINT, 5, 0, local=b"other"), entry(b"noise", b"\xff\xff\xff", 5, 8),
        entry(b"../up", POINT, 5, 0), entry(b"/top", POINT, 5, 0),
        entry(b"in.tar", b"", 0, 0), entry(b"last", OUTSIDE, 5, 0)]
    path = written(os.path.join(at, "hostile.zip"), zip_of(stored))
    members, told, status = found(path)
    reasons = {name: reason for name, (_, reason) in members.items()}
    assert reasons.pop(b"!sum") == "it can't be unpacked: Bad CRC-32 for file 'sum'"
    for name in (b"!short", b"!named", b"!noise"):
        assert members[name][0] == "unreadable" and reasons.pop(name)
    assert reasons.pop(b"!strong")
    assert reasons == {
        b"!first": None, b"!secret": "it is encrypted", b"!squeezed": "its compression isn't known: method 12",
        b"!imploded": "its compression isn't known: method 6", b"!link": "a symbolic link", b"!device": "a device",
        b"!../up": "its name leads out of the pack", b"!/top": "its name is absolute",
        b"!in.tar": "a pack in a pack isn't opened", b"!last": None} and status == 3


@pytest.mark.parametrize("data", [
    b"", b"PK", b"what is this?" * 1000, zip_of([entry(b"a", POINT, 5, 0)])[:-30],
    zip_of([entry(b"a", POINT, 5, 0)], b"PK\1\2" + bytes(10)), zip_of([entry(b"a", POINT, 5, 0)], b"x" * 60),
    zip_of([entry(b"\xff\xfe", POINT, 5, 0, flags=1 << 11)])], ids=range(7))
def test_a_zip_file_without_a_directory(found, at, data):
    members, told, status = found(written(os.path.join(at, "bad.zip"), data))
    assert list(members) == [b""] and members[b""][0] == "unreadable" and status == 3
    assert told == [": " + members[b""][1]] and "can't be read as a zip file" in told[0]


def test_a_directory_that_is_too_long(at, monkeypatch):
    monkeypatch.setattr("naplps_pages.packs.zips.MOST_DIRECTORY", 1000)
    path = pack(os.path.join(at, "many.zip"), {"%d" % number: POINT for number in range(100)})
    members, made = members_of(path)
    assert not members and "its directory is longer than 1000 bytes" in made.why


@settings(max_examples=400)
@given(seed=st.integers(0, 1 << 32))
def test_packs_with_any_damage_end(tmp_path_factory, seed):
    ending, data = random_pack(Random(seed))
    members, _ = members_of(written(os.path.join(tmp_path_factory.getbasetemp(), "x." + ending), data), 1 << 16)
    assert len(members) < 100 and all(each.data is None or len(each.data) == each.size for each in members)
