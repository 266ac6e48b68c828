"""What a file is: page, text or blank; and what a refused file looks like."""
import base64
import gzip
import io
import json
import os
import struct
import subprocess
import tarfile
import zipfile
from random import Random

import pytest
from hypothesis import given
from hypothesis import strategies as st

import gallery
import old_files
from command import LIB, TOP, file
from naplps.answers import Accepted, Refusal
from naplps.entry import read_line
from naplps_pages.file_kinds import MAGIC, MOST_LOOKED_AT, kind, looks_like
from samples import OUTSIDE, POINT, needs_node, with_parity

from dev.packaging.for_pages import kinds as kinds_for_pages

TYPING = {"CHAR", "MOVE", "CLEAR", "BELL"}
BYTES = st.lists(st.sampled_from([b"A", b"\n", b"\x0c", b"\x07", b"\x0f", b"\0", b"\x1c\x41\x42", b"\x1e", b"\x09",
                                  b"\x0e", b"\x1d\x41", b"\x19\x41", b"\x1b\x48", b"\x0e\x26\x52"])).map(b"".join)


def kinds(run, folder, *names):
    """Kind and looks of files."""
    rows = map(json.loads, run(["check", "--json", *names], cwd=str(folder)).stdout.splitlines())
    return [(row["kind"], row["looks_like"]) for row in rows]


@pytest.mark.parametrize("data, wanted, behind", [
    (b"", "blank", " (blank)"), (b"\0\0\0", "blank", " (blank)"), (b"\x0e\x0f", "blank", " (blank)"),
    (b"hello\r\n", "text", " (text)"), (b"\x0cA\x07", "text", " (text)"), (b"<html>\n", "text", " (text)"),
    (POINT, "page", ""), (b"\x1d\x41", "page", ""), (b"\x1b\x48A", "page", ""), (b"A\x0e", "page", "")])
def test_kinds_of_accepted_files(run, tmp_path, data, wanted, behind):
    file(tmp_path, "page", data)
    assert kinds(run, tmp_path, "page") == [(wanted, None)]
    said = run(["check", "page"], cwd=str(tmp_path)).stdout.decode()
    assert said.startswith("accepted ") and said.endswith(" entries%s\n" % behind)


def test_a_page_above_16_mib_has_its_kind(run, tmp_path):
    for name, data, wanted in (("text", b"\0" * (17 << 20) + b"A", "text"), ("blank", b"\0" * (17 << 20), "blank"),
                               ("page", b"A" + b"\0" * (17 << 20) + POINT, "page"),
                               ("gif", b"GIF89a" + b"A" * (17 << 20) + b"\xff", None)):
        file(tmp_path, name, data)
        assert kinds(run, tmp_path, name) == [(wanted, None if wanted else "GIF")]


def test_pages_of_the_examples_are_pages_and_look_like_no_other_format(run):
    assert [looks_like(data[:512], len(data)) for data in gallery.pages().values()] == [None] * len(gallery.pages())
    assert kind([POINT], Accepted(1)) == "page" and Refusal(1, "EighthBit", None, 0).line == "refused 1 EighthBit at 0"
    names = sorted(name for name, data in gallery.pages().items() if name != "signature.nap")
    assert kinds(run, os.path.join(TOP, "examples", "gallery"), *names) == [("page", None)] * len(names)


@given(BYTES)
def test_text_only_types_moves_clears_and_rings(program, data):
    answer = program.ask("list", data)
    if isinstance(answer, Accepted):
        found = kind([data[:1], data[1:]], answer)
        some = [read_line(line) for line in answer.body.decode().splitlines()]
        assert (found == "blank") == (not some)
        if found == "text":
            assert {each.kind for each in some} <= TYPING
            assert all(each.set == "primary" for each in some if each.kind == "CHAR")
        elif found == "page":
            assert any(byte in data for byte in (0x0E, 0x19, 0x1B, 0x1D))


def test_what_refused_files_look_like(run, tmp_path):
    zipped, tarred = io.BytesIO(), io.BytesIO()
    with zipfile.ZipFile(zipped, "w") as pack:
        pack.writestr("page", POINT)
    with tarfile.open(fileobj=tarred, mode="w") as pack:
        member = tarfile.TarInfo("\xe9t\xe9")
        member.size = 5
        pack.addfile(member, io.BytesIO(POINT))
    some = {"gif": b"GIF89a\x10\0\x10\0\xf7\0\0", "zip": zipped.getvalue(), "gzip": gzip.compress(POINT),
            "pdf": b"%PDF-1.4\n%\xe2\xe3\xcf\xd3\n", "ole": bytes.fromhex("D0CF11E0A1B11AE1") + bytes(504),
            "ds_store": b"\0\0\0\1Bud1\0\0\x10\0\0\0\x08\0\xff", "html": b"<html>caf\xc3\xa9",
            "tar": tarred.getvalue(), "other": b"\xff\x00\x12", "outside": OUTSIDE, "mac": mac_binary("PAGE", OUTSIDE)}
    assert dict(zip(some, kinds(run, tmp_path, *(file(tmp_path, name, data) for name, data in some.items())))) == {
        "gif": (None, "GIF"), "zip": (None, "ZIP"), "gzip": (None, "gzip"), "pdf": (None, "PDF"),
        "ole": (None, "OLE (an older Office file)"), "ds_store": (None, ".DS_Store"), "html": (None, "HTML"),
        "tar": (None, "tar"), "other": (None, None), "outside": (None, None), "mac": (None, "MacBinary")}
    said = run(["check", "gif", "outside"], cwd=str(tmp_path)).stdout.decode().splitlines()
    assert said[0].startswith("gif: refused ") and said[0].endswith(" (looks like GIF)")
    assert said[1] == "outside: refused 10 Outside at 3"


def mac_binary(name, data):
    """A file of a Macintosh with a data fork alone."""
    header = bytearray(128)
    header[1:2 + len(name)] = bytes([len(name)]) + name.encode("ascii")
    header[65:73] = b"TEXTttxt"
    struct.pack_into(">II", header, 83, len(data), 0)
    return bytes(header) + data + bytes(-len(data) % 128)


@given(st.binary(max_size=600), st.sampled_from(MAGIC))
def test_each_magic_number_is_found_at_its_place(data, magic):
    made = bytes(magic.offset) + magic.data + data
    found = looks_like(made[:512], len(made))
    assert found is not None and (magic.offset or found == magic.name or made.startswith(tuple(
        other.data for other in MAGIC if other.name == found and not other.offset)))


@given(st.binary(max_size=600), st.integers(0, 1 << 40))
def test_any_bytes_have_an_answer_and_a_text_has_no_control_of_pages(data, length):
    assert looks_like(data, length) is None or isinstance(looks_like(data, length), str)
    told = looks_like(data, len(data))
    if told and told.startswith("text in ") and not data.startswith((b"\xff\xfe", b"\xfe\xff", b"\xef\xbb\xbf")):
        assert not set(data.rstrip(b"\x1a")) & {0x0E, 0x0F, 0x19, 0x1B, 0x1D}


FRENCH = "L'\u00e9t\u00e9 \u00e0 Montr\u00e9al, caf\u00e9 et th\u00e9\u00e2tre.\r\n" * 5
# (by the table of code page 437: \u00e9 is 82, \u00e0 is 85, \u00e2 is 83)
OF_437 = FRENCH.replace("\u00e9", "\x82").replace("\u00e0", "\x85").replace("\u00e2", "\x83").encode("latin-1")


LOOKS = [
    (FRENCH.encode("latin-1"), "text in Latin-1"), (FRENCH.encode("latin-1") + b"\x1a", "text in Latin-1"),
    ("caf\u00e9".encode("latin-1"), "text in Latin-1"), (FRENCH.encode("utf-8"), "text in UTF-8"),
    (("a" * 4096 + "\u00e9").encode("utf-8"), None),
    (("\u00e9" + "a" * 4093 + "\u00e9").encode("utf-8"), "text in UTF-8"),
    (OF_437, "text in a code page of DOS"), (FRENCH.encode("ascii", "ignore"), None),
    (b"\x0e" + FRENCH.encode("latin-1"), None), (with_parity(FRENCH.encode("ascii", "ignore")), None),
    (b"\x1a\x08PAGE.NAP\0\0\0\0\0" + struct.pack("<L", 20) + bytes(30), "ARC"), (b"\x1a\x08" + bytes(60), None),
    (b"\x1a\x08PAGE.NAP", None), (b"\x1a\x0cPAGE.NAP" + bytes(40), None),
    (b"\x60\xea\x20\0", "ARJ"), (b"!\x0b-lzs-", "LHA"), (b"SZDD\x88\xf0\x27\x33A", "SZDD"), (b"\x0a\5\1\x08", "PCX"),
    (b"\xeb\x3c\x90MSDOS3.3" + struct.pack("<H", 512) + bytes(497) + b"\x55\xaa", "disk of DOS"),
    (b"\xeb\x3c\x90MSDOS3.3" + struct.pack("<H", 512) + bytes(499), None)]


@pytest.mark.parametrize("data, wanted", LOOKS, ids=lambda each: str(each)[:20])
def test_texts_and_what_else_a_box_holds(data, wanted):
    assert looks_like(data[:4096], len(data)) == wanted


def changed(chance, data):
    """Bytes that are cut, or of which some are others."""
    some = bytearray(data[:chance.randrange(len(data) + 1)] if chance.random() < 0.3 else data)
    for _ in range(chance.randrange(3) if some else 0):
        some[chance.randrange(min(len(some), 600))] = chance.randrange(256)
    return bytes(some)


@needs_node
def test_the_page_in_a_browser_says_the_same():
    chance = Random(84)
    some = [data for data, _ in LOOKS] + [each.data for each in old_files.box(300)] + [mac_binary("PAGE", OUTSIDE)]
    some += [bytes(magic.offset) + magic.data + chance.randbytes(600) for magic in MAGIC]
    some += [changed(chance, chance.choice(some)) for _ in range(3000)]
    asked = {"kinds": kinds_for_pages(), "files": [base64.b64encode(data).decode("ascii") for data in some]}
    said = subprocess.run(["node", os.path.join(LIB, "looks_answers.mjs")], input=json.dumps(asked).encode("ascii"),
                          stdout=subprocess.PIPE, check=True)
    wanted = [looks_like(data[:MOST_LOOKED_AT], len(data)) or "" for data in some]
    assert json.loads(said.stdout) == wanted
    assert set(wanted) >= {magic.name for magic in MAGIC} | {
        "", "MacBinary", "ARC", "disk of DOS", "text in Latin-1", "text in UTF-8", "text in a code page of DOS"}
