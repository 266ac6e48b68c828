"""Packs by chance: some as archivers make them, some with extreme numbers, long chains or overlaps, many damaged."""
import gzip
import io
import struct
import tarfile
import zipfile
from random import Random
from typing import Tuple

from extremes import NUMBERS, gzips, pax, paxes, record, tars, zips
from packers import entry, header, member, zip_of
from samples import MACRO, OUTSIDE, POINT, SPELLED

PAGES = (POINT, SPELLED, OUTSIDE, MACRO, b"", b"hello", b"\x1b", b"\x0e" * 700)
NAMES = ("a.nap", "b/c.nap", "./d", "e//f", "../up", "/top", "x" * 300, "y" * 5000, "in.zip", "\u202e.nap", "g\udcff",
         "a!b", "!", "h\n\x1b[31m", "..", ".", "i/../j", "k/")
KINDS = (tarfile.REGTYPE,) * 9 + (tarfile.AREGTYPE, tarfile.CONTTYPE, tarfile.LNKTYPE, tarfile.SYMTYPE, tarfile.CHRTYPE,
                                  tarfile.BLKTYPE, tarfile.DIRTYPE, tarfile.FIFOTYPE, tarfile.GNUTYPE_SPARSE, b"Z")


def page(chance: Random) -> bytes:
    """The bytes of a page, or of another file."""
    return chance.choice(PAGES) if chance.random() < 0.8 else chance.randbytes(chance.choice((1, 100, 5000)))


def a_tar(chance: Random) -> bytes:
    """A tar file that could be made."""
    out = io.BytesIO()
    form = chance.choice((tarfile.USTAR_FORMAT, tarfile.GNU_FORMAT, tarfile.PAX_FORMAT))
    with tarfile.open(fileobj=out, mode="w", format=form, errors="surrogateescape") as tar:
        for _ in range(chance.randrange(8)):
            info = tarfile.TarInfo(chance.choice(NAMES))
            info.type, data = chance.choice(KINDS), page(chance)
            info.size = len(data) if info.isreg() else 0
            try:
                tar.addfile(info, io.BytesIO(data))
            except ValueError:
                continue  # the form has no room for the name
    return out.getvalue()


def a_zip(chance: Random) -> bytes:
    """A zip file that could be made, or one by hand."""
    if chance.random() < 0.3:
        return bytes(zip_of([entry(
            chance.choice((b"a", b"b/c", b"../d", b"\xff", b"e\0f")), page(chance), chance.choice((5, 0, 70_000)),
            chance.choice((0, 0, 8, 12, 99)), flags=chance.choice((0, 0, 1, 8, 1 << 11)),
            mode=chance.choice((0, 0o100644, 0o120777, 0o010644, 0o040755))) for _ in range(chance.randrange(6))]))
    out = io.BytesIO()
    with zipfile.ZipFile(out, "w") as archive:
        for name in chance.sample(NAMES, chance.randrange(8)):
            if name.isprintable():
                archive.writestr(name, page(chance), chance.choice(
                    (zipfile.ZIP_STORED, zipfile.ZIP_DEFLATED, zipfile.ZIP_BZIP2)))
    return out.getvalue()


def extreme(chance: Random) -> Tuple[str, bytes]:
    """A pack with a number by chance in a field by chance; its ending, and its bytes."""
    number = chance.choice(NUMBERS) if chance.random() < 0.5 else chance.getrandbits(chance.choice((8, 33, 64, 88)))
    kind = chance.choice(("tar", "pax", "zip", "tgz"))
    packs = list({"tar": tars, "zip": zips, "tgz": gzips}[kind](number) if kind != "pax" else paxes(b"%d" % number))
    return {"pax": "tar"}.get(kind, kind), chance.choice(packs)[1]


def chained(chance: Random) -> bytes:
    """A tar file of pages with many headers before them."""
    data = b""
    for number in range(chance.randrange(1, 5)):
        for _ in range(chance.choice((0, 1, 15, 16, 17, 18, 60))):
            data += chance.choice((
                lambda: pax(record("path", b"p%d" % number)),
                lambda: pax(record("comment", b"x" * chance.randrange(20_000))),
                lambda: pax(record("size", b"%d" % chance.randrange(9)), record("GNU.sparse.major", b"1")),
                lambda: pax(record("comment", b"g"), letter=tarfile.XGLTYPE),
                lambda: pax(b"9" * chance.randrange(30_000)),
                lambda: header("x", 6, type=tarfile.GNUTYPE_LONGNAME) + b"long%d" % number + bytes(507),
                lambda: header("x", chance.choice((0, 512, 70_000, 1 << 40)), type=tarfile.GNUTYPE_LONGLINK)))()
        data += member("m%d" % number, page(chance))
    return data + bytes(1024)


def overlapping(chance: Random) -> bytes:
    """A zip file of which members have places by chance, also one place."""
    number = chance.randrange(2, 40)
    body = rows = b""
    places = [0]
    for index in range(number):
        local, front, name = entry(b"%d" % index, page(chance), chance.choice((5, 0, 700)), chance.choice((0, 8)))
        place = len(body) if chance.random() < 0.6 else chance.choice((*places, chance.randrange(len(body) + 1)))
        rows += front + struct.pack("<L", place) + name
        if place == len(body):
            places.append(place)
            body += local
    return body + rows + b"PK\5\6" + struct.pack("<HHHHLLH", 0, 0, number, number, len(rows), len(body), 0)


def damaged(chance: Random, pack: bytes) -> bytes:
    """The bytes with some changed, cut, doubled, moved or put in."""
    data = bytearray(pack)
    for _ in range(chance.choice((0, 1, 1, 2, 8))):
        at, length = chance.randrange(len(data) + 1), chance.choice((1, 1, 4, 12, 512))
        chance.choice((lambda: data.__setitem__(slice(at, at + length), chance.randbytes(length)),
                       lambda: data.__setitem__(slice(at, at + length), b""),
                       lambda: data.__setitem__(slice(at, at), data[at:at + length]),
                       lambda: data.__setitem__(slice(at, at), header("put in", length)),
                       lambda: data.__delitem__(slice(at, None)) if chance.random() < 0.3 else None))()
    return bytes(data)


def random_pack(chance: Random) -> Tuple[str, bytes]:
    """The ending and the bytes of a pack."""
    if chance.random() < 0.3:
        ending, data = extreme(chance)
    else:
        ending = chance.choice(("tar", "tgz", "zip", "tar.gz", "TAR"))
        special = chance.random() < 0.25
        if ending == "zip":
            data = overlapping(chance) if special else a_zip(chance)
        else:
            data = chained(chance) if special else a_tar(chance)
    if chance.random() < 0.6:
        data = damaged(chance, data)
    if ending in ("tgz", "tar.gz") and not data.startswith(b"\x1f\x8b"):
        data = gzip.compress(data, chance.choice((0, 1, 9)), mtime=0)
        if chance.random() < 0.5:
            data = damaged(chance, data)
    return ending, data
