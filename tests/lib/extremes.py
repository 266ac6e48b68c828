"""Packs with extreme numbers in their headers, for each numeric field of tar, pax, zip, zip64 and gzip."""
import gzip
import struct
import tarfile
import zlib

from packers import header, member
from samples import POINT, SPELLED

# What a number may be: small and odd, and around the ends of 31, 32, 63, 64 and more bits.
NUMBERS = (0, 1, 511, 513, (1 << 31) - 1, 1 << 31, (1 << 32) - 1, 1 << 32, (1 << 62), (1 << 63) - 513, (1 << 63) - 1,
           1 << 63, (1 << 63) + 1, (1 << 64) - 1, 1 << 64, (1 << 88) - 1)
# Where the numbers of a tar header stand, and how long they are.
FIELDS = {"mode": (100, 8), "uid": (108, 8), "gid": (116, 8), "size": (124, 12), "mtime": (136, 12), "sum": (148, 8),
          "major": (329, 8), "minor": (337, 8)}
# Of a sparse file, as GNU tar has it: the first piece, and the real size.
SPARSE = {"offset": (386, 12), "bytes": (398, 12), "real": (483, 12)}
KEYS = ("size", "mtime", "atime", "ctime", "uid", "gid", "GNU.sparse.size", "GNU.sparse.realsize", "GNU.sparse.offset",
        "GNU.sparse.numbytes", "GNU.sparse.numblocks", "GNU.sparse.map", "GNU.sparse.major", "SCHILY.realsize")
END = bytes(1024)


def field(number, length, binary):
    """A number as a field of a header, in octal digits or in base 256; cut where it has no room."""
    if binary:
        mark = b"\xff" if number < 0 else b"\x80"
        return mark + (number & ((1 << 8 * (length - 1)) - 1)).to_bytes(length - 1, "big")
    return (b"%0*o" % (length - 1, max(0, number)))[-length:].ljust(length, b"\0")[:length]


def summed(block):
    """A header with its sum."""
    block = bytearray(block)
    block[148:156] = b" " * 8
    block[148:156] = b"%06o\0 " % sum(block)
    return bytes(block)


def with_field(block, where, data, sums=True):
    """A header with other bytes at a field."""
    at, length = where
    block = block[:at] + data[:length] + block[at + length:]
    return summed(block) if sums else block


def tar_of(block):
    """A tar file in which this header stands between two pages."""
    return member("first.nap", POINT) + block + POINT + bytes(512 - len(POINT)) + member("last.nap", SPELLED) + END


def tars(number):
    """Tar files with this number in each field in turn, by what they are."""
    for binary in (False, True):
        kind = "base 256" if binary else "octal"
        for name, where in FIELDS.items():
            block = with_field(header("odd.nap", 5), where, field(number, where[1], binary), name != "sum")
            yield "%s %s" % (kind, name), tar_of(block)
        for name, where in SPARSE.items():
            block = with_field(header("odd.nap", 5, type=tarfile.GNUTYPE_SPARSE), where,
                               field(number, where[1], binary))
            yield "%s sparse %s" % (kind, name), tar_of(block)
        for letter in (tarfile.XHDTYPE, tarfile.XGLTYPE, tarfile.GNUTYPE_LONGNAME, tarfile.GNUTYPE_LONGLINK,
                       tarfile.DIRTYPE, tarfile.SYMTYPE, tarfile.CHRTYPE, tarfile.CONTTYPE, b"Z"):
            block = with_field(header("odd.nap", 5, type=letter), FIELDS["size"], field(number, 12, binary))
            yield "%s size of type %r" % (kind, letter), tar_of(block)


def record(key, value):
    """A record of a pax header."""
    rest = b" %s=%s\n" % (key.encode(), value)
    length = len(rest)
    while length != len(rest) + len(b"%d" % length):
        length = len(rest) + len(b"%d" % length)
    return b"%d" % length + rest


def pax(*records, letter=tarfile.XHDTYPE):
    """A pax header of these records."""
    data = b"".join(records)
    return header("pax", len(data), type=letter) + data + bytes(-len(data) % 512)


def paxes(text):
    """Tar files with this text for each number of pax in turn, by what they are."""
    for letter in (tarfile.XHDTYPE, tarfile.XGLTYPE):
        for key in KEYS:
            records = [record(key, text)] + [record("GNU.sparse.name", b"odd.nap")] * key.startswith("GNU.sparse.")
            yield "pax %s %r" % (key, letter), tar_of(pax(*records, letter=letter) + header("odd.nap", 5))
        yield "pax length %r" % letter, tar_of(pax(text + b" size=5\n", letter=letter) + header("odd.nap", 5))


# The numbers of a zip file, by name: those of the local header, of the directory, of its end, and of zip64.
LOCAL = (("version", "H"), ("flags", "H"), ("method", "H"), ("time", "H"), ("date", "H"), ("sum", "L"), ("packed", "L"),
         ("size", "L"), ("name length", "H"), ("extra length", "H"))
DIRECTORY = (("made by", "H"), *LOCAL, ("comment length", "H"), ("disk", "H"), ("internal", "H"), ("external", "L"),
             ("offset", "L"))
ENDING = (("disk", "H"), ("first disk", "H"), ("rows here", "H"), ("rows", "H"), ("length", "L"), ("offset", "L"),
          ("comment length", "H"))
EXTRA = (("id", "H"), ("length", "H"), ("size", "Q"), ("packed", "Q"), ("offset", "Q"), ("disk", "L"))
ENDING64 = (("length", "Q"), ("made by", "H"), ("version", "H"), ("disk", "L"), ("first disk", "L"), ("rows here", "Q"),
            ("rows", "Q"), ("size", "Q"), ("offset", "Q"))
LOCATOR = (("disk", "L"), ("offset", "Q"), ("disks", "L"))
TABLES = {"local": LOCAL, "directory": DIRECTORY, "ending": ENDING, "extra": EXTRA, "ending64": ENDING64,
          "locator": LOCATOR}
ALL_BITS = {"H": 0xFFFF, "L": 0xFFFFFFFF, "Q": (1 << 64) - 1}


def zip_with(odd=None, number=0, wide=True):
    """A zip file of one page, in zip64 or not, with this number in the field (table, name)."""
    def made(table, **values):
        some = ((kind, number if (table, name) == odd else values.get(name.replace(" ", "_"), 0))
                for name, kind in TABLES[table])
        return b"".join(struct.pack("<" + kind, each & ALL_BITS[kind]) for kind, each in some)
    name, many = b"odd.nap", 0xFFFFFFFF
    own = {"sum": zlib.crc32(POINT), "packed": len(POINT), "size": len(POINT), "name_length": len(name), "version": 45}
    local = b"PK\3\4" + made("local", **own) + name + POINT
    extra = made("extra", id=1, length=28, size=len(POINT), packed=len(POINT)) if wide else b""
    told = {**own, "extra_length": len(extra), **({"packed": many, "size": many, "offset": many, "disk": 0xFFFF}
                                                  if wide else {})}
    row = b"PK\1\2" + made("directory", **told) + name + extra
    end = b""
    if wide:
        end = b"PK\6\6" + made("ending64", length=44, rows_here=1, rows=1, size=len(row), offset=len(local))
        end += b"PK\6\7" + made("locator", offset=len(local) + len(row), disks=1)
    end += b"PK\5\6" + made("ending", rows_here=0xFFFF if wide else 1, rows=0xFFFF if wide else 1,
                            length=many if wide else len(row), offset=many if wide else len(local))
    return local + row + end


def zips(number):
    """Zip files with this number in each field in turn, by what they are."""
    for table, fields in TABLES.items():
        for name, _ in fields:
            for wide in (False, True):
                if wide or table not in ("extra", "ending64", "locator"):
                    what = "zip %s %s%s" % (table, name, " of zip64" if wide else "")
                    yield what, zip_with((table, name), number, wide)


def gzips(number):
    """Tar.gz files with this number in each field of gzip in turn, by what they are."""
    whole = gzip.compress(tar_of(header("odd.nap", 5)), mtime=0)
    low = number & 0xFFFFFFFF
    yield "gzip time", whole[:4] + struct.pack("<L", low) + whole[8:]
    yield "gzip flags", whole[:3] + bytes([number & 0xFF]) + whole[4:]
    yield "gzip extra", whole[:3] + b"\4" + whole[4:10] + struct.pack("<H", number & 0xFFFF) + whole[10:]
    yield "gzip sum", whole[:-8] + struct.pack("<L", low) + whole[-4:]
    yield "gzip size", whole[:-4] + struct.pack("<L", low)
