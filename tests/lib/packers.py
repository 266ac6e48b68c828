"""What the tests of packs share: packs of files, and packs that no archiver makes."""
import gzip
import io
import os
import struct
import tarfile
import zipfile
import zlib

GIBIBYTE = 1 << 30
# Zeros as a part of a deflate stream that can be repeated.
ZEROS = 1 << 26


def pack(path, files, **more):
    """A pack of files, which are bytes by their names, of the kind that its name says; its path."""
    path = os.fsdecode(path)
    if path.endswith(".zip"):
        with zipfile.ZipFile(path, "w", zipfile.ZIP_DEFLATED) as out:
            for name, data in files.items():
                out.writestr(name, data)
    else:
        with tarfile.open(path, "w" if path.endswith(".tar") else "w:gz", **more) as out:
            for name, data in files.items():
                add(out, name, data)
    return path


def add(out, name, data=b"", **more):
    """Adds a member to a tar file that is written."""
    info = tarfile.TarInfo(os.fsdecode(name))
    info.size = len(data)
    for key, value in more.items():
        setattr(info, key, value)
    out.addfile(info, io.BytesIO(data))


def header(name, size, **more):
    """The header of a member of a tar file."""
    info = tarfile.TarInfo(name)
    info.size = size
    for key, value in more.items():
        setattr(info, key, value)
    return info.tobuf(tarfile.GNU_FORMAT)


def member(name, data):
    """A member of a tar file: its header, and its bytes in whole blocks."""
    return header(name, len(data)) + data + bytes(-len(data) % 512)


def deflated(*parts, size=0):
    """A raw deflate stream of these bytes, of a number of zeros, and of what follows."""
    def piece(data):
        maker = zlib.compressobj(9, zlib.DEFLATED, -15)
        return maker.compress(data) + maker.flush(zlib.Z_FULL_FLUSH)
    last = zlib.compressobj(9, zlib.DEFLATED, -15)
    return b"".join([piece(parts[0]), piece(bytes(ZEROS)) * (size // ZEROS), *map(piece, parts[1:]), last.flush()])


def gzipped(raw):
    """A gzip file of a raw deflate stream, with a sum that is wrong."""
    return b"\x1f\x8b\x08\0\0\0\0\0\0\xff" + raw + bytes(8)


def tar_bomb(path, size, behind=()):
    """A tar.gz file with a member of a number of zeros; its path."""
    start = member("first.nap", b"first") + header("bomb.nap", size)
    rest = b"".join(member(name, data) for name, data in behind) + bytes(1024)
    return written(path, gzipped(deflated(start, rest, size=size)))


def zip_bomb(path, size, told=None):
    """A zip file with a member of a number of zeros, of which the directory may tell another size; its path."""
    raw = deflated(b"", size=size)
    return written(path, zip_of([entry(b"bomb.nap", raw, told or size, 8), entry(b"first.nap", b"first", 5, 0)]))


def entry(name, raw, size, method, flags=0, mode=0, sum_of=None, local=None):
    """A member of a zip file: its local part, and its part of the directory without the offset."""
    extra = struct.pack("<HHQQ", 1, 16, size, len(raw))
    crc = zlib.crc32(raw if sum_of is None else sum_of)
    front = struct.pack("<HHHHHLLLHH", 45, flags, method, 0, 0x21, crc, 0xFFFFFFFF, 0xFFFFFFFF, len(local or name),
                        len(extra))
    directory = struct.pack("<HHHHHHLLLHH", 0x32D, 45, flags, method, 0, 0x21, crc, 0xFFFFFFFF, 0xFFFFFFFF, len(name),
                            len(extra)) + struct.pack("<HHHL", 0, 0, 0, mode << 16)
    return b"PK\3\4" + front + (local or name) + extra + raw, b"PK\1\2" + directory, name + extra


def zip_of(entries, directory=None):
    """A zip file of such members."""
    body = rows = b""
    for local, front, rest in entries:
        rows += front + struct.pack("<L", len(body)) + rest
        body += local
    rows = rows if directory is None else directory
    end = struct.pack("<HHHHLLH", 0, 0, len(entries), len(entries), len(rows), len(body), 0)
    return body + rows + b"PK\5\6" + end


def written(path, data):
    """A file of these bytes; its path."""
    with open(path, "wb") as file:
        file.write(data)
    return os.fsdecode(path)


def squeezed(path, data):
    """A gzip file of these bytes; its path."""
    return written(path, gzip.compress(data))
