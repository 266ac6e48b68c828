"""Stores of made-up rows, as a scan writes them of accepted pages; of ten pages two are spellings of one."""
from naplps_pages.collection import tables
from naplps_pages.collection.kept import Part, keep_part
from naplps_pages.collection.protocol import block_of
from naplps_pages.collection.store import checkpoint, keep_log, open_to_write
from naplps_pages.collection.tables import Answered, File, Terms
from naplps_pages.collection.writer import Writer

A_FOLDER, LENGTH = 100, 650
ROOT = b"/archive"
TIME = 1764100000123456789


def fill(path: str, rows: int, part: Part = Part(0, 1)) -> None:
    """Makes the store of a part of a number of rows."""
    connection = open_to_write(path)
    keep_part(connection, path, part, [ROOT])
    keep_log(connection)
    writer = Writer(connection, b"/usr/bin/naplps", Terms("naplps", b"\0" * 32, "2", 1048576))
    writer.root(ROOT)
    for first in range(0, rows, A_FOLDER):
        folder, _ = writer.folder(b"%s/%07d" % (ROOT, first // A_FOLDER), tables.READ, None)
        some = [at for at in range(first, min(first + A_FOLDER, rows)) if at % part.of == part.number]
        writer.take(block_of((tuple(_file(folder, at) for at in some), tuple(_answer(at) for at in some))))
        if writer.is_due:
            writer.write()
    writer.write()
    connection.executescript(tables.INDICES)
    writer.finish(len(range(part.number, rows, part.of)), len(range(part.number, rows, part.of)))
    checkpoint(connection)
    connection.close()


def _file(folder: int, at: int) -> File:
    return File(folder, b"p%09d.nap" % at, tables.READ, None, LENGTH, TIME + at, TIME + at, 20_000_000 + at,
                tables.hashed(b"%d" % at))


def _answer(at: int) -> Answered:
    canon = tables.hashed(b"canonical %d" % (at - 1 if at % 10 == 1 else at))
    return Answered(tables.hashed(b"%d" % at), tables.ACCEPTED, entries=165, canon=canon, canon_size=1060,
                    kind=tables.PAGE, several=0)
