"""Measures what large collections take, and prints the tables of docs/measurements/README.md.

Made-up rows are those that a scan writes of pages that are all accepted. Of ten pages two are spellings of one, which
stand in two parts; a folder has 100 files. What is made stands in the folder that TMPDIR names, and is taken away
again: 10,000,000 rows need some 6 GB. Nothing is asked of naplps. Memory is that of the largest process at its peak,
and the temporary files are those of a process together, at theirs.
"""
import os
import subprocess
import sys
import tempfile
import time
from concurrent.futures import ProcessPoolExecutor
from typing import List

from dev.layout import TOP
from dev.measuring.made_up import A_FOLDER, LENGTH, fill
from dev.measuring.measuring import measure
from dev.words import parser_of
from naplps_pages.collection.kept import Part

COMMAND = os.path.join(TOP, "pages", "naplps-pages")


def parts(rows: int, number: int) -> None:
    """A row for each thing that is done with parts of a number of rows."""
    with tempfile.TemporaryDirectory() as room:
        stores = [os.path.join(room, "part-%d.db" % at) for at in range(number)]
        start = time.perf_counter()
        with ProcessPoolExecutor() as pool:
            list(pool.map(fill, stores, [rows] * number, [Part(at, number) for at in range(number)]))
        print("%d parts of %d rows: made in %.0f s, %d bytes\n" % (
            number, rows, time.perf_counter() - start, sum(map(os.path.getsize, stores))), flush=True)
        print("| What | s | rows a second | s of a processor | peak MiB | temporary MiB |\n" + "|---" * 6 + "|")
        into = os.path.join(room, "all.db")
        _row("`scan --merge` of all shards", rows, ["scan", "--merge", "-o", into, *stores])
        one = _row("`equal` of the merged store", rows, ["equal", into])
        some = _row("`equal` over the parts", rows, ["equal", *stores])
        print("\nThe merged store has %d bytes. The groups are %s." % (
            os.path.getsize(into), "the same" if one == some else "NOT the same"))


def _row(name: str, rows: int, words: List[str]) -> str:
    it = measure([COMMAND, *words])
    print("| %s | %.1f | %.0f | %.1f | %.0f | %.0f |" % (
        name, it.seconds, rows / it.seconds, it.processor, it.peak, it.disk), flush=True)
    return it.digest


def files(number: int) -> None:
    """What a number of files of a page each take."""
    data = bytes(LENGTH)
    with tempfile.TemporaryDirectory() as room:
        start = time.perf_counter()
        for at in range(number):
            folder = os.path.join(room, "%07d" % (at // A_FOLDER))
            if at % A_FOLDER == 0:
                os.mkdir(folder)
            with open(os.path.join(folder, "p%09d.nap" % at), "wb") as file:
                file.write(data)
        made = time.perf_counter()
        paths = [os.path.join(folder, name) for folder, _, names in os.walk(room) for name in names]
        walked = time.perf_counter()
        blocks = sum(os.stat(path).st_blocks * 512 for path in paths)
        looked = time.perf_counter()
        for path in paths:
            with open(path, "rb") as file:
                file.read()
        read = time.perf_counter()
    print("| Files | bytes | on the disk | us to make one | us to walk to it | us to stat it | us to read it |")
    print("|---" * 7 + "|\n| %d | %d | %d | %.0f | %.1f | %.1f | %.1f |" % (
        number, number * LENGTH, blocks, *(1e6 * each / number for each in (
            made - start, walked - made, looked - walked, read - looked))))


def main() -> int:
    """Prints a table."""
    parser = parser_of(__doc__)
    parser.add_argument("--rows", type=int, default=1_000_000, metavar="M",
                        help="stores of parts with M made-up rows together: merged, and their groups (1000000)")
    parser.add_argument("--parts", type=int, default=8, metavar="N", help="how many parts (8)")
    parser.add_argument("--files", type=int, metavar="N",
                        help="N files of a page each: bytes on the disk, and what it takes to walk and read them")
    given = parser.parse_args()
    version = subprocess.run([COMMAND, "--version"], stdout=subprocess.PIPE, text=True, check=True).stdout.strip()
    print("%s, %d processors\n" % (version, os.cpu_count() or 1))
    if given.files:
        files(given.files)
    else:
        parts(given.rows, given.parts)
    return 0


if __name__ == "__main__":
    sys.exit(main())
