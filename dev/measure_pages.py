"""Times scans of naplps-pages, and prints the tables of docs/measurements/README.md.

Without words these are first and second scans of mixed pages of 650 bytes. NAPLPS names the program; without it the one
that the launcher at the top has built is run. Seconds of a processor are those of the tool, of its workers and of the
program together; a peak is that of the largest of these processes.
"""
import argparse
import os
import re
import shutil
import sys
import tempfile
from itertools import cycle, islice
from pathlib import Path
from typing import Sequence

from dev.layout import TOP, find_program
from dev.measuring.few_codes import short_pages
from dev.measuring.made_up import A_FOLDER, fill
from dev.measuring.measuring import measure
from dev.words import parser_of

COMMAND = os.path.join(TOP, "pages", "naplps-pages")
# The options of a scan that keeps neither texts nor what repairs come to.
ANSWERS_ALONE = ("--skip", "words", "--skip", "repair")


def make_pages(folder: str, number: int) -> None:
    """Makes a number of pages, of which the first 20,000 are each another one."""
    for at, page in enumerate(islice(cycle(short_pages()), number)):
        path = Path(folder, "%05d" % (at // A_FOLDER), "p%07d.nap" % at)
        path.parent.mkdir(exist_ok=True)
        path.write_bytes(page)


def scans(folder: str, processes: Sequence[int], files: int) -> None:
    """A row for each number of processes: a first scan, and one of what is known."""
    print("| Processes | Scan | s | files a second | us of a processor a file | peak MiB |\n|---|---|---|---|---|---|")
    with tempfile.TemporaryDirectory() as room:
        for number in processes:
            store = os.path.join(room, "%d.db" % number)
            for name in ("first", "known"):
                it = measure([COMMAND, "scan", folder, "-o", store, "--jobs", str(number), *ANSWERS_ALONE])
                print("| %d | %s | %.2f | %.0f | %.0f | %.0f |" % (
                    number, name, it.seconds, files / it.seconds, it.processor / files * 1e6, it.peak), flush=True)
        print("\n%s\n%.0f bytes a page in the store" % (it.said, os.path.getsize(store) / files))


def recipe(folder: str, files: int) -> None:
    """A first scan and the recipe, one after the other."""
    with open(os.path.join(TOP, "docs", "SHELL.md"), encoding="utf-8") as document:
        text = document.read()
    found = re.search(r"<!-- recipe: convert -->\n```sh\n(.*?)```", text, re.DOTALL)
    assert found
    lines = found[1].replace("-P 4", "-P %d" % (os.cpu_count() or 1))
    with tempfile.TemporaryDirectory() as room:
        os.mkdir(os.path.join(room, "bin"))
        os.symlink(os.environ["NAPLPS"], os.path.join(room, "bin", "naplps"))
        os.environ["PATH"] = os.path.join(room, "bin") + os.pathsep + os.environ["PATH"]
        scan = measure([COMMAND, "scan", folder, "-o", os.path.join(room, "pages.db"), *ANSWERS_ALONE])
        pages = os.path.join(room, "pages")
        shutil.copytree(folder, pages)
        shell = measure(["sh", "-c", lines], pages)
    print("| Way | s | us of a processor a file |\n|---|---|---|")
    for name, it in (("scan", scan), ("recipe by xargs", shell)):
        print("| %s | %.2f | %.0f |" % (name, it.seconds, it.processor / files * 1e6))
    print("\nThe scan is %.1f times as fast." % (shell.seconds / scan.seconds))


def report(folder: str) -> None:
    """A row for each number of pictures: how large a report is, and how long it takes to be made."""
    print("| Files | Pictures | bytes | s to make | s of a processor | peak MiB |\n" + "|---" * 6 + "|")
    with tempfile.TemporaryDirectory() as room:
        store = os.path.join(room, "pages.db")
        files = measure([COMMAND, "scan", folder, "-o", store]).said.split()[0]
        for number in (0, 1000, 10_000):
            html = os.path.join(room, "%d.html" % number)
            it = measure([COMMAND, "report", store, "-o", html, "--max-pictures", str(number)])
            print("| %s | %d | %d | %.1f | %.1f | %.0f |" % (
                files, number, os.path.getsize(html), it.seconds, it.processor, it.peak), flush=True)


def texts(folder: str, files: int) -> None:
    """A row for a scan without texts and for one with them, by one process."""
    print("| Scan | s | us of a processor a file | bytes a page |\n|---|---|---|---|")
    with tempfile.TemporaryDirectory() as room:
        for name in ("without texts", "with texts"):
            store, more = os.path.join(room, name), [] if name == "with texts" else ["--skip", "words"]
            it = measure([COMMAND, "scan", folder, "-o", store, "--jobs", "1", "--skip", "repair", *more])
            print("| %s | %.2f | %.0f | %.0f |" % (
                name, it.seconds, it.processor / files * 1e6, os.path.getsize(store) / files), flush=True)


def find(number: int) -> None:
    """Words that few and many of a number of texts have."""
    from naplps_pages.collection import tables, texts
    from naplps_pages.collection.store import open_to_write
    with tempfile.TemporaryDirectory() as room:
        store = os.path.join(room, "pages.db")
        fill(store, number)
        connection = open_to_write(store)
        texts.make(connection)
        connection.execute("BEGIN")
        some = "\n".join("line %d of a page with some words in it" % line for line in range(12))
        connection.executemany("INSERT INTO texts(page, terms, source, text, first) VALUES(?, 1, ?, ?, ?)", (
            (page, tables.WHOLE, f"page{page} of{page % 1000}\n{some}", f"page{page}")
            for page, in connection.execute("SELECT id FROM pages").fetchall()))
        texts.rebuild(connection)
        connection.execute("COMMIT")
        connection.close()
        print("| Words | s |\n|---|---|")
        for asked in ("page777", '"of777"', '"of777" page7'):
            print("| `%s` | %.3f |" % (asked, measure([COMMAND, "find", asked, store]).seconds), flush=True)
        print("\n%.0f bytes a page in the store" % (os.path.getsize(store) / number))


def words() -> argparse.Namespace:
    """The words of the command line."""
    parser = parser_of(__doc__)
    parser.add_argument("--pages", type=int, default=20_000, metavar="N", help="how many pages (20000)")
    parser.add_argument("--processes", type=int, nargs="+", default=[2, os.cpu_count() or 1], metavar="N",
                        help="the processes of a scan, a row for each number")
    parser.add_argument("--recipe", action="store_true", help="a first scan beside the recipe that converts by xargs")
    parser.add_argument("--report", action="store_true", help="reports with few and with the usual number of pictures")
    parser.add_argument("--words", action="store_true", help="scans with and without the texts of pages")
    parser.add_argument("--find", type=int, metavar="N", help="words in a store of N made-up texts")
    return parser.parse_args()


def main() -> int:
    """Prints a table."""
    given = words()
    os.environ["NAPLPS"] = str(find_program().absolute())
    if given.find:
        find(given.find)
        return 0
    with tempfile.TemporaryDirectory() as room:
        make_pages(room, given.pages)
        if given.recipe:
            recipe(room, given.pages)
        elif given.report:
            report(room)
        elif given.words:
            texts(room, given.pages)
        else:
            scans(room, given.processes, given.pages)
    return 0


if __name__ == "__main__":
    sys.exit(main())
