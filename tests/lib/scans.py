"""What the tests of scans share: trees of files, stores as plain tables, parts, and scans that are at work."""
import os
import signal
import sqlite3
import subprocess
import time
from collections import namedtuple
from contextlib import closing

from command import COMMAND, bare
from naplps_pages.collection import tables
from naplps_pages.collection.kept import keep_part, read_part
from naplps_pages.collection.protocol import WorkerOptions, block_of
from naplps_pages.collection.tables import Answered, File, Terms
from naplps_pages.collection.store import open_to_write
from naplps_pages.collection.worker import Worker
from naplps_pages.collection.writer import Writer
from samples import MACRO, OUTSIDE, POINT, with_parity

# What is said of a file that is no database.
FOLDER_NO_STORE = "is a folder: `naplps-pages scan FOLDER -o STORE` makes a store of its files"
NO_STORE = ("isn't a store: `naplps-pages scan FOLDER -o STORE` makes one, and `naplps-pages check` says what this "
            "file is")
# A program that answers pages by their first letters, and fails on some.
FAKE = """
if sys.argv[1:] == ['--version']:
    print('naplps 9.9, canonical form 2')
    sys.exit()
def say(line, body=b''):
    os.write(1, line + b'\\n%d\\n' % len(body) + body)
def fail(page):
    if page == b'hang': time.sleep(600)
    if page == b'die': sys.exit(7)
    if page == b'half': os.write(1, b'accepted 3 entries\\n50\\nabc'); sys.exit()
    if page == b'nonsense': os.write(1, b'hello\\n0\\n'); time.sleep(600)
    if page == b'eat': held = bytearray(3 << 30)
    if page == b'kill its parent': os.kill(os.getppid(), 9); sys.exit()
for line in iter(sys.stdin.buffer.readline, b''):
    command, budget, length = line.split()
    page = sys.stdin.buffer.read(int(length))
    fail(page)
    if page[:3] == b'bad': say(b'refused 10 Outside at 0')
    else: say(b'accepted %d entries' % len(page), b'' if command == b'check' else b'canonical ' + page[:1])
"""


class StopsSoon:
    """A signal that comes once the first files of a run are done."""

    def __init__(self, run):
        self.run = run

    @property
    def number(self):
        """The signal, once it has come."""
        return signal.SIGINT if self.run.done else None


def slow(seconds, go=None):
    """The lines of such a program that takes so long for each page, until there is a file `go`."""
    waits = "if page and not os.path.exists(%r): time.sleep(%g)" % (str(go), seconds)
    return FAKE.replace("    fail(page)\n", "    fail(page)\n    %s\n" % waits)


def tree(folder, files):
    """Makes files by their paths, as text or bytes."""
    for name, data in files.items():
        path = os.path.join(os.fsencode(folder), os.fsencode(name))
        os.makedirs(os.path.dirname(path), exist_ok=True)
        with open(path, "wb") as file:
            file.write(data)
    return os.path.abspath(os.fsdecode(folder))


def replaced_by_link(folder, outside):
    """Puts a link to another folder in the place of a folder, as somebody may while it is searched."""
    os.rename(folder, folder + "-moved")
    os.symlink(outside, folder)


def rows(store, words, *values):
    """The rows of a query."""
    with closing(sqlite3.connect(store, timeout=60)) as connection:
        return connection.execute(words, values).fetchall()


def alter(store, words):
    """Changes a database by words of SQL."""
    with closing(sqlite3.connect(store, isolation_level=None)) as connection:
        connection.executescript(words)


def store_of(run, folder, files, keeps=""):
    """The store of a scan of files, which are made beside it, in a folder of pages."""
    pages, store = tree(os.path.join(folder, "pages"), files), os.path.join(folder, "pages.db")
    assert run(["scan", pages, "-o", store], keeps=keeps).returncode == 0
    return store


# A file of a store with its answer, and with what the treatments of its page came to.
FileRow = namedtuple("FileRow", (
    "folder", "name", "state", "why", "size", "own", "answer", "number", "left_out", "place", "entries", "canon",
    "canon_size", "no_answer", "treatments", "treated_entries", "treated", "kind", "looks_like", "several", "grade",
    "treated_canon", "treated_size"), defaults=(0, *[None] * 20))


def table(store, top=""):
    """The files of a store with their answers, as they are independent of runs, of numbers and of the top folder."""
    found = rows(store, "SELECT d.path, f.name, f.state, f.why, f.size, p.own, p.state, p.number, p.left_out, p.place, "
                        "p.entries, p.canon, p.canon_size, p.why, c.treatments, c.entries, c.copy, p.kind, "
                        "p.looks_like, p.several, c.grade, c.canon, c.canon_size FROM files f "
                        "JOIN folders d ON d.id = f.folder LEFT JOIN pages p ON p.id = f.page "
                        "LEFT JOIN cures c ON c.page = p.id")
    cut = len(os.fsencode(top))
    return sorted((FileRow(folder[cut:], *rest) for folder, *rest in found), key=lambda row: (row.folder, row.name))


# All tables, as they are independent of the numbers of rows and of times.
TERMS = "(SELECT t.version || hex(t.program_hash) || t.form || t.budget FROM terms t WHERE t.id = %s.terms)"
TABLES = {
    "meta": "SELECT key, value FROM meta",
    "terms": "SELECT version, program_hash, form, budget FROM terms",
    "runs": "SELECT ended IS NULL, tool, program, %s, files, asked FROM runs r" % TERMS % "r",
    "roots": "SELECT path, why FROM roots",
    "folders": "SELECT path, state, why, run = (SELECT max(id) FROM runs) FROM folders",
    "pages": "SELECT own, state, number, left_out, place, entries, canon, canon_size, why, kind, looks_like, "
             "several, stop, %s, run = (SELECT max(id) FROM runs) FROM pages p" % TERMS % "p",
    "faults": "SELECT number, name FROM faults",
    "cures": "SELECT p.own, c.treatments, c.entries, c.copy, c.why, c.grade, c.canon, c.canon_size, %s FROM cures c "
             "JOIN pages p ON p.id = c.page" % TERMS % "c",
    "texts": "SELECT p.own, t.source, t.text, t.first, t.why, %s FROM texts t JOIN pages p ON p.id = t.page" %
             TERMS % "t",
    "files": "SELECT d.path, f.name, f.state, f.why, f.size, f.mtime_ns, f.ctime_ns, f.inode, p.own, f.run = "
             "(SELECT max(id) FROM runs) FROM files f JOIN folders d ON d.id = f.folder LEFT JOIN pages p "
             "ON p.id = f.page",
    "indices": "SELECT sql FROM sqlite_master WHERE sql IS NOT NULL"}


def every_table(store):
    """Each table of a store, as its rows, sorted."""
    return {name: sorted(rows(store, words), key=repr) for name, words in TABLES.items()}


def written(store, root, found, terms=Terms("naplps", b"\0" * 32, "2", 1048576), part=None, began=None):
    """A store as a scan of one folder leaves it, of names and the answers to what they have, without a scan."""
    connection = open_to_write(store)
    keep_part(connection, store, part, [root])
    connection.execute("PRAGMA synchronous = OFF")
    writer = Writer(connection, b"/usr/bin/naplps", terms)
    writer.root(root)
    folder, _ = writer.folder(root, tables.READ, None)
    files = [File(folder, name, tables.READ, None, 650, 1, 1, at, answer.own)
             for at, (name, answer) in enumerate(found)]
    writer.take(block_of((tuple(files), tuple(answer for _, answer in found))))
    writer.write()
    connection.executescript(tables.INDICES)
    writer.finish(len(files), len(files))
    if began:
        connection.execute("UPDATE runs SET began = ?", (began,))
    connection.close()


def made_up(store, first, number, part=None):
    """A store of made-up rows: of ten pages two draw the same, and each twentieth file is a copy."""
    own = [tables.hashed(b"%d" % (at - 1 if at % 20 == 7 else at)) for at in range(first, first + number)]
    canon = [tables.hashed(b"canonical %d" % (at - 1 if at % 10 in (1, 7) else at))
             for at in range(first, first + number)]
    written(store, b"/archive", [
        (b"p%09d.nap" % at, Answered(one, tables.ACCEPTED, entries=165, canon=other, canon_size=1060,
                                     kind=tables.PAGE, several=0))
        for at, one, other in zip(range(first, first + number), own, canon)], part=read_part(part) if part else None)


def made_up_parts(folder, number, each, more=0):
    """Stores of the parts of a scan of made-up rows, with so many each; the first has some of the next one's too."""
    stores = [os.path.join(folder, "%d.db" % at) for at in range(number)]
    for at, store in enumerate(stores):
        made_up(store, at * each, each + (0 if at else more), "%d/%d" % (at, number))
    return stores


def files_read(program, chunk, **more):
    """The files of a chunk of names, as a worker reads them."""
    worker = Worker(WorkerOptions(program, 0, 600, 1 << 20), lambda hashes: set(), **more)
    found = [file for files, _ in worker.pieces(tuple(chunk)) for file in files]
    worker.close()
    return found


def statuses(store):
    """The status and the reason of each file, by its name without folders."""
    return {os.path.basename(name): (status, reason)
            for name, status, reason in rows(store, "SELECT name, status, reason FROM listing")}


def is_sound(store):
    """Whether SQLite finds the file whole."""
    return rows(store, "PRAGMA integrity_check") == [("ok",)]


def start(words, program, keeps="", **more):
    """A command that is at work."""
    return subprocess.Popen([COMMAND, *bare(words, more.get("cwd"), keeps)], stdout=subprocess.PIPE,
                            stderr=subprocess.PIPE, **more,
                            env=dict(os.environ, NAPLPS=program, PYTHONDONTWRITEBYTECODE="1"))


def count(store):
    """How many files a store has, also while it is made."""
    try:
        return rows(store, "SELECT count(*) FROM files")[0][0]
    except sqlite3.Error:
        return 0


def wait_until(is_so, process=None):
    """Waits until something is so, but not where that process has ended. (No test asserts a time.)"""
    for _ in range(120_000):
        if is_so():
            return
        if process is not None and process.poll() is not None:
            raise AssertionError("it ended: %r" % (process.communicate(),))
        time.sleep(0.005)
    raise AssertionError("it never was so")


def children(pid):
    """The processes that a process started and that are at work."""
    found = []
    for name in os.listdir("/proc"):
        try:
            with open("/proc/%d/stat" % int(name)) as file:
                fields = file.read().rsplit(")", 1)[1].split()
            if int(fields[1]) == pid and fields[0] != "Z":
                found.append(int(name))
        except (ValueError, OSError):
            continue
    return found


SMALL_FILES = [POINT, OUTSIDE, MACRO, b"", b"\x18", b"\x1b", with_parity(POINT), b"\x0fhello", b"\x0f\x00hello"]


def mixed(number):
    """Files of all kinds, and letters that make each other one."""
    return {"%02d/%05d" % (index // 100, index): SMALL_FILES[index % len(SMALL_FILES)] + (
        b"\x0f%d" % index if index % 3 else b"") for index in range(number)}


def scan_parts(run, pages, folder, number, **options):
    """Scans all parts; their stores."""
    stores = []
    for index in range(number):
        stores.append(os.path.join(str(folder), "part-%d.db" % index))
        result = run(["scan", pages, "-o", stores[-1], "--shard", "%d/%d" % (index, number)], **options)
        assert (result.returncode, result.stderr) == (0, b"")
    return stores
