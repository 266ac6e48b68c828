"""What the tests of stores made by others share: stores, changes to them, and the commands that take a store."""
import os
import shutil
import sqlite3

from forked import forked
from naplps_pages.collection import tables
from packers import pack
from samples import OUTSIDE, POINT, SPELLED
from scans import alter, tree

CANCELLED = bytes.fromhex("0F 41 18")
FILES = {"a.nap": POINT, "b.nap": SPELLED, "c.nap": POINT, "d/e.nap": OUTSIDE, "d/f.nap": b"\x0e\x26\x52",
         "g.nap": b"hello", "h.nap": CANCELLED}
# The commands that take a store, each with the words for one that is named STORE.
COMMANDS = (
    ["files"], ["files", "--json"], ["files", "--csv"], ["files", "--refused"], ["files", "--refused", "--json"],
    ["files", "--refused", "--csv"], ["files", "--reason", "10"], ["files", "--kind", "any"], ["files", "--census"],
    ["equal"], ["equal", "--json"], ["equal", "--csv"], ["equal", "--skip", "copies", "-0"],
    ["equal", "--verify"], ["equal", "--include", "guesses"], ["equal", "OTHER"],
    ["fix", "-o", "canonical"], ["show", "-o", "canonical/"], ["canon", "-o", "canonical"],
    ["report", "-o", "report.html", "-j", "1"], ["scan"], ["scan", "--merge"], ["scan", "--merge", "OTHER", "--force"])


def words_of(command, store, other, pages):
    """The words of a command for a store; of scan also the folder that it scans."""
    name, *rest = [other if word == "OTHER" else word for word in command]
    if "--merge" in rest:
        return [name, "--merge", store, *rest[1:], "-o", "merged.db"]
    if name == "scan":
        return [name, pages, "-o", store, "-j", "1", *rest]
    if name == "find":
        return [name, *(rest or ["hello"]), store]
    return [name, store, *rest]


def clean(folder):
    """Takes away what commands made in a folder."""
    for name in ("canonical", "report.html", "merged.db"):
        path = os.path.join(folder, name)
        if os.path.isdir(path):
            shutil.rmtree(path)
        elif os.path.lexists(path):
            os.unlink(path)


class Stores:
    """A folder with pages, a store of them, another one that tells of another folder, and what others make of it."""

    def __init__(self, folder, naplps, *words, keeps=""):
        self.folder, self.naplps, self.pages = folder, naplps, archive(folder)
        self.good, self.bad, other = (os.path.join(folder, name) for name in ("good.db", "bad.db", "other.db"))
        for store in (self.good, other):
            assert forked(["scan", self.pages, "-o", store, *words], folder, naplps, keeps=keeps).status == 0
        alter(other, "UPDATE roots SET path = x'2F6F74686572'; UPDATE folders SET path = CAST(replace(CAST(path AS "
                     f"TEXT), '{self.pages}', '/other') AS BLOB)")

    def change(self, words=""):
        """Makes the bad store: the good one, changed."""
        return copied(self.good, self.bad, words)

    def run(self, command, seconds=900):
        """What a command says of the bad store."""
        clean(self.folder)
        return forked(self.words(command), self.folder, self.naplps, seconds)

    def words(self, command):
        """The words of a command for the bad store."""
        return words_of(command, "bad.db", "other.db", self.pages)


def archive(folder):
    """A folder of pages and a pack; its path."""
    top = tree(os.path.join(folder, "pages"), FILES)
    pack(os.path.join(top, "i.tar"), {"j.nap": POINT, "k.nap": OUTSIDE})
    return top


def copied(store, path, words=""):
    """A copy of a store, changed by these words of SQL, whatever the tables forbid; its path."""
    for ending in ("", "-wal", "-journal", "-shm"):
        if os.path.lexists(path + ending):
            os.unlink(path + ending)
    alter(shutil.copy(store, path), "PRAGMA foreign_keys = OFF; " + words)
    return path


def earlier(store, path):
    """The store as one of the schema before has it, with the rest of what it has; its path."""
    made = sqlite3.connect(path, isolation_level=None)
    made.executescript("PRAGMA application_id = %d; %s %s; %s" % (
        0x4E41504C, tables.created(tables.EARLIER), tables.listing(tables.EARLIER), tables.INDICES))
    made.execute("ATTACH ? AS new", (store,))
    names = [name for name, in made.execute("SELECT name FROM main.sqlite_master WHERE type = 'table'")]
    for name in names:
        some = ", ".join(row[1] for row in made.execute(f"PRAGMA main.table_info({name})"))
        made.execute(f"INSERT INTO main.{name} SELECT {some} FROM new.{name}")
    made.execute("UPDATE main.pages SET kind = NULL WHERE state = 1")
    made.execute("DELETE FROM main.meta WHERE key IN ('cures', 'words')")
    made.execute("UPDATE main.meta SET value = ? WHERE key = 'schema'", (str(tables.EARLIER),))
    made.close()
    return path
