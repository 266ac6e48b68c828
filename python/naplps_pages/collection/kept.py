"""What a store keeps beside answers: its part of the files, its options, and tables that it needn't have, which have a
value of each canonical stream, whichever pages and treated copies have that.

A part has the files whose path below the folder that was named has a CRC-32 of K modulo N. What a first scan had beside
answers, and what a later one was asked for, each one after it does too. A new store has words and treatments, unless
these are refused. Rows of another form than such a table's count as if they weren't there.
"""
import os
import re
import sqlite3
import zlib
from typing import TYPE_CHECKING, Annotated, Dict, FrozenSet, Iterable, List, NamedTuple, Optional, Tuple

from naplps.limits import MOST_LISTED
from naplps.names import shown

from .. import messages
from ..near_keys import FORM, KEY, MOST_SAID, PREFIX
from .folders import is_within, join
from .store import StoreFailed
from .tables import (
    ACCEPTED, OPTIONS, READ, CanonValues, Count, Hash, Kind, NotAStore, Path, Sql, StoreTable, checked, columns, text,
)

if TYPE_CHECKING:
    from .protocol import Retry

MAX_PARTS = 1_000_000
WORDS = re.compile(r"([0-9]{1,7})/([0-9]{1,7})")


class RootPath(NamedTuple):
    """A folder that was named."""

    path: Path


class Part(NamedTuple):
    """Part K of N, counted from 0."""

    number: int
    of: int

    def __str__(self) -> str:
        return "%d/%d" % (self.number, self.of)

    def is_beside(self, other: Optional["Part"]) -> bool:
        """Whether they are different parts of one whole."""
        return other is not None and self.of == other.of and self.number != other.number

    def takes(self, below: bytes) -> bool:
        """Whether it has the file at this path below its root."""
        return zlib.crc32(below) % self.of == self.number

    def names(self, below: bytes, names: Tuple[bytes, ...]) -> Tuple[bytes, ...]:
        """Those of the names in a folder, which stands at this path below its root, that it has."""
        first = zlib.crc32(below + b"/") if below else 0
        return tuple(name for name in names if zlib.crc32(name, first) % self.of == self.number)


def below(root: bytes, path: bytes) -> bytes:
    """The path of what stands in the root, without the root's own."""
    return path[len(join(root, b"")):]


def read_part(text: str) -> Part:
    """The part that is named K/N. Raises ValueError."""
    found = WORDS.fullmatch(text)
    if not found or not 0 <= int(found[1]) < int(found[2]) <= MAX_PARTS:
        raise ValueError(messages.NO_PART.format(text=repr(text)))
    return Part(int(found[1]), int(found[2]))


def kept_part(connection: sqlite3.Connection) -> Optional[Part]:
    """The part that a store holds; None where it holds all files. Raises NotAStore."""
    row = connection.execute("SELECT value FROM meta WHERE key = 'part'").fetchone()
    try:
        return read_part(str(row[0])) if row else None
    except ValueError:
        raise NotAStore(messages.HOLDS_NO_PART) from None


def keep_part(connection: sqlite3.Connection, path: str, asked: Optional[Part], roots: Iterable[bytes]) -> None:
    """Notes in a new store which part it holds. Raises StoreFailed where it holds another already."""
    if connection.execute("SELECT 1 FROM runs LIMIT 1").fetchone() is None:
        connection.execute("BEGIN IMMEDIATE")
        connection.execute("DELETE FROM meta WHERE key = 'part'")
        if asked:
            connection.execute("INSERT INTO meta VALUES('part', ?)", (str(asked),))
        connection.execute("COMMIT")
        return
    kept = kept_part(connection)
    if kept != asked:
        raise StoreFailed(path, messages.HOLDS_OTHER.format(held=_named(kept), asked=_named(asked)))
    some = list(checked(connection.execute("SELECT DISTINCT path FROM roots"), RootPath)) if kept else []
    for before, in some:
        for root in roots:
            if root != before and (is_within(root, before) or is_within(before, root)):
                raise StoreFailed(path, messages.PART_OF_OTHER.format(
                    part=kept, held=shown(os.fsdecode(before)), asked=shown(os.fsdecode(root))))


def _named(some: Optional[Part]) -> str:
    return f"part {some}" if some else "all files"


# The canonical streams that files have which are there: those of accepted pages, and of treated copies.
OF_PAGES = """SELECT p.canon AS canon, f.folder AS folder, f.name AS name, NULL AS treatments, p.entries AS entries
    FROM files f CROSS JOIN pages p ON p.id = f.page WHERE f.state = {0} AND p.state = {1} AND p.canon IS NOT NULL"""
OF_COPIES = """SELECT c.canon, f.folder, f.name, c.treatments, c.entries FROM cures c
    CROSS JOIN pages p ON p.id = c.page AND p.terms = c.terms CROSS JOIN files f ON f.page = c.page AND f.state = {0}
    WHERE c.canon IS NOT NULL"""
ACCEPTED_ALONE = OF_PAGES.format(READ, ACCEPTED)
WITH_COPIES = f"{OF_PAGES} UNION ALL {OF_COPIES}".format(READ, ACCEPTED)
# Of each stream without a value one file. Those of too many entries have none.
WANTED = ("CREATE TEMP TABLE wanted(canon BLOB PRIMARY KEY, folder INTEGER, name BLOB) WITHOUT ROWID",
          f"INSERT OR IGNORE INTO wanted SELECT canon, folder, name FROM ({{named}}) n WHERE entries BETWEEN {{least}} "
          f"AND {MOST_LISTED}{{lacks}}")
LACKS = " AND NOT EXISTS(SELECT 1 FROM {name} k WHERE k.canon = n.canon AND k.form = {form})"
SWEEP = "DELETE FROM {name} WHERE canon NOT IN (SELECT canon FROM ({named})) OR form <> {form}"
JOIN = "INSERT OR IGNORE INTO main.{name}({columns}) SELECT {columns} FROM part.{name} WHERE form = {form}"
WRITE = "INSERT OR REPLACE INTO {name}({columns}) VALUES(?, {form}{marks})"


class CanonTable(NamedTuple):
    """Such a table, whose first columns are `canon` and `form`; the option of a scan; the form; which streams have a
    value, and with how many entries at least; what is told of the progress, of a page without a value, and of those
    that lack; and whether it holds words of pages, so that only the store's owner may read it.
    """

    table: StoreTable
    option: str
    form: int
    named: str
    least: int
    what: str
    without: str
    lack: str
    is_private: bool

    @property
    def name(self) -> str:
        """Its name."""
        return self.table.name

    def is_there(self, connection: sqlite3.Connection, name: str = "main") -> bool:
        """Whether the store of this name has the table."""
        return connection.execute(f"SELECT 1 FROM {name}.sqlite_master WHERE type = 'table' AND name = ?",
                                  (self.name,)).fetchone() is not None

    def make(self, connection: sqlite3.Connection) -> None:
        """Makes the table where it isn't there. Raises sqlite3.Error where that can't be written."""
        if not self.is_there(connection):
            connection.execute(self.table.words())

    def make_aside(self, connection: sqlite3.Connection) -> None:
        """Makes a copy of the table for this connection alone, or an empty one."""
        connection.execute(self.table.words().replace("CREATE TABLE", "CREATE TEMP TABLE", 1))
        if self.is_there(connection):
            connection.execute(f"INSERT INTO temp.{self.name} SELECT * FROM main.{self.name}")

    def find_wanted(self, connection: sqlite3.Connection) -> int:
        """Puts a file of each canonical stream without a value into the table `wanted`; how many there are."""
        connection.execute("DROP TABLE IF EXISTS temp.wanted")
        connection.execute(WANTED[0])
        has_table = self.is_there(connection) or connection.execute(
            "SELECT 1 FROM sqlite_temp_master WHERE name = ?", (self.name,)).fetchone() is not None
        connection.execute(WANTED[1].format(named=self.named, least=self.least,
                                            lacks=self._of(LACKS) if has_table else ""))
        count, = connection.execute("SELECT count(*) FROM wanted").fetchone()
        return int(count)

    def write(self, connection: sqlite3.Connection, rows: Iterable[Tuple[bytes, CanonValues]]) -> None:
        """Writes the values of canonical streams, which are known by their hashes."""
        connection.executemany(self._of(WRITE), ((canon, *values) for canon, values in rows))

    def sweep(self, connection: sqlite3.Connection) -> None:
        """Takes away the values of pages without a file, and those of another form."""
        if self.is_there(connection):
            connection.execute(self._of(SWEEP))

    def join(self, connection: sqlite3.Connection) -> None:
        """Takes the values of the store `part`, if that has the table."""
        if self.is_there(connection, "part"):
            self.make(connection)
            connection.execute(self._of(JOIN))

    def _of(self, words: str) -> str:
        names = [column.name for column in self.table.columns]
        return words.format(name=self.name, named=self.named, form=self.form, columns=", ".join(names),
                            marks=", ?" * (len(names) - 2))


# The keys of lists: of what is left of one, and of its first entries, for one number of these or for each.
ListKey = Annotated[bytes, Kind(
    "a key", "BLOB", lambda value: type(value) is bytes and len(value) == KEY, f"length({{0}}) = {KEY}")]
PrefixKeys = Annotated[bytes, Kind(
    "keys of first entries", "BLOB", lambda value: type(value) is bytes and len(value) % PREFIX == 0,
    f"length({{0}}) % {PREFIX} = 0")]
ListWords = Annotated[str, text("words", MOST_SAID)]


class NearKeysRow(NamedTuple):
    """A row of `near_keys`."""

    canon: Annotated[Hash, Sql("PRIMARY KEY")]
    form: Count
    start: Optional[PrefixKeys]
    words: ListKey
    colours: ListKey
    places: ListKey
    prefixes: PrefixKeys
    said: ListWords


NEAR_KEYS = CanonTable(
    StoreTable("near_keys", columns(NearKeysRow)), "near", FORM, WITH_COPIES, 1, "pages compared",
    "it isn't compared", "not compared with others that are almost equal", True)


# That of naplps.dots, which takes long to be imported.
PICTURE_FORM = 1


class PictureHash(NamedTuple):
    """A row of `pictures`."""

    canon: Annotated[Hash, Sql("PRIMARY KEY")]
    form: Count
    picture: Optional[Hash] = None


PICTURES = CanonTable(
    StoreTable("pictures", columns(PictureHash)), "pictures", PICTURE_FORM, ACCEPTED_ALONE, 0, "pictures",
    "its picture isn't known", "without the hash of their picture", False)


CANON_TABLES = (NEAR_KEYS, PICTURES)
# Their words in SQL, by their names.
OWN: Dict[str, str] = {each.name: each.table.words() for each in CANON_TABLES}


NAMES = (*OPTIONS, *(each.option for each in CANON_TABLES))
# What a new store gets that nobody asked for anything else.
USUAL = frozenset(OPTIONS)
# What the command line calls them.
SKIPPED_AS = {"words": "words", "repair": "cures"}
# What is told where a scan leaves out what its store keeps.
KEEPS_TO = {"words": "its scans keep texts, and so does this one: --skip words is for a new store",
            "cures": "its scans try repairs, and so does this one: --skip repair is for a new store"}
LACKING = {"words": ("words", "no text is kept, and nothing is found: a new store keeps texts"),
           "cures": ("repairs", "none is tried: a new store has them")}


def kept(connection: sqlite3.Connection) -> "FrozenSet[str]":
    """The options that a store keeps to, by their names."""
    keys = {str(key) for key, in connection.execute("SELECT key FROM main.meta")}
    return frozenset(NAMES) & keys


def keep(connection: sqlite3.Connection, retry: "Retry", refused: Optional[FrozenSet[str]] = None) -> "Retry":
    """What a scan is asked for, with the options that the store keeps to, or the usual ones of a new store that aren't
    refused; they are noted."""
    is_new = connection.execute("SELECT 1 FROM runs LIMIT 1").fetchone() is None
    some = kept(connection) | (USUAL - refused if is_new and refused is not None else frozenset())
    made = retry._replace(**{name: getattr(retry, name) or name in some for name in NAMES})
    connection.executemany("INSERT OR IGNORE INTO meta VALUES(?, 1)", (
        (name,) for name in NAMES if getattr(made, name)))
    return made


def gets_words(retry: "Retry", refused: Optional[FrozenSet[str]]) -> bool:
    """Whether a new store gets words of pages by a scan that is asked for this."""
    return retry.words or retry.near or refused is not None and "words" not in refused


def skipped_by(names: Optional[Iterable[str]]) -> FrozenSet[str]:
    """The options that the command line leaves out, by what it names."""
    return frozenset(SKIPPED_AS[name] for name in names or () if name in SKIPPED_AS)


def lacking(connection: sqlite3.Connection) -> List[Tuple[str, str]]:
    """What isn't kept that a new store keeps, and what is told of that."""
    some = kept(connection)
    return [each for option, each in LACKING.items() if option not in some]
