"""The texts of pages in a store, the command find, and the index of their words by SQLite's FTS5. Without that a store
has texts alone.

The index stands over the table `texts`, whose texts it doesn't keep once more. So a row of `texts` is taken out of it
before it is changed, and put into it after that.
"""
import re
import sqlite3
from contextlib import contextmanager
from typing import TYPE_CHECKING, Any, Dict, Iterable, Iterator, List, NamedTuple, Optional, Set, Tuple

from naplps.names import Members, shown

from .. import messages
from . import tables
from .folders import Place
from .printing import NAME, Printer, named, shown_as
from .tables import INDEX, TEXT_INDEX, Hash, Name, PageText, Path, TextLines, TextSource, checked, listed, marks

if TYPE_CHECKING:
    from ..page_words import Phrase

# What SQLite says of it, beside that the file is malformed.
OF_FTS5 = f"fts5|: {INDEX}$|^constraint failed$"


def has_fts5() -> bool:
    """Whether SQLite has FTS5 here."""
    connection = sqlite3.connect(":memory:")
    try:
        connection.execute("SELECT fts5(NULL)")  # (its own function, which is there with it; and quicker than a table)
        return True
    except sqlite3.OperationalError:
        return False
    finally:
        connection.close()


@contextmanager
def used() -> Iterator[None]:
    """Uses the index inside. Where what FTS5 keeps there isn't its own, as SQLite says in many ways, that is told."""
    try:
        yield
    except sqlite3.DatabaseError as error:
        if type(error) is sqlite3.DatabaseError or re.search(OF_FTS5, str(error)):
            raise sqlite3.DatabaseError(messages.INDEX_DAMAGED.format(reason=error)) from None
        raise


def is_there(connection: sqlite3.Connection) -> bool:
    """Whether the store has the index."""
    return connection.execute("SELECT 1 FROM main.sqlite_master WHERE name = ?", (INDEX,)).fetchone() is not None


def make(connection: sqlite3.Connection) -> bool:
    """Makes the index in a store, where it can be made and isn't there; whether it is there then."""
    if not is_there(connection) and has_fts5():
        connection.execute("SAVEPOINT made")  # (it is there with all texts, or not at all)
        connection.execute(TEXT_INDEX[INDEX])
        rebuild(connection)
        connection.execute("RELEASE made")
    return is_there(connection) and has_fts5()


def rebuild(connection: sqlite3.Connection) -> None:
    """Makes the index anew from all texts."""
    connection.execute("INSERT INTO words(words) VALUES('rebuild')")


# What takes the text of a page out of the index, as `texts` has it still; and what puts it in, as it has it now.
FORGET = """INSERT INTO words(words, rowid, text) SELECT 'delete', page, text FROM texts
    WHERE page = ? AND text IS NOT NULL"""
NOTE = "INSERT INTO words(rowid, text) SELECT page, text FROM texts WHERE page = ? AND text IS NOT NULL"
PAGE = "SELECT id, EXISTS(SELECT 1 FROM texts WHERE page = id) FROM pages WHERE own = ?"
TEXT = f"INSERT OR REPLACE INTO texts(page, terms, {listed(PageText)}) VALUES({marks(PageText, 2)})"


def write(connection: sqlite3.Connection, terms: int, rows: Iterable[Tuple[bytes, Tuple[Any, ...]]],
          has_index: bool) -> None:
    """Writes the texts of pages, which are known by their hashes, and what they change in the index of words."""
    some: Dict[int, Tuple[Any, ...]] = {}
    earlier: Set[int] = set()
    for own, row in rows:
        page, has_text = connection.execute(PAGE, (own,)).fetchone()
        some[page] = row
        if has_text:
            earlier.add(page)
    with used():
        if has_index:
            connection.executemany(FORGET, ((page,) for page in earlier))
        connection.executemany(TEXT, ((page, terms, *row) for page, row in some.items()))
        if has_index:
            connection.executemany(NOTE, ((page,) for page in some))


COLUMNS = [*NAME, "hash", "source", "line"]
# Through the index; or, where there is none, all texts one after another.
FOUND = """SELECT d.path, f.name, p.own, x.source, x.text FROM {} CROSS JOIN pages p ON p.id = x.page AND
    p.terms = x.terms CROSS JOIN present f ON f.page = p.id CROSS JOIN folders d ON d.id = f.folder
    WHERE {} ORDER BY d.path, f.name"""
WITH_INDEX = FOUND.format("words w CROSS JOIN texts x ON x.page = w.rowid", "words MATCH ?")
WITHOUT = FOUND.format("texts x", "x.text IS NOT NULL AND ? IS NOT NULL")
OF_FILES = "EXISTS(SELECT 1 FROM present f WHERE f.page = p.id)"
ANSWERED = f"SELECT count(*) FROM pages p WHERE p.state <> {tables.NO_ANSWER}"
LACK = f"{ANSWERED} AND NOT {tables.HAS_TEXT} AND {OF_FILES}"
# The same where all answers have the same terms: of each text the index has a small row, which is read in its place.
INDEXED = "EXISTS(SELECT 1 FROM words_docsize w WHERE w.id = p.id)"
LACK_BY_INDEX = f"""SELECT CASE WHEN (SELECT count(*) FROM words_docsize) = ({ANSWERED}) THEN 0 ELSE
    ({ANSWERED} AND NOT {INDEXED} AND NOT {tables.HAS_TEXT} AND {OF_FILES}) END"""


class FoundText(NamedTuple):
    """A file and the text of its page."""

    folder: Path
    name: Name
    own: Hash
    source: TextSource
    text: TextLines


class FoundPage(NamedTuple):
    """A file with what is looked for, and the lines that have it."""

    place: Place
    own: bytes
    source: int
    lines: List[str]


def has_texts(connection: sqlite3.Connection) -> bool:
    """Whether a store has texts of pages."""
    return connection.execute("SELECT 1 FROM texts LIMIT 1").fetchone() is not None


def has_index(connection: sqlite3.Connection) -> bool:
    """Whether a store has an index of words that can be asked here."""
    return is_there(connection) and has_fts5()


def found(connection: sqlite3.Connection, parts: "List[Phrase]") -> Iterator[FoundPage]:
    """The files whose pages have all of what is looked for, in the order of their names."""
    from ..page_words import lines_with, match_of  # (what scans don't wait for)
    indexed = has_index(connection)
    with used():
        rows = connection.execute(WITH_INDEX if indexed else WITHOUT, (match_of(parts),))
        for row in checked(rows, FoundText):
            lines = lines_with(row.text, parts)
            if lines is not None or indexed:
                yield FoundPage(Place(row.folder, row.name), row.own, row.source, lines or row.text.split("\n")[:1])


def show(printer: Printer, page: FoundPage) -> None:
    """Prints a page that is found, with its lines."""
    if printer.form == "null":
        printer.name(page.place)
    elif printer.form == "json":
        members: Members = named(page.place)
        members.update(hash=page.own.hex(), source=tables.SOURCES[page.source], lines=list(page.lines))
        printer.object(members)
    elif printer.form == "csv":
        for line in page.lines:
            printer.row({**shown_as(page.place), "hash": page.own.hex(), "source": tables.SOURCES[page.source],
                         "line": line})
    else:
        for line in page.lines:
            printer.line(f"{shown(page.place.path)}: {line}")


def without_text(connection: sqlite3.Connection) -> int:
    """How many pages of files that are there have no text kept, and so can't be found."""
    terms, = connection.execute("SELECT count(*) FROM terms").fetchone()
    number, = connection.execute(LACK_BY_INDEX if terms == 1 and is_there(connection) else LACK).fetchone()
    return int(number)


def why_not(connection: sqlite3.Connection) -> Optional[str]:
    """Why nothing can be found in a store, if so."""
    return None if has_texts(connection) else messages.NO_TEXTS
