"""Stores that are read together, and groups of equal pages over them: parts of one scan, or scans of folders apart.

For groups the sorted runs of hashes are merged from disk. The index of a store is such a run; where a scan was stopped
there is none, and SQLite sorts. Of what is merged only the pages of groups are kept, in a database of temporary files,
so memory doesn't grow with the stores.
"""
import heapq
import itertools
import os
import resource
import sqlite3
import sys
from dataclasses import dataclass, field
from typing import Callable, Dict, Iterable, Iterator, List, NamedTuple, Optional, Sequence, Tuple, Type

from naplps.names import shown

from .. import messages
from . import texts
from .equal import EqualFile, Group, grouped
from .kept import CANON_TABLES, Part, RootPath, kept_part
from .progress import Progress
from .query_bounds import watch
from .store import StoreFailed, open_unchanged, schema_of, show_present
from .store_files import is_held
from .tables import NO_ANSWER, Count, Hash, Name, PageState, Path, Row, Text, checked, marks, require_right

# What is held of all their files together, and of each at least, in KiB.
CACHE, LEAST = 64 << 10, 64
# Files that are open beside those of stores; and how many a store has.
OTHERS, EACH = 64, 3
# The greatest number of lacking parts that are told by their numbers.
MAX_LISTED = 5
LAST = "SELECT id, began, ended FROM runs ORDER BY id DESC LIMIT 1"
UNREAD = "SELECT path, why FROM roots WHERE run = ? AND why IS NOT NULL ORDER BY path"


class Number(NamedTuple):
    """A number of rows."""

    value: Count


class RunTimes(NamedTuple):
    """The number of a run, and when it began and ended."""

    id: Count
    began: Text
    ended: Optional[Text]


class UnreadRoot(NamedTuple):
    """A folder that was named and couldn't be read, and why."""

    path: Path
    why: Text


@dataclass(eq=False)
class Source:
    """A store, as it was when it was opened."""

    path: str
    connection: sqlite3.Connection
    part: Optional[Part] = None
    roots: List[bytes] = field(default_factory=list)
    unread: "List[UnreadRoot]" = field(default_factory=list)
    began: str = ""
    ended: Optional[str] = None
    schema: int = 0
    has_words: bool = False

    def rows(self, words: str, row: Type[Row], values: Sequence[object] = ()) -> Iterator[Row]:
        """The rows of a query, which are checked. Raises StoreFailed."""
        try:
            yield from checked(self.connection.execute(words, values), row)
        except sqlite3.Error as error:
            raise StoreFailed(self.path, str(error)) from None

    def require_right(self) -> None:
        """Looks at each value. Raises StoreFailed."""
        try:
            require_right(self.connection, [each.table for each in CANON_TABLES])
        except sqlite3.Error as error:
            raise StoreFailed(self.path, str(error)) from None

    def number(self, words: str) -> int:
        """The number that a query has. Raises StoreFailed."""
        return next(self.rows(words, Number)).value


class Sources:
    """Stores, first the one of which the last scan began first. They are closed at the end."""

    def __init__(self, paths: Sequence[str]) -> None:
        _allow(len(paths))
        self.all: List[Source] = []
        self.paths = paths

    def __enter__(self) -> List[Source]:
        """Opens them. Raises StoreFailed."""
        try:
            for path in self.paths:
                self.all.append(_opened(path, max(LEAST, CACHE // len(self.paths))))
        except BaseException:
            self.__exit__()
            raise
        self.all.sort(key=lambda source: source.began)
        return self.all

    def __exit__(self, *_: object) -> None:
        for source in self.all:
            source.connection.close()


def _allow(number: int) -> None:
    """Allows this process as many open files as this number of stores need, if it may."""
    soft, hard = resource.getrlimit(resource.RLIMIT_NOFILE)
    needed = OTHERS + EACH * number
    if resource.RLIM_INFINITY not in (soft, hard):
        needed = min(needed, hard)
    if soft != resource.RLIM_INFINITY and soft < needed:
        resource.setrlimit(resource.RLIMIT_NOFILE, (needed, hard))


def _opened(path: str, cache: int) -> Source:
    source: Optional[Source] = None
    try:
        source = Source(path, open_unchanged(path))
        source.connection.execute(f"PRAGMA cache_size = {-cache}")
        source.connection.execute("BEGIN")  # (so it stays as it is now, though a scan may be at work)
        source.part = kept_part(source.connection)
        source.schema, source.has_words = schema_of(source.connection), texts.is_there(source.connection)
        source.roots = [root.path for root in source.rows("SELECT DISTINCT path FROM roots ORDER BY path", RootPath)]
        for run in source.rows(LAST, RunTimes):
            source.began, source.ended = run.began, run.ended
            source.unread = list(source.rows(UNREAD, UnreadRoot, (run.id,)))
        return source
    except sqlite3.Error as error:
        if source:
            source.connection.close()
        raise StoreFailed(path, str(error)) from None


def require_apart(sources: Sequence[Source]) -> None:
    """Raises StoreFailed where two of the stores may hold the same files."""
    holding: Dict[bytes, List[Source]] = {}
    for source in sources:
        for root in source.roots:
            holding.setdefault(root, []).append(source)
    for root, some in holding.items():
        parts: Dict[Optional[Part], Source] = {}
        for source in some:
            other = parts.get(source.part, some[0])
            if source is not other and not (source.part and source.part.is_beside(other.part)):
                raise _same(other, source, root)
            parts[source.part] = source
        for outer in (each for above in _above(root) for each in holding.get(above, ())):
            for source in some:
                if source is not outer:
                    raise _same(outer, source, root)


def _same(one: Source, other: Source, root: bytes) -> StoreFailed:
    return StoreFailed(other.path, messages.SAME_FILES.format(other=shown(one.path), root=shown(os.fsdecode(root))))


def _above(path: bytes) -> Iterator[bytes]:
    """The folders in which one stands."""
    while path != os.path.dirname(path):
        path = os.path.dirname(path)
        yield path


def lacking(sources: Sequence[Source]) -> Iterator[Tuple[str, str]]:
    """What isn't finished: stores whose scan didn't come to its end or couldn't read a folder that was named, and parts
    that aren't there; with why.
    """
    parts: Dict[Tuple[bytes, int], Dict[int, str]] = {}
    for source in sources:
        if not source.began:
            yield source.path, messages.NOTHING_SCANNED
        elif source.ended is None:
            yield source.path, messages.SCAN_GOES_ON if is_held(source.path) else messages.SCAN_STOPPED
        for root, why in source.unread:
            yield source.path, messages.ROOT_UNREAD.format(root=shown(os.fsdecode(root)), reason=why)
        for root in source.roots if source.part else ():
            assert source.part
            parts.setdefault((root, source.part.of), {})[source.part.number] = source.path
    for (root, of), some in parts.items():
        missing = [str(Part(number, of)) for number in range(of) if number not in some]
        if missing:
            yield next(iter(some.values())), "%s of %s %s among the stores" % (
                _listed(missing), shown(os.fsdecode(root)), "isn't" if len(missing) == 1 else "aren't")


def _listed(missing: List[str]) -> str:
    more = f" and {len(missing) - MAX_LISTED} more" if len(missing) > MAX_LISTED else ""
    return ("part " if len(missing) == 1 else "parts ") + ", ".join(missing[:MAX_LISTED]) + more


# Pages for which it isn't their store alone that says what counts: without an answer there, or on other terms.
ODD = f"SELECT own FROM pages WHERE state = {NO_ANSWER} OR terms NOT IN ({{}})"
TABLES = """
    CREATE TABLE odd(own BLOB PRIMARY KEY) WITHOUT ROWID;
    CREATE TABLE answers(own BLOB, store INTEGER, page INTEGER, state INTEGER, canon BLOB, form TEXT, entries INTEGER,
        length INTEGER, PRIMARY KEY(own, store)) WITHOUT ROWID;
    CREATE TABLE wanted(number INTEGER, canon BLOB, store INTEGER, page INTEGER, form TEXT, entries INTEGER,
        length INTEGER);
    CREATE TABLE found(number INTEGER, form TEXT, own BLOB, folder BLOB, name BLOB, at INTEGER, entries INTEGER,
        length INTEGER);
    CREATE TABLE members(number INTEGER, form TEXT, own BLOB, folder BLOB, name BLOB, at INTEGER, entries INTEGER,
        length INTEGER, PRIMARY KEY(number, form, own, folder, name)) WITHOUT ROWID;
"""
ANSWERS = """SELECT p.own, ?, p.id, p.state, p.canon, t.form, p.entries, p.canon_size FROM temp.odd o
    CROSS JOIN pages p ON p.own = o.own CROSS JOIN terms t ON t.id = p.terms"""
# Runs: the hash of canonical bytes, the store, the page there; and of odd pages form, entries and length that count.
RUN = "SELECT canon, ?, id, NULL, NULL, NULL FROM pages WHERE canon IS NOT NULL {} ORDER BY canon, id"
COPIES = """SELECT p.canon, ?, p.id, NULL, NULL, NULL
    FROM (SELECT page FROM present GROUP BY page HAVING count(*) > 1) AS m CROSS JOIN pages p ON p.id = m.page
    WHERE p.canon IS NOT NULL {} ORDER BY p.canon, p.id"""
NOT_ODD = "AND {} NOT IN (SELECT page FROM temp.apart)"
# What counts for odd pages: the answer of the last store that has one.
ANSWERED = f"""SELECT w.canon, a.store, a.page, w.form, w.entries, w.length
    FROM answers a JOIN answers w ON w.own = a.own AND w.store =
        (SELECT max(b.store) FROM answers b WHERE b.own = a.own AND b.state <> {NO_ANSWER})
    WHERE w.canon IS NOT NULL ORDER BY w.canon, a.store, a.page"""
FILES = """SELECT w.number, coalesce(w.form, t.form), p.own, d.path, f.name, f.at,
    coalesce(w.entries, p.entries), coalesce(w.length, p.canon_size) FROM temp.wanted w
    CROSS JOIN pages p ON p.id = w.page CROSS JOIN terms t ON t.id = p.terms CROSS JOIN present f ON f.page = p.id
    CROSS JOIN folders d ON d.id = f.folder"""
TERMS = """SELECT t.id, t.program_hash, t.form, t.budget FROM terms t LEFT JOIN runs r ON r.terms = t.id
    GROUP BY t.id ORDER BY max(r.id)"""
# (a script ends the transaction that it finds, and each row would be one)
SORTED = """
    CREATE TABLE canons(number INTEGER PRIMARY KEY, canon BLOB);
    INSERT OR IGNORE INTO canons SELECT number, canon FROM wanted;
    CREATE INDEX wanted_by_store ON wanted(store, page, number, form, entries, length);
    BEGIN;
"""
GROUPS = """
    INSERT INTO members SELECT * FROM found ORDER BY number, form, own, folder, name;
    CREATE TABLE ranked AS SELECT number, form FROM members GROUP BY number, form HAVING {} > 1
        ORDER BY count(DISTINCT own) DESC, count(*) DESC, number, form;
"""
# (found and ordered as they stand: nothing is sorted here)
MEMBERS = """SELECT c.canon, r.form, m.entries, m.length, m.own, m.folder, m.name, m.at FROM ranked r
    CROSS JOIN canons c ON c.number = r.number CROSS JOIN members m ON m.number = r.number AND m.form = r.form
    ORDER BY r.rowid, m.own, m.folder, m.name"""


class PageHash(NamedTuple):
    """The hash of a page."""

    own: Hash


class OddAnswer(NamedTuple):
    """What a store, by its place among the sources, says of an odd page."""

    own: Hash
    store: Count
    page: Count
    state: PageState
    canon: Optional[Hash]
    form: Text
    entries: Optional[Count]
    length: Optional[Count]


class RunRow(NamedTuple):
    """A row of a run."""

    canon: Hash
    store: Count
    page: Count
    form: Optional[Text]
    entries: Optional[Count]
    length: Optional[Count]


class WantedFile(NamedTuple):
    """A file of a page that is in a group, by the number of that."""

    number: Count
    form: Text
    own: Hash
    folder: Path
    name: Name
    at: Optional[Count]
    entries: Count
    length: Count


class TermsNumber(NamedTuple):
    """The number of terms in a store, and what they are."""

    id: Count
    program_hash: Hash
    form: Text
    budget: Count


def groups_over(paths: Sequence[str], copies: bool, complain: Callable[[str, str], None]) -> Iterator[Group]:
    """The groups over these stores, as `groups` of `equal` gives them of one that has all of it. Raises StoreFailed.

    `complain` is given the names of stores that aren't finished, or beside which others lack, and what is so.
    """
    with Sources(paths) as sources:
        require_apart(sources)
        for path, why in lacking(sources):
            complain(path, why)
        work = sqlite3.connect("", isolation_level=None)  # a database of temporary files
        watch(work)
        try:
            yield from grouped(_Over(work, sources, copies).files())
        except sqlite3.Error as error:
            raise StoreFailed(messages.TEMPORARY_FILES.format(path=shown(paths[0])), str(error)) from None
        finally:
            work.close()


def most_budget(paths: Sequence[str]) -> int:
    """The largest budget of the stores. Raises StoreFailed."""
    with Sources(paths) as sources:
        return max(source.number("SELECT coalesce(max(budget), 0) FROM terms") for source in sources)


class _Over:
    """The groups of some sources, of which later ones count more, and a database to work in."""

    def __init__(self, work: sqlite3.Connection, sources: List[Source], copies: bool) -> None:
        self.work, self.sources, self.copies = work, sources, copies
        self.has_odd = False

    def files(self) -> Iterator[EqualFile]:
        """The files of the groups, in their order."""
        self.work.executescript(f"PRAGMA journal_mode = OFF; PRAGMA cache_size = {-CACHE // 2}; {TABLES} BEGIN;")
        for source in self.sources:
            try:
                show_present(source.connection)
            except sqlite3.Error as error:
                raise StoreFailed(source.path, str(error)) from None
        self._set_apart()
        self._choose()
        for at, source in enumerate(self.sources):
            _copy(self.work.execute("SELECT page, number, form, entries, length FROM wanted WHERE store = ? "
                                    "ORDER BY page", (at,)), source,
                  "wanted(page INTEGER PRIMARY KEY, number INTEGER, form TEXT, entries INTEGER, length INTEGER)")
            self.work.executemany(f"INSERT INTO found VALUES({marks(WantedFile)})", source.rows(FILES, WantedFile))
        self.work.executescript(GROUPS.format("count(*)" if self.copies else "count(DISTINCT own)"))
        return itertools.starmap(EqualFile, self.work.execute(MEMBERS))

    def _set_apart(self) -> None:
        """Looks what counts for odd pages."""
        all_terms = [list(source.rows(TERMS, TermsNumber)) for source in self.sources]
        usual = [terms._replace(id=0) for some in all_terms for terms in some][-1:]
        for source, some in zip(self.sources, all_terms):
            numbers = [str(terms.id) for terms in some if [terms._replace(id=0)] == usual]
            self.work.executemany("INSERT OR IGNORE INTO odd VALUES(?)", source.rows(
                ODD.format(", ".join(numbers)), PageHash))
        self.has_odd = self.work.execute("SELECT 1 FROM odd LIMIT 1").fetchone() is not None
        for at, source in enumerate(self.sources if self.has_odd else ()):
            _copy(self.work.execute("SELECT own FROM odd ORDER BY own"), source, "odd(own BLOB PRIMARY KEY)")
            self.work.executemany(f"INSERT INTO answers VALUES({marks(OddAnswer)})", source.rows(
                ANSWERS, OddAnswer, (at,)))
            _copy(self.work.execute("SELECT page FROM answers WHERE store = ? ORDER BY page", (at,)), source,
                  "apart(page INTEGER PRIMARY KEY)")

    def _runs(self) -> Iterator[Iterator[RunRow]]:
        """The runs, each sorted."""
        for at, source in enumerate(self.sources):
            yield source.rows(RUN.format(NOT_ODD.format("id") if self.has_odd else ""), RunRow, (at,))
            if self.copies:
                yield source.rows(COPIES.format(NOT_ODD.format("p.id") if self.has_odd else ""), RunRow, (at,))
        if self.has_odd:
            for _ in range(2 if self.copies else 1):  # (each may be that of several files)
                yield map(RunRow._make, self.work.execute(ANSWERED))

    def _choose(self) -> None:
        """Merges the runs, and notes the pages of hashes that are there twice."""
        total = sum(source.number("SELECT count(*) FROM pages") for source in self.sources)
        progress = Progress(sys.stderr, lambda: total, what="pages")
        self.work.executemany(f"INSERT INTO wanted VALUES({marks(RunRow, 1)})",
                              _several(progress.through(heapq.merge(*self._runs()))))
        progress.clear()
        self.work.executescript(SORTED)


def _several(rows: Iterable[RunRow]) -> Iterator[Tuple[object, ...]]:
    """The rows of runs, in order, whose hash is there twice: each once, after a number of the hash, in its order."""
    number = 0
    last: Optional[RunRow] = None
    is_first = False
    for row in rows:
        if last is None or row.canon != last.canon:
            is_first = True
        else:
            if is_first:
                number += 1
                yield (number, *last)
                is_first = False
            if row != last:
                yield (number, *row)
        last = row


def _copy(rows: Iterable[Tuple[object, ...]], source: Source, table: str) -> None:
    """Puts rows into a temporary table of a source, which is made."""
    try:
        source.connection.execute(f"CREATE TEMP TABLE {table}")
        marks = ", ".join("?" * (table.count(",") + 1))
        source.connection.executemany(f"INSERT INTO temp.{table.split('(')[0]} VALUES({marks})", rows)
    except sqlite3.Error as error:
        raise StoreFailed(source.path, str(error)) from None
