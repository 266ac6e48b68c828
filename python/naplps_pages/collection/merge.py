"""The command merge: several stores, of which no two have the same file, into a new one, which is put in its place
whole, or not at all.
"""
import heapq
import os
import sqlite3
import sys
from contextlib import ExitStack
from itertools import groupby
from operator import attrgetter
from typing import Callable, Dict, Iterable, Iterator, List, NamedTuple, Optional, Sequence, Tuple

from naplps.answers import Accepted, Refusal
from naplps.names import shown

from .. import messages
from ..console import NotWritten, Output, tell
from . import tables, texts
from .folders import join, reason
from .kept import CANON_TABLES
from .printing import numbered
from .progress import Progress, Stopping
from .query_bounds import STEPS_BETWEEN, watch
from .sources import Source, Sources, lacking, require_apart
from .status import Counts, counted
from .store import StoreFailed, attach, has_texts, open_to_write, path_of
from .store_files import INDEX, JOURNAL, LOG, MADE, Busy, Lock, place, require_own
from .tables import (
    NO_ANSWER, UNREADABLE, Answered, Count, Cured, Fault, File, Folder, Hash, Name, PageState, PageText, Path,
    RefusalNumber, Root, StoredRun, Terms, Text, columns, listed, marks, taken_over,
)

OWN = "SELECT own, ?, id FROM pages ORDER BY own"
STORED_ANSWER = f"""SELECT t.version, t.budget, p.state, p.number, p.left_out, p.place, p.entries, p.canon, p.canon_size
    FROM pages p JOIN terms t ON t.id = p.terms WHERE p.id = ? AND p.state <> {tables.NO_ANSWER}"""
# The first file that has a page, and the name of a refusal.
NAME = f"""SELECT d.path, f.name FROM files f JOIN folders d ON d.id = f.folder
    WHERE f.page = ? AND f.state = {tables.READ} LIMIT 1"""
# Between two looks whether to stop.
PAGES_BETWEEN = 4096
FAULT = "SELECT name FROM faults WHERE number = ?"


class PageNumber(NamedTuple):
    """A page by its hash; and a store, by its place among the sources, with the number of the page there."""

    own: Hash
    store: Count
    page: Count


class AnswerUnder(NamedTuple):
    """An answer, and what it depends on."""

    version: Text
    budget: Count
    state: PageState
    number: Optional[RefusalNumber]
    left_out: Optional[Text]
    place: Optional[Count]
    entries: Optional[Count]
    canon: Optional[Hash]
    canon_size: Optional[Count]


class FaultName(NamedTuple):
    """The name of a refusal."""

    name: Text


class FileName(NamedTuple):
    """A file, by its folder and its name."""

    folder: Path
    name: Name


class StoredAnswer(NamedTuple):
    """What a store says of a page, which has a number there."""

    source: Source
    page: int
    answer: AnswerUnder

    @property
    def line(self) -> str:
        """This for people, after the store and a file."""
        answer = self.answer
        if answer.entries is not None and answer.canon is not None:
            answered = f"{Accepted(answer.entries).line}, canonical {answer.canon.hex()}"
        else:
            fault = next((row.name for row in self.source.rows(FAULT, FaultName, (answer.number,))), "")
            answered = Refusal(answer.number or 0, fault, answer.left_out, answer.place or 0).line
        names = [shown(os.fsdecode(join(*row))) for row in self.source.rows(NAME, FileName, (self.page,))]
        return ": ".join([shown(self.source.path), *names, answered])


def differing(sources: Sequence[Source], progress: Progress,
              stops: Callable[[], bool]) -> Iterator[Tuple[StoredAnswer, StoredAnswer]]:
    """Two answers to the same bytes that aren't the same. The hashes of all stores are merged as they are read."""
    runs = (source.rows(OWN, PageNumber, (at,)) for at, source in enumerate(sources))
    for number, (_, group) in enumerate(groupby(progress.through(heapq.merge(*runs)), attrgetter("own"))):
        some = list(group)
        if len(some) > 1:
            yield from _compared(sources, some)
        if number % PAGES_BETWEEN == 0 and stops():
            return


def _compared(sources: Sequence[Source], some: List[PageNumber]) -> Iterator[Tuple[StoredAnswer, StoredAnswer]]:
    first: Dict[Tuple[str, int], StoredAnswer] = {}
    for _, at, page in some:
        for row in sources[at].rows(STORED_ANSWER, AnswerUnder, (page,)):
            answer = StoredAnswer(sources[at], page, row)
            other = first.setdefault((row.version, row.budget), answer)
            if other.answer != answer.answer:
                yield other, answer


# What isn't known of a page counts less than what is. A later answer counts more than an earlier one, and any more than
# none. Under the same terms all are the same. (By +, SQLite sorts the rows by runs that it writes, and needn't jump in
# their table.)
ANSWER = listed(Answered, "terms", "run")
PAGES = f"""INSERT INTO main.pages({ANSWER}) SELECT {{pages}}, {{terms}}, {{run}} FROM part.pages
    WHERE true ORDER BY +own ON CONFLICT(own) DO UPDATE SET {taken_over(ANSWER)}
    WHERE excluded.state <> {NO_ANSWER} AND (excluded.terms <> terms OR holds IS NULL) OR state = {NO_ANSWER}"""
# The numbers of its pages and of its folders here.
NUMBERED = ("CREATE TEMP TABLE page(old INTEGER PRIMARY KEY, number INTEGER NOT NULL)",
            "CREATE TEMP TABLE place(number INTEGER PRIMARY KEY, old INTEGER NOT NULL)")
PAGE = """INSERT INTO temp.page SELECT p.id, m.id FROM (SELECT own, id FROM part.pages ORDER BY own) p
    CROSS JOIN main.pages m ON m.own = p.own ORDER BY p.id"""
PLACE = "INSERT INTO temp.place SELECT m.id, p.id FROM part.folders p CROSS JOIN main.folders m ON m.path = p.path"
# (of what a page hasn't under the terms that count for it nothing is taken)
COUNTS = "excluded.terms = (SELECT p.terms FROM main.pages p WHERE p.id = page)"
CURES = f"""INSERT INTO main.cures(page, terms, {listed(Cured)}) SELECT n.number, {{terms}}, {{cures}}
    FROM part.cures c CROSS JOIN temp.page n ON n.old = c.page
    WHERE true ON CONFLICT(page) DO UPDATE SET {taken_over("terms, " + listed(Cured))}
    WHERE {COUNTS} AND (excluded.terms <> terms OR grade IS NULL)"""
TEXTS = f"""INSERT INTO main.texts(page, terms, {listed(PageText)}) SELECT n.number, {{terms}}, {listed(PageText)}
    FROM part.texts t CROSS JOIN temp.page n ON n.old = t.page WHERE true ON CONFLICT(page) DO UPDATE
    SET {taken_over("terms, " + listed(PageText))} WHERE {COUNTS}"""
# What one store says of a folder counts more than what another does, in this order: unreadable, read, vanished, gone.
IS_MORE = f"(excluded.state = {UNREADABLE} OR excluded.state < state AND state <> {UNREADABLE})"
FOLDERS = f"""INSERT INTO main.folders({listed(Folder, "run")}) SELECT {listed(Folder)}, {{run}} FROM part.folders
    WHERE true ORDER BY id ON CONFLICT(path) DO UPDATE SET
    state = CASE WHEN {IS_MORE} THEN excluded.state ELSE state END,
    why = CASE WHEN {IS_MORE} THEN excluded.why ELSE why END, run = max(run, excluded.run)"""
OF_FILE = ", ".join(f"f.{column.name}" for column in columns(File) if column.name != "folder")
FILES = f"""INSERT INTO main.files({listed(File, "page", "run")}) SELECT d.number, {OF_FILE}, n.number, {{run}}
    FROM temp.place d CROSS JOIN part.files f ON f.folder = d.old LEFT JOIN temp.page n ON n.old = f.page
    ORDER BY d.number, f.name"""
FAULTS = f"INSERT OR REPLACE INTO main.faults({listed(Fault)}) SELECT {listed(Fault)} FROM part.faults"
STEPS = (*NUMBERED, FAULTS, PAGES, PAGE, CURES, FOLDERS, PLACE, FILES, TEXTS)
LAST_STEPS = ("DROP TABLE temp.page", "DROP TABLE temp.place")
ROOT = f"""INSERT INTO roots({listed(Root)}) VALUES({marks(Root)}) ON CONFLICT(run, path) DO UPDATE
    SET why = coalesce(why, excluded.why)"""
# (the other options are those of the schema before too)
KEEP = "INSERT OR IGNORE INTO main.meta SELECT key, 1 FROM part.meta WHERE key = ?"


class RunNumber(NamedTuple):
    """The number of a run or of terms, and which terms these are."""

    id: Count
    terms: Count


class Joining:
    """Joins sources, of which later ones count more, in the tables of a new store."""

    def __init__(self, connection: sqlite3.Connection, sources: Sequence[Source]) -> None:
        self.connection, self.sources = connection, sources
        self.terms: List[Dict[int, int]] = []
        self.runs: List[Dict[int, int]] = []

    def join(self, finished: bool) -> Counts:
        """Joins them; what they come to. `finished` says that nothing lacks. Raises StoreFailed or sqlite3.Error."""
        self.connection.execute("BEGIN")
        self.terms = [self._terms(source) for source in self.sources]
        self._runs(finished)
        self._roots()
        self.connection.execute("COMMIT")
        for source, terms, runs in zip(self.sources, self.terms, self.runs):
            self._rows(source, terms, runs)
        if any(source.has_words for source in self.sources):
            texts.make(self.connection)
        self.connection.executescript(tables.INDICES)
        return self._counts()

    def _terms(self, source: Source) -> Dict[int, int]:
        """The terms of a source; their numbers here."""
        numbers: Dict[int, int] = {}
        some = source.rows(f"SELECT {listed(Terms)} FROM terms ORDER BY id", Terms)
        for number, terms in zip(source.rows("SELECT id, id FROM terms ORDER BY id", RunNumber), some):
            self.connection.execute(f"INSERT INTO terms({listed(Terms)}) VALUES({marks(Terms)}) ON CONFLICT DO NOTHING",
                                    terms)
            numbers[number.id], = self.connection.execute(
                "SELECT id FROM terms WHERE program_hash = ? AND form = ? AND budget = ?",
                (terms.program_hash, terms.form, terms.budget)).fetchone()
        return numbers

    def _runs(self, finished: bool) -> None:
        """The runs: those under the same terms are one here, and the one that began last is the last."""
        found: Dict[int, List[StoredRun]] = {}
        for source, terms in zip(self.sources, self.terms):
            last = {terms[run.terms]: run for run in source.rows(
                f"SELECT {listed(StoredRun)} FROM runs ORDER BY id", StoredRun)}
            for each, run in last.items():
                found.setdefault(each, []).append(run)
        numbers: Dict[int, int] = {}
        for each, runs in sorted(found.items(), key=lambda some: max(run.began for run in some[1])):
            latest = max(runs, key=lambda run: run.began)
            numbers[each] = len(numbers) + 1
            self.connection.execute(
                "INSERT INTO runs(id, began, ended, tool, program, terms) VALUES(?, ?, ?, ?, ?, ?)",
                (numbers[each], min(run.began for run in runs), _all_ended(run.ended for run in runs), latest.tool,
                 latest.program, each))
        ended = _all_ended(source.ended for source in self.sources) if finished else None
        self.connection.execute("UPDATE runs SET ended = ? WHERE id = ?", (ended, len(numbers)))
        self.runs = [{run.id: numbers[terms[run.terms]]
                      for run in source.rows("SELECT id, terms FROM runs", RunNumber)}
                     for source, terms in zip(self.sources, self.terms)]

    def _roots(self) -> None:
        for source, runs in zip(self.sources, self.runs):
            roots = source.rows(f"SELECT {listed(Root)} FROM roots ORDER BY run", Root)
            last = {(runs[root.run], root.path): root._replace(run=runs[root.run]) for root in roots}
            self.connection.executemany(ROOT, last.values())

    def _rows(self, source: Source, terms: Dict[int, int], runs: Dict[int, int]) -> None:
        """The pages, the folders and the files of a source."""
        attach(self.connection, source.path, "part")
        try:
            self.connection.execute("BEGIN")
            is_earlier = source.schema == tables.EARLIER
            pages, cures = (_columns(row, table if is_earlier else "") for row, table in (
                (Answered, "pages"), (Cured, "cures")))
            for option in tables.OPTIONS:
                self.connection.execute(tables.keep(option, "part"))
            for table in CANON_TABLES:
                self.connection.execute(KEEP, (table.option,))
                table.join(self.connection)
            for step in (*STEPS, *LAST_STEPS):
                self.connection.execute(step.format(terms=_as("terms", terms), run=_as("run", runs), pages=pages,
                                                    cures=cures))
            self.connection.execute("COMMIT")
        except sqlite3.DatabaseError as error:
            if type(error) is sqlite3.DatabaseError:  # of what is read; what is written has others
                raise StoreFailed(source.path, str(error)) from None
            raise
        self.connection.execute("DETACH part")

    def _counts(self) -> Counts:
        """What each of the runs came to, which is noted, and all of them together."""
        total = Counts({}, {}, 0, 0)
        for run, ended in self.connection.execute("SELECT id, ended FROM runs").fetchall():
            counts = counted(self.connection, run)
            total = total.plus(counts)
            if ended is not None:
                self.connection.execute("UPDATE runs SET files = ?, asked = ? WHERE id = ?",
                                        (counts.met, counts.asked, run))
        return total


def _columns(row: type, earlier: str) -> str:
    """The columns of a row; of a table of the schema before, if it is one, as they are by the rules of now."""
    others = tables.unknown(earlier)
    return ", ".join(others.get(column.name, column.name) for column in columns(row))


def _as(column: str, numbers: Dict[int, int]) -> str:
    """What gives the numbers here in place of those of a store, in SQL."""
    usual = max(numbers.values(), default=0)
    others = [f"WHEN {old} THEN {number}" for old, number in numbers.items() if number != usual]
    return f"CASE {column} {' '.join(others)} ELSE {usual} END" if others else str(usual)


def _all_ended(ends: Iterable[Optional[str]]) -> Optional[str]:
    """When the last of them ended, if all did."""
    some = list(ends)
    return None if None in some else max(each for each in some if each is not None)


# No log is needed: what isn't whole is thrown away.
FAST = "PRAGMA journal_mode = OFF; PRAGMA synchronous = OFF;"
# The number of differences that are reported one by one.
MAX_TOLD = 10


def merge(into: str, paths: Sequence[str], unfinished: bool) -> bool:
    """Joins the stores; whether nothing lacks. Raises StoreFailed, NotWritten, or sqlite3.Error of the new one."""
    counts: Optional[Counts] = None
    stopping = Stopping()
    try:
        with stopping, Lock(into), Sources(paths) as sources, ExitStack() as stack:
            for source in sources:
                stack.enter_context(stopping.ends(source.connection))
            faults = _looked(into, sources, unfinished)
            counts = _made(into, sources, not faults, stopping)
    except Busy as busy:
        raise StoreFailed(into, messages.PROCESS_AT_WORK.format(reason=busy)) from None
    except OSError as error:
        raise NotWritten(into, reason(error)) from None
    except StoreFailed:
        stopping.act()  # (of a store that was read as a signal came)
        raise
    stopping.act()
    assert counts is not None
    output = Output(sys.stdout.buffer)
    output.line(counts.summary(f"from {numbered(len(sources), 'store')}"))
    output.flush()
    return not faults


def _looked(into: str, sources: List[Source], unfinished: bool) -> int:
    """Looks whether the stores can be joined; how many faults were reported, with which that is possible."""
    if os.path.lexists(into):
        raise NotWritten(into, messages.IS_THERE)
    for ending in (JOURNAL, LOG, INDEX):
        require_own(into, ending)
        if os.path.lexists(place(into, ending)):
            # (SQLite would take it for that of the new one)
            raise NotWritten(into, messages.LEFT_OF_STORE.format(ending=ending))
    for source in sources:
        source.require_right()
    require_apart(sources)
    faults = list(lacking(sources))
    for path, why in faults:
        tell(f"{shown(path)}: {why}")
    if faults and not unfinished:
        raise StoreFailed(into, messages.UNFINISHED)
    return len(faults)


def _made(into: str, sources: List[Source], finished: bool, stopping: Stopping) -> Optional[Counts]:
    """Makes the store, beside its place first; what it has, or nothing where a signal stops that."""
    aside = into + MADE
    connection: Optional[sqlite3.Connection] = None
    require_own(into, MADE)
    try:
        _remove(aside)  # (what a process left that was killed)
        _require_same(into, sources, stopping)
        if stopping.number is None:
            connection = open_to_write(aside, any(has_texts(source.connection) for source in sources))
            counts = _joined(connection, sources, finished, stopping)
            connection.close()
            _place(aside, into)
            return counts
    except sqlite3.OperationalError:
        if stopping.number is None:
            raise
    finally:
        if connection:
            connection.close()
        _remove(aside)
    return None


def _require_same(into: str, sources: List[Source], stopping: Stopping) -> None:
    """Raises StoreFailed where the stores answer differently, which is reported."""
    total = sum(source.number("SELECT count(*) FROM pages") for source in sources)
    progress = Progress(sys.stderr, lambda: total, what="pages compared")
    number = 0
    try:
        for number, (one, other) in enumerate(differing(sources, progress, lambda: stopping.number is not None), 1):
            if number <= MAX_TOLD:
                progress.tell(messages.ANSWERS_DIFFER.format(one=one.line, other=other.line))
    finally:
        progress.clear()
    if number:
        raise StoreFailed(into, messages.TWO_ANSWERS.format(pages=numbered(number, "page")))


def _joined(connection: sqlite3.Connection, sources: List[Source], finished: bool, stopping: Stopping) -> Counts:
    """Joins the stores, and tells meanwhile how much is written of what will be."""
    path = path_of(connection)
    total = sum(os.path.getsize(source.path) for source in sources) >> 20
    progress = Progress(sys.stderr, lambda: total, what="MiB")

    def look() -> bool:
        progress.show(os.path.getsize(path) >> 20)
        return stopping.number is not None
    connection.executescript(FAST)
    connection.set_progress_handler(look, STEPS_BETWEEN)
    try:
        return Joining(connection, sources).join(finished)
    finally:
        watch(connection)
        progress.clear()


def _remove(path: str) -> None:
    try:
        os.unlink(path)
    except FileNotFoundError:
        pass


def _place(aside: str, into: str) -> None:
    """Puts a file in its place, where nothing is."""
    for path in (aside, os.path.dirname(aside) or "."):
        descriptor = os.open(path, os.O_RDONLY | os.O_CLOEXEC)
        try:
            os.fsync(descriptor)
        finally:
            os.close(descriptor)
    try:
        os.link(aside, into)
    except FileExistsError:
        raise
    except OSError:  # a file system without links
        os.rename(aside, into)
