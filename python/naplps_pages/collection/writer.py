"""Writes a scan into its store, in steps: what a step holds is kept as a whole, or is asked again."""
import sqlite3
import time
from operator import itemgetter, length_hint
from typing import Dict, Iterable, Iterator, List, Optional, Set, Tuple

from naplps.version import VERSION

from .. import TOOL
from ..packs import SEVERAL, pack_of
from . import texts
from .folders import is_within, join
from .protocol import OF_ACCEPTED, Row, RowBlock, empty
from .tables import (
    GONE, NO_ANSWER, READ, UNREADABLE, VANISHED, Answered, Cured, Fault, File, Folder, Root, Terms, listed, marks,
    taken_over,
)

# The number of files, or the age in seconds, with which a step is written.
STEP, SECONDS = 2000, 2.0

# The statements that insert rows as they come, under terms and of a run.
ANSWER = f"""ON CONFLICT(own) DO UPDATE SET {taken_over(listed(Answered, "terms", "run"))}
    WHERE terms <> excluded.terms OR state = {NO_ANSWER} OR excluded.state <> {NO_ANSWER}"""
PAGE = f"INSERT INTO pages({listed(Answered, 'terms', 'run')}) VALUES({marks(Answered)}, {{terms}}, {{run}}) {ANSWER}"
ACCEPTED_PAGE = (f"INSERT INTO pages({OF_ACCEPTED}, terms, run) "
                 f"VALUES(?{', ?' * OF_ACCEPTED.count(',')}, {{terms}}, {{run}}) {ANSWER}")
# (a file has the hash of its page after what is a column)
OF_FILE = (f"files({listed(File, 'page', 'run')}) "
           f"VALUES({marks(File)}, (SELECT id FROM pages WHERE own = ?), {{run}})")
FILE = f"INSERT OR REPLACE INTO {OF_FILE}"
# A member that was met before in this run, elsewhere in its pack, is one of several of its name.
AGAIN = "run = excluded.run AND inode IS NOT excluded.inode"
MEMBER = f"""INSERT INTO {OF_FILE}
    ON CONFLICT(folder, name) DO UPDATE SET state = CASE WHEN {AGAIN} THEN {UNREADABLE} ELSE excluded.state END,
    why = CASE WHEN {AGAIN} THEN '{SEVERAL}' ELSE excluded.why END,
    page = CASE WHEN {AGAIN} THEN NULL ELSE excluded.page END,
    size = excluded.size, mtime_ns = NULL, ctime_ns = NULL, inode = excluded.inode, run = excluded.run"""
CURE = f"""INSERT OR REPLACE INTO cures(page, terms, {listed(Cured)})
    SELECT id, {{terms}}, {marks(Cured)} FROM pages WHERE own = ?"""
FOLDER = f"""INSERT INTO folders({listed(Folder, "run")}) VALUES({marks(Folder, 1)})
    ON CONFLICT(path) DO UPDATE SET {taken_over("state, why, run")}"""
IS_GONE = f"UPDATE files SET state = {GONE}, why = NULL, run = ? WHERE folder = ? AND name = ?"
FOLDER_IS_GONE = f"UPDATE folders SET state = {GONE}, why = NULL WHERE id = ?"
FILES_ARE_GONE = f"UPDATE files SET state = {GONE}, why = NULL, run = ? WHERE folder = ? AND state <> {GONE}"
# The hash of a page stands first in its row.
hash_of = itemgetter(0)


class Writer:
    """One run of a scan, as it is written."""

    def __init__(self, connection: sqlite3.Connection, program: bytes, terms: Terms, holds: bool = False) -> None:
        self.connection, self.holds = connection, holds
        self.block = empty()
        self.members: List[Row] = []
        self.gone: List[Tuple[int, bytes]] = []
        self.names: Dict[int, str] = {}
        self.packs: Set[int] = set()
        self.unpacked: List[int] = []
        self.current: Optional[File] = None
        self.has_words = texts.is_there(connection)
        self.began = time.monotonic()
        self._begin()
        self.terms = self._terms(terms)
        self.run = self._insert("INSERT INTO runs(began, tool, program, terms) VALUES(datetime('now'), ?, ?, ?)",
                                (f"{TOOL} {VERSION}", program, self.terms))
        self.write()

    def _begin(self) -> None:
        if not self.connection.in_transaction:
            self.connection.execute("BEGIN IMMEDIATE")

    def _insert(self, words: str, values: Tuple[object, ...]) -> int:
        number = self.connection.execute(words, values).lastrowid
        assert number is not None
        return number

    def _terms(self, terms: Terms) -> int:
        found = self.connection.execute("SELECT id FROM terms WHERE program_hash = ? AND form = ? AND budget = ?",
                                        (terms.program_hash, terms.form, terms.budget)).fetchone()
        if found:
            return int(found[0])
        return self._insert(f"INSERT INTO terms({listed(Terms)}) VALUES({marks(Terms)})", terms)

    def root(self, path: bytes, why: Optional[str] = None) -> None:
        """Notes a folder that was named, and what is wrong with it."""
        self._begin()
        self.connection.execute(f"INSERT OR REPLACE INTO roots({listed(Root)}) VALUES({marks(Root)})",
                                Root(self.run, path, why))

    def folder(self, path: bytes, state: int, why: Optional[str]) -> Tuple[int, bool]:
        """Notes a folder or a pack; its number, and whether it was known."""
        self._begin()
        found = self.connection.execute("SELECT id FROM folders WHERE path = ?", (path,)).fetchone()
        self.connection.execute(FOLDER, (*Folder(path, state, why), self.run))
        number, = found or self.connection.execute("SELECT id FROM folders WHERE path = ?", (path,)).fetchone()
        if pack_of(path) is not None:
            self.packs.add(number)
        return int(number), found is not None

    def is_no_folder(self, path: bytes) -> None:
        """Notes that what has this path is no folder, whatever it was before."""
        self._begin()
        self.connection.execute("UPDATE folders SET state = ?, why = NULL WHERE path = ?", (GONE, path))

    def folder_of(self, path: bytes) -> int:
        """The number of a folder in which a file was named. That this run met the folder isn't noted."""
        self._begin()
        found = self.connection.execute("SELECT id FROM folders WHERE path = ?", (path,)).fetchone()
        if found is None:
            return self.folder(path, READ, None)[0]
        self.connection.execute("UPDATE folders SET state = ?, why = NULL WHERE id = ? AND state <> ?",
                                (READ, found[0], READ))
        return int(found[0])

    def take(self, block: RowBlock) -> None:
        """Takes what a worker found: files of folders, or members of one pack and the row of that."""
        if self.packs and block.files and File(*block.files[0]).folder in self.packs:
            self.members += block.files
            block = block._replace(files=[])
        self.block.add(block._replace(values=[], unread=[]))

    @property
    def files(self) -> Iterator[File]:
        """The files of the step."""
        return (File(*row) for row in (*self.block.files, *self.members))

    def is_gone(self, folder: int, name: bytes) -> None:
        """Notes that a file isn't there any more."""
        self.gone.append((folder, name))

    def forget(self) -> None:
        """Takes what waits out of the step."""
        self.block, self.members = empty(), []

    @property
    def is_due(self) -> bool:
        """Whether the step is large enough to be written, or old enough."""
        if len(self.block.files) + len(self.members) + len(self.gone) >= STEP:
            return True
        return time.monotonic() - self.began > SECONDS

    def write(self) -> None:
        """Writes the step."""
        held: Set[File] = set()
        if self.gone or self.members or any(self.block):
            self._begin()
            self._pages()
            held = self._held() if self.holds else held
            self._files(held)
            self.connection.executemany(IS_GONE, ((self.run, folder, name) for folder, name in self.gone))
        if self.connection.in_transaction:
            self.connection.execute("COMMIT")
        self.block, self.members, self.gone = empty(), [], []
        for file in held:
            (self.members if file.folder in self.packs else self.block.files).append(file)
        self.began = time.monotonic()

    @property
    def at_work(self) -> Optional[bytes]:
        """The path of the file whose row couldn't be written."""
        if self.current is None:
            return None
        path = self.connection.execute("SELECT path FROM folders WHERE id = ?", (self.current.folder,)).fetchone()
        return join(path[0], self.current.name) if path else None

    def _insert_rows(self, words: str, rows: List[Row], of_pages: bool = False) -> None:
        """Inserts rows of files, or of pages. The file is noted of one that can't be inserted."""
        left = iter(rows)
        try:
            self.connection.executemany(words.format(terms=self.terms, run=self.run), left)
        except Exception:
            at = len(rows) - length_hint(left)
            for row in rows[max(at - 1, 0):at]:
                some = (file for file in self.files if file.own == hash_of(row)) if of_pages else iter([File(*row)])
                self.current = next(some, None)
            raise

    def _pages(self) -> None:
        """Writes the answers, by hash, since neighbours in the index are cheaper."""
        block = self.block
        self._insert_rows(ACCEPTED_PAGE, sorted(block.accepted, key=hash_of), True)
        self._insert_rows(PAGE, sorted(block.others, key=hash_of), True)
        self.connection.executemany(CURE.format(terms=self.terms), block.cures)
        texts.write(self.connection, self.terms, block.texts, self.has_words)
        names = dict(block.faults)
        if not names.items() <= self.names.items():
            self.names.update(names)
            self.connection.executemany(f"INSERT OR REPLACE INTO faults({listed(Fault)}) VALUES({marks(Fault)})",
                                        names.items())

    def _held(self) -> Set[File]:
        """The files of the step that wait for the answer to their page, and packs of which members wait."""
        files = list(self.files)
        owns = {file.own for file in files if file.own is not None}
        known = {own for own in owns if self.connection.execute("SELECT 1 FROM pages WHERE own = ?", (own,)).fetchone()}
        folders = {file.folder for file in files if file.own is not None and file.own not in known}
        return {file for file in files if (file.own is not None and file.own not in known) or (
            not file.name and file.folder in folders)}

    def _files(self, held: Set[File]) -> None:
        """Writes the files, but those that wait."""
        files, members = ([row for row in rows if row not in held] if held else rows
                          for rows in (self.block.files, self.members))
        self._insert_rows(FILE, files)
        if members:
            some = [File(*row) for row in members]
            self._insert_rows(MEMBER, [file for file in some if file.name])
            for file in some:
                if not file.name:
                    self._pack(file)

    def _pack(self, file: File) -> None:
        """Writes the row of a pack itself, after those of its members."""
        self._insert_rows(FILE, [file])
        self.unpacked.append(file.folder)
        if file.state == READ:
            self.connection.execute(
                "UPDATE files SET state = ?, why = NULL, run = ? WHERE folder = ? AND run <> ? AND state <> ?",
                (GONE, self.run, file.folder, self.run, GONE))
        elif file.mtime_ns is None and file.state in (UNREADABLE, VANISHED):
            self.connection.execute("UPDATE folders SET state = ?, why = ? WHERE id = ?",
                                    (file.state, file.why, file.folder))

    def doubles(self) -> Iterator[Tuple[int, bytes]]:
        """The packs that this run read, by their numbers, and names in them that several members have."""
        for number in self.unpacked:
            for name, in self.connection.execute("SELECT name FROM files WHERE folder = ? AND run = ? AND state = ? "
                                                 "AND why = ?", (number, self.run, UNREADABLE, SEVERAL)):
                yield number, name

    def sweep(self, roots: Iterable[bytes]) -> None:
        """Notes as gone what is in folders that this run didn't meet, but where it couldn't have met them."""
        self._begin()
        closed = [path for path, in self.connection.execute(
            "SELECT path FROM folders WHERE run = ? AND state = ?", (self.run, UNREADABLE))]
        for root in roots:
            below = join(root, b"")
            missed = self.connection.execute(
                "SELECT id, path FROM folders WHERE path >= ? AND path < ? AND (run <> ? OR state = ?) AND state <> ?",
                (below, below[:-1] + b"0", self.run, VANISHED, GONE)).fetchall()
            ids = [number for number, path in missed if not any(is_within(path, one) for one in closed)]
            self.connection.executemany(FOLDER_IS_GONE, ((number,) for number in ids))
            self.connection.executemany(FILES_ARE_GONE, ((self.run, number) for number in ids))
        self.write()

    def has_below(self, root: bytes) -> bool:
        """Whether files are known in this folder or below it."""
        below = join(root, b"")
        return self.connection.execute(
            "SELECT 1 FROM folders d JOIN files f ON f.folder = d.id AND f.state = ? "
            "WHERE d.path = ? OR (d.path >= ? AND d.path < ?) LIMIT 1",
            (READ, root, below, below[:-1] + b"0")).fetchone() is not None

    def finish(self, files: int, asked: int) -> None:
        """Notes the end of the run."""
        self._begin()
        self.connection.execute("UPDATE runs SET ended = datetime('now'), files = ?, asked = ? WHERE id = ?",
                                (files, asked, self.run))
        self.write()
