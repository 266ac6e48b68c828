"""The counts of a scan; and the command status: what was scanned when, with which program, and what is left."""
import os
import sqlite3
from dataclasses import dataclass, field
from typing import Dict, List, NamedTuple, Optional, Sequence, Tuple, TypeVar

from naplps.names import printable, shown

from ..console import Output
from . import tables
from .kept import CANON_TABLES, Part, kept, kept_part, lacking
from .printing import numbered
from .store import log_of
from .store_files import LOG, is_held
from .tables import Count, FileState, Flag, Name, PageKind, PageState, Path, Text, checked, one

Key = TypeVar("Key")
# Files in folders that the run read, those that it missed, and those that were named by themselves, by their states.
FILES_OF_RUN = f"""SELECT f.state, count(*) FROM files f JOIN folders d ON d.id = f.folder
    WHERE ((d.run = :run AND d.state = {tables.READ} AND f.state <> :gone)
    OR (f.run = :run AND (f.state = :gone OR d.run <> :run)))
    AND {tables.IS_FILE} GROUP BY 1"""
# Of those that it read the files that aren't pages or aren't accepted, which are fewer.
OTHERS = f"""SELECT p.state, p.kind, count(*) FROM pages p
    CROSS JOIN files f ON f.page = p.id AND f.state = {tables.READ}
    CROSS JOIN folders d ON d.id = f.folder WHERE p.kind IS NOT :page
    AND (d.run = :run AND d.state = {tables.READ} OR f.run = :run AND d.run <> :run) GROUP BY 1, 2"""
PACKS = f"""SELECT count(*) FROM folders d JOIN files f ON f.folder = d.id AND f.name = x''
    WHERE d.run = ? AND f.state <> {tables.GONE}"""
FOLDERS = "SELECT count(*) FROM folders WHERE run = ? AND state = ?"
WORDS = {tables.UNREADABLE: "unreadable", tables.VANISHED: "vanished", tables.TOO_LONG: "too long",
         tables.NOT_A_FILE: "not regular files", tables.CHANGED: "changed meanwhile"}
UNKNOWN, SHUT = "of unknown kind", "unreadable folders"


# Accepted files by their kinds; of those that are still as a store of the schema before has them it isn't known.
Kinds = Dict[Optional[int], int]


class Counts(NamedTuple):
    """Files by what they are; and pages that were asked about."""

    files: Dict[int, int]
    pages: Dict[int, int]
    folders: int
    asked: int
    packs: int = 0
    kinds: Kinds = {}
    captures: int = 0

    @property
    def met(self) -> int:
        """How many files there are."""
        return sum(number for state, number in self.files.items() if state != tables.GONE)

    def plus(self, other: "Counts") -> "Counts":
        """Both together."""
        return Counts(_sum(self.files, other.files), _sum(self.pages, other.pages), self.folders + other.folders,
                      self.asked + other.asked, self.packs + other.packs, _sum(self.kinds, other.kinds),
                      self.captures + other.captures)

    def line(self, known: int) -> str:
        """The counts of a scan for people, with the number of those that were known."""
        return self.summary(f"{known} known, {numbered(self.asked, 'page')} asked about")

    def summary(self, origin: str) -> str:
        """The counts for people, and in their midst where they come from."""
        parts = ["%d %s" % (self.pages.get(state, 0), tables.PAGE_STATES[state])
                 for state in (tables.ACCEPTED, tables.REFUSED)]
        if self.pages.get(tables.ACCEPTED):
            parts[0] += f" ({told_kinds(self.kinds)})"
        if self.captures:
            parts[1] += f" ({numbered(self.captures, 'capture')})"
        if self.pages.get(tables.NO_ANSWER):
            parts.append(f"{self.pages[tables.NO_ANSWER]} without an answer")
        parts += [f"{self.files[state]} {word}" for state, word in WORDS.items() if self.files.get(state)]
        line = f"{numbered(self.met, 'file')}: {', '.join(parts)}; {origin}"
        if self.files.get(tables.GONE):
            line += f"; {self.files[tables.GONE]} gone"
        if self.packs:
            line += f"; {numbered(self.packs, 'pack')}"
        if self.folders:
            line += f"; {numbered(self.folders, 'folder')} unreadable"
        return line


def _sum(one: Dict[Key, int], other: Dict[Key, int]) -> Dict[Key, int]:
    return {key: one.get(key, 0) + other.get(key, 0) for key in {**one, **other}}


def told_kinds(kinds: Kinds) -> str:
    """How many accepted files are of each kind, for people."""
    words = {tables.PAGE: ("page", "pages"), tables.TEXT: ("text", "texts"), tables.BLANK: ("blank", "blank"),
             None: (UNKNOWN, UNKNOWN)}
    return ", ".join(numbered(kinds[kind], *each) for kind, each in words.items() if kinds.get(kind))


def counted(connection: sqlite3.Connection, run: int) -> Counts:
    """What the run with this number came to."""
    files: Dict[int, int] = dict(connection.execute(FILES_OF_RUN, {"run": run, "gone": tables.GONE}))
    pages: Dict[int, int] = {}
    kinds: Kinds = {}
    captures = 0
    for state, kind, number in connection.execute(OTHERS, {"run": run, "page": tables.PAGE}):
        pages[state] = pages.get(state, 0) + number
        if state == tables.ACCEPTED:
            kinds[kind] = number
        elif kind == tables.CAPTURE:
            captures = number
    kinds[tables.PAGE] = files.get(tables.READ, 0) - sum(pages.values())
    pages[tables.ACCEPTED] = sum(kinds.values())
    asked, packs = _one(connection, "SELECT count(*) FROM pages WHERE run = ?", (run,)), _one(connection, PACKS, (run,))
    return Counts(files, pages, _one(connection, FOLDERS, (run, tables.UNREADABLE)), asked, packs, kinds, captures)


def _one(connection: sqlite3.Connection, words: str, values: Tuple[int, ...]) -> int:
    number, = connection.execute(words, values).fetchone()
    return int(number)


RUN = """SELECT r.id, r.began, r.ended, r.tool, r.program, r.terms, t.version, lower(hex(t.program_hash)), t.form,
    t.budget FROM runs r JOIN terms t ON t.id = r.terms ORDER BY r.id DESC LIMIT 1"""
ROOTS = """SELECT path, (SELECT why FROM roots o WHERE o.path = r.path ORDER BY run DESC LIMIT 1)
    FROM roots r GROUP BY path ORDER BY path"""
FILES = f"""SELECT f.state, p.state, coalesce(f.why, p.why), f.state = {tables.READ} AND p.terms <> ?, p.kind,
    p.looks_like, p.several, p.holds, count(*) FROM files f
    LEFT JOIN pages p ON p.id = f.page AND f.state = {tables.READ} WHERE {tables.IS_FILE}
    GROUP BY 1, 2, 3, 4, 5, 6, 7, 8"""
PAGES = """SELECT (SELECT count(DISTINCT page) FROM present), (SELECT count(DISTINCT canon) FROM pages p
    WHERE canon IS NOT NULL AND EXISTS(SELECT 1 FROM present f WHERE f.page = p.id))"""
# Pages that lack what the store keeps, by the option.
LACKING = {"cures": ("refused without repairs tried", f"p.state = {tables.REFUSED} AND NOT {tables.TRIED}"),
           "words": ("without their text", f"p.state <> {tables.NO_ANSWER} AND NOT {tables.HAS_TEXT}")}
LACK = "SELECT count(*) FROM pages p WHERE {} AND EXISTS(SELECT 1 FROM present f WHERE f.page = p.id)"
PERHAPS_SEVERAL = "perhaps several pages"
# Reasons that are all alike but for a number.
NUMBERED = (tables.TOO_LONG,)
LEFT = (tables.UNREADABLE, tables.VANISHED, tables.CHANGED)


class FilesAlike(NamedTuple):
    """Files that are alike, and how many these are."""

    state: FileState
    answer: Optional[PageState]
    why: Optional[Text]
    is_old: Optional[Flag]
    kind: Optional[PageKind]
    looks_like: Optional[Text]
    several: Optional[Flag]
    holds: Optional[Count]
    files: Count


class LastRun(NamedTuple):
    """The last run, and its terms."""

    id: Count
    began: Text
    ended: Optional[Text]
    tool: Text
    program: Name
    terms: Count
    version: Text
    program_hash: Text
    form: Text
    budget: Count


class RootState(NamedTuple):
    """A folder that was named, and why it couldn't be read, if so."""

    path: Path
    why: Optional[Text]


@dataclass
class Tally:
    """Files by what they are."""

    counts: Dict[str, int] = field(default_factory=dict)
    kinds: Dict[str, int] = field(default_factory=dict)
    looks: Dict[str, int] = field(default_factory=dict)
    reasons: Dict[Tuple[str, str], int] = field(default_factory=dict)
    left: Dict[str, int] = field(default_factory=dict)
    several: int = 0
    captures: int = 0
    pages: int = 0

    def take(self, row: FilesAlike) -> None:
        """Counts files that are alike."""
        name = tables.FILE_STATES[row.state] if row.answer is None else tables.PAGE_STATES[row.answer]
        _add(self.counts, name, row.files)
        if row.why is not None:
            _add(self.reasons, (name, "" if row.state in NUMBERED else row.why), row.files)
        if row.answer == tables.ACCEPTED:
            _add(self.kinds, UNKNOWN if row.kind is None else tables.KINDS[row.kind], row.files)
        if row.looks_like:
            _add(self.looks, row.looks_like, row.files)
        self.several += row.files if row.several else 0
        self.captures += row.files if row.holds else 0
        self.pages += row.files * (row.holds or 0)
        if row.is_old:
            _add(self.left, "answered on other terms", row.files)
        elif row.state in LEFT or row.answer == tables.NO_ANSWER:
            _add(self.left, name, row.files)
        elif row.answer is not None and row.holds is None:
            _add(self.left, UNKNOWN, row.files)

    def told_below(self, name: str) -> List[str]:
        """What is told of the files of a name, after their number."""
        some = [f"{many}: {why}" for (of, why), many in sorted(self.reasons.items()) if of == name and why]
        if name == tables.PAGE_STATES[tables.ACCEPTED]:
            some += [f"{self.kinds[kind]}: {kind}" for kind in (*tables.KINDS, UNKNOWN) if kind in self.kinds]
            some += [f"{self.several}: {PERHAPS_SEVERAL}"] if self.several else []
        if name == tables.PAGE_STATES[tables.REFUSED]:
            some += [f"{self.captures}: capture, of {self.pages} pages"] if self.captures else []
            some += ["%d: looks like %s" % (many, look) for look, many in _most_first(self.looks)]
        return some


def _add(counts: Dict[Key, int], key: Key, number: int) -> None:
    counts[key] = counts.get(key, 0) + number


def _most_first(counts: Dict[str, int]) -> List[Tuple[str, int]]:
    return sorted(counts.items(), key=lambda each: (-each[1], each[0]))


class Status(NamedTuple):
    """What a store holds."""

    path: str
    busy: bool
    run: Optional[LastRun]
    roots: List[RootState]
    tally: Tally
    pages: int
    canonical: int
    part: Optional[Part]
    log: int = 0
    lacking: Sequence[Tuple[str, str]] = ()

    @property
    def counts(self) -> Dict[str, int]:
        """Files by what they are."""
        return self.tally.counts


def status(connection: sqlite3.Connection, path: str) -> Status:
    """What the store holds."""
    run = one(connection.execute(RUN).fetchone(), LastRun)
    tally = Tally()
    for alike in checked(connection.execute(FILES, (run.terms if run else 0,)), FilesAlike):
        tally.take(alike)
    shut, = connection.execute("SELECT count(*) FROM folders WHERE state = ?", (tables.UNREADABLE,)).fetchone()
    if shut:
        tally.left[SHUT] = shut
    options = kept(connection)
    for table in CANON_TABLES:
        number = table.find_wanted(connection) if table.option in options else 0
        tally.left.update({table.lack: number} if number else {})
    for option in sorted(options & set(LACKING)):
        name, words = LACKING[option]
        number, = connection.execute(LACK.format(words)).fetchone()
        if number:
            tally.left[name] = number
    roots = list(checked(connection.execute(ROOTS), RootState))
    pages, canonical = connection.execute(PAGES).fetchone()
    return Status(path, is_held(path), run, roots, tally, pages, canonical, kept_part(connection), log_of(connection),
                  lacking(connection))


def state_of(it: Status) -> str:
    """How the last scan stands."""
    if it.busy:
        return "is at work"
    return f"ended {it.run.ended} UTC" if it.run and it.run.ended else "was stopped: the same command goes on"


def lines(it: Status) -> List[Tuple[str, str]]:
    """What is told of it, as pairs."""
    some = [("store", f"{shown(it.path)}, {os.path.getsize(it.path)} bytes")]
    if it.log:
        some.append(("log", f"{it.log} bytes, of the last rows: to copy the store, copy {shown(it.path + LOG)} too"))
    if it.run:
        some += [("scan", f"began {it.run.began} UTC, {state_of(it)}"), ("tool", it.run.tool),
                 ("program", f"{shown(os.fsdecode(it.run.program))}, {it.run.version}"),
                 ("program hash", it.run.program_hash), ("budget", str(it.run.budget))]
    some += [("folder", shown(os.fsdecode(path)) + (f": {why}" if why else "")) for path, why in it.roots]
    if it.part:
        some.append(("part", str(it.part)))
    files = sum(number for name, number in it.counts.items() if name != tables.FILE_STATES[tables.GONE])
    some.append(("files", str(files)))
    for name, number in sorted(it.counts.items(), key=lambda each: -each[1]):
        some.append((name, str(number)))
        some += [("", told) for told in it.tally.told_below(name)]
    some += [("distinct pages", str(it.pages)), ("canonical pages", str(it.canonical)), *it.lacking]
    left = [f"{number} {name}" for name, number in it.tally.left.items()]
    if it.run and not it.run.ended:
        left.append("what the scan hasn't reached")
    return some + [("left", ", ".join(left) or "nothing")]


def show(output: Output, it: Status) -> None:
    """Prints it."""
    for name, value in lines(it):
        output.line(printable("%-16s %s" % (name + ":" if name else "", value)))
