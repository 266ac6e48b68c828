"""The files of a store as a report shows them: their names, what the program said of them, and their first words."""
import os
import sqlite3
from typing import Any, Dict, Iterable, Iterator, List, NamedTuple, Optional, Tuple

from naplps.answers import Accepted, Answer, Refusal, Unanswered
from naplps.names import shown

from ..collection import tables
from ..collection.texts import has_index, has_texts
from ..collection.folders import Place, is_within
from ..collection.tables import (
    Count, FileState, Flag, GradeNumber, Hash, Name, PageKind, PageState, Path, RefusalNumber, Text, checked,
)
from ..packs import MARK, inside
from ..page_words import NoWords, match_of, parse_query

# A file, its page, and on which terms that was asked about. (Files that are gone aren't shown.)
COLUMNS = f"""d.id, d.path, f.name, f.state, f.why, f.size, p.id, p.own, p.state, p.number, n.name, p.left_out, p.place,
    p.entries, p.canon, p.canon_size, p.why, t.form, t.budget, c.page IS NOT NULL, c.treatments,
    {tables.AT}, p.kind, p.looks_like, p.several, c.grade, c.entries, c.copy, c.canon"""
JOINS = f"""JOIN folders d ON d.id = f.folder LEFT JOIN pages p ON p.id = f.page AND f.state = {tables.READ}
    LEFT JOIN terms t ON t.id = p.terms LEFT JOIN faults n ON n.number = p.number
    LEFT JOIN cures c ON c.page = p.id AND c.terms = p.terms"""
FROM = "FROM files f " + JOINS
THERE = f"f.state <> {tables.GONE} AND {tables.IS_FILE}"
ALL = f"SELECT {COLUMNS} {FROM} WHERE {THERE} ORDER BY d.path, f.name"
COUNT = f"SELECT count(*) FROM files f WHERE {THERE}"
# States whose reasons differ by a number only.
NUMBERED = (tables.TOO_LONG,)


class ReportFile(NamedTuple):
    """A row of the store."""

    folder: Count
    path: Path
    name: Name
    state: FileState
    why: Optional[Text]
    size: Optional[Count]
    page: Optional[Count]
    own: Optional[Hash]
    answer: Optional[PageState]
    number: Optional[RefusalNumber]
    fault: Optional[Text]
    left_out: Optional[Text]
    at: Optional[Count]
    entries: Optional[Count]
    canon: Optional[Hash]
    length: Optional[Count]
    no_answer: Optional[Text]
    form: Optional[Text]
    budget: Optional[Count]
    tried: Flag
    treatments: Optional[Text]
    begins: Optional[Count]
    kind: Optional[PageKind] = None
    looks_like: Optional[Text] = None
    several: Optional[Flag] = None
    grade: Optional[GradeNumber] = None
    treated_entries: Optional[Count] = None
    treated: Optional[Hash] = None
    treated_canon: Optional[Hash] = None

    @property
    def place(self) -> Place:
        """Where it is."""
        return Place(self.path, self.name, self.begins)

    @property
    def key(self) -> Optional[Tuple[bytes, str]]:
        """What it is equal by: the canonical hash and its form."""
        return None if self.canon is None or self.form is None else (self.canon, self.form)

    @property
    def drawn_key(self) -> Optional[Tuple[bytes, str]]:
        """The same of what is drawn of it: the page, or a readable copy."""
        canon = self.canon or self.treated_canon
        return None if canon is None or self.form is None else (canon, self.form)

    @property
    def page_answer(self) -> Answer:
        """The answer to its page."""
        if self.answer == tables.ACCEPTED and self.entries is not None:
            return Accepted(self.entries)
        if self.answer == tables.REFUSED and self.number is not None and self.at is not None:
            return Refusal(self.number, self.fault or "", self.left_out, self.at)
        return Unanswered(self.no_answer or "")

    @property
    def line(self) -> str:
        """The answer to its page as `naplps check` prints it, or nothing."""
        page_answer = self.page_answer
        return "" if isinstance(page_answer, Unanswered) else page_answer.line

    @property
    def summary(self) -> str:
        """The answer in short, the same for all files of one reason."""
        return summary(self.state, self.why, self.answer, self.number, self.fault, self.left_out, self.no_answer)


def files_of(rows: Iterable[Tuple[Any, ...]]) -> Iterator[ReportFile]:
    """The files of rows of COLUMNS. Raises NotAStore."""
    return checked(rows, ReportFile)


# What a summary is made of.
REASONS = "f.state, f.why, p.state, p.number, n.name, p.left_out, p.why"


def summary(state: int, why: Optional[str], answer: Optional[int], number: Optional[int], fault: Optional[str],
         left_out: Optional[str], no_answer: Optional[str]) -> str:
    """What there is to say of a file: accepted, or the reason why not."""
    if state != tables.READ or answer is None:
        return because(tables.FILE_STATES[state], None if state in NUMBERED else why)
    if answer == tables.REFUSED:
        return reason(number or 0, fault or "", left_out)
    return because(tables.PAGE_STATES[answer], no_answer)


def reason(number: int, fault: str, left_out: Optional[str]) -> str:
    """A refusal by its number and names."""
    return " ".join(part for part in (str(number), fault, left_out or "") if part)


def because(state: str, why: Optional[str]) -> str:
    """A state, and why it is so where that is known."""
    return f"{state}: {why}" if why else state


# (a file that was named by itself stands in a folder, and is none)
ROOTS = """SELECT path, max(why IS NOT NULL OR EXISTS(SELECT 1 FROM folders d WHERE d.path IN
    (r.path, CAST(r.path || x'212F' AS BLOB)))) FROM roots r GROUP BY path ORDER BY path"""


class NamedRoot(NamedTuple):
    """A folder or a file that was named."""

    path: Path
    is_folder: Flag


class Roots:
    """The folders that were scanned. Where there are several, each has a name, which comes first."""

    def __init__(self, paths: List[bytes]) -> None:
        outer = [path for path in sorted(paths) if not any(other != path and is_within(path, other) for other in paths)]
        self.names: List[Tuple[bytes, str]] = list(zip(outer, _different([_leaf(path) for path in outer])))

    def relative(self, folder: bytes) -> str:
        """The folder's name relative to its root; after the root's own where there are several."""
        for path, name in self.names:
            if folder == inside(path):
                return name + os.fsdecode(MARK)
            if is_within(folder, path):
                rest = shown(os.fsdecode(folder[len(path):].lstrip(b"/")))
                return "/".join(part for part in (name if len(self.names) > 1 else "", rest) if part)
        return shown(os.fsdecode(os.path.basename(folder)))


def _leaf(path: bytes) -> str:
    return shown(os.fsdecode(os.path.basename(path.rstrip(b"/")) or b"/"))


def _different(names: List[str]) -> List[str]:
    """The names, with a number after each that was there before."""
    seen: Dict[str, int] = {}
    made = []
    for name in names:
        seen[name] = seen.get(name, 0) + 1
        made.append(name if seen[name] == 1 else f"{name} ({seen[name]})")
    return made


def load_roots(connection: sqlite3.Connection) -> Roots:
    """The roots of all scans into the store."""
    return Roots(list(dict.fromkeys(row.path if row.is_folder else os.path.dirname(row.path) for row in checked(
        connection.execute(ROOTS), NamedRoot))))


def joined(folder: str, name: bytes) -> str:
    """The name of a file in a folder that is named so, or of a member of a pack."""
    last = shown(os.fsdecode(name))
    if folder.endswith(os.fsdecode(MARK)):
        return folder[:-1] + last if last else folder[:-2]
    return folder + "/" + last if folder else last


FIRST_WORDS = "SELECT x.page, x.first FROM texts x CROSS JOIN pages p ON p.id = x.page AND p.terms = x.terms " \
    "WHERE x.first <> ''"
# A page p with words; an earlier text of it doesn't count.
HAS_WORDS = "(p.id, p.terms) IN (SELECT x.page, x.terms FROM words w CROSS JOIN texts x ON x.page = w.rowid " \
    "WHERE words MATCH ?)"


class FirstWords(NamedTuple):
    """The first words of a page, by its number."""

    page: Count
    first: Optional[Text]


def has_words(connection: sqlite3.Connection) -> bool:
    """Whether pages can be found by their words."""
    return has_index(connection) and has_texts(connection)


def first_words_of(connection: sqlite3.Connection, pages: Optional[Iterable[Optional[int]]] = None) -> Dict[int, str]:
    """The first words of pages by their numbers, or of all pages."""
    some = "" if pages is None else " AND x.page IN (%s)" % ", ".join(str(page) for page in pages if page is not None)
    return {row.page: row.first for row in checked(connection.execute(FIRST_WORDS + some), FirstWords) if row.first}


def word_condition(text: str) -> Tuple[str, List[object]]:
    """What a page must fulfil that has these words, and the values of that; nothing fulfils it where there are none."""
    try:
        return HAS_WORDS, [match_of(parse_query(text))]
    except NoWords:
        return "0", []
