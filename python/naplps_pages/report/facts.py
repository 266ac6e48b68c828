"""What stands above the files of a report: the scan, how many files are what, the reasons of refusals, groups of equal
pages, and what files can be chosen by.
"""
import sqlite3
from typing import Dict, Iterable, Iterator, List, NamedTuple, Optional, Tuple

from naplps.treating.treatments import graded

from .. import refusals
from ..collection import equal, every_file, tables
from ..collection.tables import Count, FileState, Hash, PageKind, PageState, Path, RefusalNumber, Text, checked
from ..collection.status import LACK, LACKING, SHUT, UNKNOWN, LastRun, status
from . import MOST_FOLDERS
from .files import FROM, REASONS, THERE, Roots, has_words, load_roots, reason, summary

# The readable copies of refused pages.
COPY_TABLE = (
    """CREATE TEMP TABLE copies AS SELECT c.canon AS canon, t.form AS form, c.page AS page, c.entries AS entries,
    c.canon_size AS canon_size FROM cures c CROSS JOIN pages p ON p.id = c.page AND p.terms = c.terms
    CROSS JOIN terms t ON t.id = c.terms WHERE c.canon IS NOT NULL""",
    "CREATE INDEX temp.copies_by_canon ON copies(canon, page)")
SEVERAL = "CREATE TEMP TABLE several AS " + equal.SEVERAL + equal.COPIES + "".join(
    each.format("copies") for each in (
        " UNION " + equal.AMONG_THEM, equal.WITH_PAGES, equal.OF_COPIES))
IN_GROUPS = """SELECT p.canon AS canon, t.form AS form, p.id AS page, p.entries AS entries, p.canon_size AS canon_size,
    0 AS is_copy FROM several s CROSS JOIN pages p ON p.canon = s.canon CROSS JOIN terms t ON t.id = p.terms
    CROSS JOIN present f ON f.page = p.id
    UNION ALL SELECT c.canon, c.form, c.page, c.entries, c.canon_size, 1 FROM several s
    CROSS JOIN copies c ON c.canon = s.canon CROSS JOIN present f ON f.page = c.page"""
# (those that draw nothing stand behind the others of their kind)
GROUPS = f"""SELECT canon, form, count(DISTINCT page) AS spellings, count(*) AS files, sum(is_copy) AS copies,
    max(entries) AS entries, max(canon_size) FROM ({IN_GROUPS}) GROUP BY canon, form HAVING count(*) > 1
    ORDER BY count(DISTINCT page) = 1, max(entries) = 0, spellings DESC, files DESC, canon, form"""
GROUP_TABLES = ("copies", "several")


class GroupSummary(NamedTuple):
    """How many spellings and files a canonical stream has, for how many of these it is that of a readable copy, and how
    long it is."""

    canon: Hash
    form: Text
    spellings: Count
    files: Count
    copies: Count
    entries: Count
    length: Count

    @property
    def key(self) -> Tuple[bytes, str]:
        """What its pages are equal by."""
        return self.canon, self.form


def load_groups(connection: sqlite3.Connection) -> List[GroupSummary]:
    """The groups, those of most spellings first: plain copies, which have one spelling, stand at the end."""
    for name in GROUP_TABLES:
        connection.execute(f"DROP TABLE IF EXISTS temp.{name}")
    for statement in (*COPY_TABLE, SEVERAL):
        connection.execute(statement)
    return list(checked(connection.execute(GROUPS), GroupSummary))


def of_spellings(groups: List[GroupSummary]) -> int:
    """How many of the groups have several spellings."""
    return sum(1 for group in groups if group.spellings > 1)


OF_CURES = f"SELECT c.treatments, count(*) {FROM} WHERE {THERE} AND c.page IS NOT NULL GROUP BY 1"
OF_KINDS = f"SELECT p.kind, p.looks_like, count(*) {FROM} WHERE {THERE} GROUP BY 1, 2"
OF_FOLDERS = f"SELECT d.path, count(*) {FROM} WHERE {THERE} GROUP BY d.id"
# The kinds that are shown on the wall before others are asked for; what a readable copy was made of is shown too.
IS_SHOWN = ("(c.treatments IS NOT NULL OR coalesce(p.looks_like, '') = '' AND "
            f"(p.kind IS NULL OR p.kind IN ({tables.PAGE}, {tables.CAPTURE})))")
OTHERS = f"SELECT count(*) {FROM} WHERE {THERE} AND p.id IS NOT NULL AND NOT {IS_SHOWN}"
# How many folders of a path can be chosen.
MOST_DEPTH = 8
# Of a page that no treatment makes readable.
NO_CURE = "none"

Choice = Tuple[str, int]


class AnsweredFiles(NamedTuple):
    """How many files have an answer, or why they have none."""

    state: FileState
    why: Optional[Text]
    answer: Optional[PageState]
    number: Optional[RefusalNumber]
    fault: Optional[Text]
    left_out: Optional[Text]
    no_answer: Optional[Text]
    files: Count

    @property
    def summary(self) -> str:
        """What there is to say of them."""
        return summary(self.state, self.why, self.answer, self.number, self.fault, self.left_out, self.no_answer)


class TreatedFiles(NamedTuple):
    """How many files have the same treatments."""

    treatments: Optional[Text]
    files: Count


class FilesOfKind(NamedTuple):
    """How many files are of a kind."""

    kind: Optional[PageKind]
    looks_like: Optional[Text]
    files: Count


class FilesBelow(NamedTuple):
    """How many files are in a folder."""

    path: Path
    files: Count


class Choices(NamedTuple):
    """The names of what can be chosen, each with its number of files."""

    kinds: List[Choice]
    answers: List[Choice]
    cures: List[Choice]
    folders: List[Choice]
    # (how many files that aren't pages are hidden on the wall)
    others: int = 0


def load_choices(connection: sqlite3.Connection, roots: Roots) -> Choices:
    """What can be chosen of the files of a store: the most frequent first, folders in the order of their names."""
    answers = _summed((row.summary, row.files) for row in checked(connection.execute(
        f"SELECT {REASONS}, count(*) {FROM} WHERE {THERE} GROUP BY 1, 2, 3, 4, 5, 6, 7"), AnsweredFiles))
    cures = _summed((cure(row.treatments), row.files) for row in checked(connection.execute(OF_CURES), TreatedFiles))
    kinds = _summed((kind(row.kind, row.looks_like), row.files) for row in checked(
        connection.execute(OF_KINDS), FilesOfKind))
    kinds.pop("", None)
    folders = ((roots.relative(row.path), row.files) for row in checked(connection.execute(OF_FOLDERS), FilesBelow))
    others: int = connection.execute(OTHERS).fetchone()[0]
    return Choices(_frequent(kinds)[:MOST_FOLDERS], _frequent(answers), _frequent(cures), _folders(folders), others)


def kind(number: Optional[int], looks_like: Optional[str]) -> str:
    """The kind of an accepted page, or what a refused one looks like; nothing where that isn't known."""
    if number is not None and 0 <= number < len(tables.KINDS):
        return tables.KINDS[number]
    return f"looks like {looks_like}" if looks_like else ""


def cure(treatments: Optional[str]) -> str:
    """What treatments come to, by name."""
    return graded(treatments) if treatments else NO_CURE


def is_inside(folder: str, outer: str) -> bool:
    """Whether a folder, by its name, is the other one or stands in it."""
    return folder == outer or folder.startswith(outer + "/")


def _summed(some: Iterable[Choice]) -> Dict[str, int]:
    counts: Dict[str, int] = {}
    for name, number in some:
        counts[name] = counts.get(name, 0) + number
    return counts


def _frequent(counts: Dict[str, int]) -> List[Choice]:
    return sorted(counts.items(), key=lambda each: (-each[1], each[0]))


def _folders(some: Iterable[Choice]) -> List[Choice]:
    """Folders and those around them, with all that is inside; so deep as there are few enough."""
    levels: List[Dict[str, int]] = [{} for _ in range(MOST_DEPTH)]
    for name, number in some:
        for depth, outer in enumerate(_outer(name)):
            levels[depth][outer] = levels[depth].get(outer, 0) + number
    few: Dict[str, int] = {}
    for level in levels:
        if few and len(few) + len(level) > MOST_FOLDERS:
            break
        few.update(level)
    return sorted(_frequent(few)[:MOST_FOLDERS])


def _outer(name: str) -> Iterator[str]:
    """The folders that lead to a folder, the outermost first, and itself; of a long path the first ones."""
    parts = name[:-2].split("/") if name.endswith("!/") else name.split("/")
    for depth in range(1, min(len(parts), MOST_DEPTH) + 1):
        outer = name if depth == len(parts) else "/".join(parts[:depth])
        if outer:
            yield outer


REFUSALS = "SELECT r.number, coalesce(n.name, ''), r.left_out, sum(r.pages), sum(r.files) FROM reasons r " \
    "LEFT JOIN faults n ON n.number = r.number GROUP BY 1, 3 ORDER BY 5 DESC, 1, 3"


# The kinds of accepted files, for people.
KINDS = {"page": "pages", "text": "texts", "blank": "blank", UNKNOWN: UNKNOWN}
# How many files of a reason are readable by which treatments.
READABLE = """SELECT p.number, coalesce(p.left_out, ''), c.treatments, count(*) FROM cures c CROSS JOIN pages p
    ON p.id = c.page AND p.terms = c.terms CROSS JOIN present f ON f.page = p.id
    WHERE c.treatments IS NOT NULL AND p.number IS NOT NULL GROUP BY 1, 2, 3 ORDER BY 4 DESC, 3"""


class ReadableFiles(NamedTuple):
    """How many files of a reason are readable by some treatments."""

    number: RefusalNumber
    left_out: Text
    treatments: Text
    files: Count


class RefusedFiles(NamedTuple):
    """How many pages and files are refused for a reason."""

    number: RefusalNumber
    fault: Text
    left_out: Text
    pages: Count
    files: Count


class ReasonRow(NamedTuple):
    """A reason of refusals: how many pages and files have it, what it means, how many files are readable by what."""

    title: str
    number: int
    pages: int
    files: int
    means: str
    readable: List[Tuple[str, int]]


class Facts(NamedTuple):
    """The head of a report."""

    run: Optional[LastRun]
    roots: Roots
    counts: List[Tuple[str, int]]
    reasons: List[ReasonRow]
    choices: Choices
    files: int
    has_words: bool = False


def load_facts(connection: sqlite3.Connection, path: str, groups: List[GroupSummary]) -> Facts:
    """What the store at the path holds."""
    it = status(connection, path)
    number = it.counts.get
    files = sum(each for name, each in it.counts.items() if name != tables.FILE_STATES[tables.GONE])
    answered = sum(number(name, 0) for name in tables.PAGE_STATES)
    spelled = of_spellings(groups)
    kinds = [(f"accepted: {name}", it.tally.kinds[kind]) for kind, name in KINDS.items() if kind in it.tally.kinds]
    counts = [("files", files), ("accepted", number("accepted", 0)), *kinds, ("refused", number("refused", 0)),
              *([("refused: captures", it.tally.captures)] if it.tally.captures else []),
              ("without an answer", number("no answer", 0)), ("not read", files - answered),
              *([(SHUT, it.tally.left[SHUT])] if SHUT in it.tally.left else []), *_lacking(connection),
              ("different pages", it.pages), ("different canonical pages", it.canonical),
              ("groups of equal pages that are spelled differently", spelled),
              ("groups of copies alone", len(groups) - spelled)]
    roots = load_roots(connection)
    return Facts(it.run, roots, counts, _reasons(connection), load_choices(connection, roots), files,
                 has_words(connection))


def _lacking(connection: sqlite3.Connection) -> List[Tuple[str, int]]:
    """What isn't known of some pages, and of how many."""
    some = {name: connection.execute(LACK.format(words)).fetchone()[0] for name, words in LACKING.values()}
    return [(f"different pages {name}", int(number)) for name, number in some.items() if number]


def _reasons(connection: sqlite3.Connection) -> List[ReasonRow]:
    connection.execute("DROP TABLE IF EXISTS temp.reasons")
    connection.execute(every_file.REASONS.format(""))
    known = refusals.load()
    readable: Dict[Tuple[int, str], List[Tuple[str, int]]] = {}
    for some in checked(connection.execute(READABLE), ReadableFiles):
        readable.setdefault((some.number, some.left_out), []).append((graded(some.treatments), some.files))
    return [ReasonRow(reason(row.number, row.fault, row.left_out), row.number, row.pages, row.files,
                      refusals.text_of(row.number, row.left_out).means if row.number in known else "",
                      readable.get((row.number, row.left_out), []))
            for row in checked(connection.execute(REFUSALS), RefusedFiles)]


def refusal_texts() -> Dict[str, Dict[str, str]]:
    """The text on refusals, by their numbers, and on the codes that are left out, by their titles."""
    return {each.title if each.code else str(each.number): {
        "means": each.means, "causes": each.causes, "do": each.do, "command": each.command}
            for each in refusals.every() if not each.case}
