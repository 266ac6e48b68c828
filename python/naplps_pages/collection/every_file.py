"""The commands files and refused: each file of a store, with all that is known of it; refused pages by the reason."""
import sqlite3
from itertools import groupby
from typing import Iterator, NamedTuple, Optional

from naplps.answers import Accepted, Answer, Refusal, Unanswered
from naplps.names import Members, printable, shown
from naplps.treating.treatments import graded

from ..console import Output
from ..refusals import Reason as Wanted
from ..refusals import Reason
from . import tables
from .folders import Place
from .printing import NAME, Printer, named, numbered, shown_as
from .store import kept
from .tables import (
    Count, FileState, Flag, GradeNumber, Hash, Name, Number, PageKind, PageState, Path, RefusalNumber, Text,
    TextSource,
)

REASONS = """CREATE TEMP TABLE reasons AS SELECT p.number AS number, coalesce(p.left_out, '') AS left_out,
    coalesce(p.stop, '') AS stop, count(DISTINCT p.id) AS pages, count(*) AS files FROM pages p
    JOIN present f ON f.page = p.id WHERE p.number IS NOT NULL {} GROUP BY 1, 2, 3"""
# (There may be as many reasons as pages, since anybody may have made a store.)
BY_REASON = "CREATE INDEX temp.reasons_by_number ON reasons(number, left_out, stop)"
MEMBERS = """SELECT r.number, n.name, r.left_out, r.stop, r.pages, r.files, p.place, p.own, c.page IS NOT NULL,
    c.treatments, p.looks_like, p.holds, d.path, f.name FROM pages p CROSS JOIN reasons r ON r.number = p.number
    AND r.left_out = coalesce(p.left_out, '') AND r.stop = coalesce(p.stop, '')
    CROSS JOIN present f ON f.page = p.id CROSS JOIN folders d ON d.id = f.folder
    LEFT JOIN faults n ON n.number = r.number LEFT JOIN cures c ON c.page = p.id AND c.terms = p.terms
    WHERE p.number IS NOT NULL
    ORDER BY r.files DESC, r.number, r.left_out, r.stop, d.path, f.name"""


class ReasonCount(NamedTuple):
    """A reason, and how many pages and files have it."""

    number: int
    fault: str
    left_out: str
    stop: str
    pages: int
    files: int


class RefusedFile(NamedTuple):
    """A file that is refused, after its reason; whether treatments were tried, and which make it readable."""

    number: RefusalNumber
    fault: Text
    left_out: Text
    stop: Text
    pages: Count
    files: Count
    at: Count
    own: Hash
    tried: Flag
    treatments: Optional[Text]
    looks_like: Optional[Text]
    holds: Optional[Count]
    folder: Path
    name: Name

    @property
    def reason(self) -> ReasonCount:
        """Its reason."""
        return ReasonCount(self.number, self.fault, self.left_out, self.stop, self.pages, self.files)

    @property
    def place(self) -> Place:
        """Where it is."""
        return Place(self.folder, self.name)


def refused_files(connection: sqlite3.Connection, wanted: Optional[Wanted]) -> Iterator[RefusedFile]:
    """The refused files, by the reason, the most frequent first; those of one reason only where it is given."""
    connection.execute(REASONS.format(only(wanted)), {"code": wanted.code if wanted else ""})
    connection.execute(BY_REASON)
    return kept(connection, MEMBERS, RefusedFile)


def only(wanted: Optional[Wanted]) -> str:
    """What restricts the pages, `p`, to those of a reason; its code is the parameter `:code`."""
    if wanted is None:
        return ""
    code = " AND :code IN (p.left_out, substr(p.stop, 1, length(:code)))" if wanted.code else ""
    return f"AND p.number = {wanted.number}{code}"


def show_refused(output: Output, some: Iterator[RefusedFile]) -> None:
    """Prints refused files, by the reason."""
    for reason, each in groupby(some, key=lambda member: member.reason):
        name = " ".join(part for part in (reason.fault, reason.left_out or reason.stop) if part)
        output.line(printable(
            f"{reason.number} {name}: {numbered(reason.pages, 'page')}, {numbered(reason.files, 'file')}"))
        for member in each:
            output.line(printable(f"  {shown(member.place.path)} at {member.at}{_cure(member)}"))


def _cure(member: RefusedFile) -> str:
    if member.treatments:
        return f": readable by {graded(member.treatments)}"
    if member.looks_like:
        return f": looks like {member.looks_like}"
    if member.holds:
        return f": capture of {numbered(member.holds, 'page')}"
    return ": no repair makes it readable" if member.tried else ""


FACTS = ("status", "number", "fault", "code", "place", "entries", "reason", "size", "mtime_ns", "hash", "canonical",
         "canonical_size", "form", "budget", "kind", "looks_like", "perhaps_several", "stops", "tried", "treatments",
         "grade", "treated_entries", "treated_hash", "treated_canonical", "treated_canonical_size", "first_words",
         "text_source", "pages")
COLUMNS = [*NAME, *FACTS]
FILES = f"""SELECT d.path, f.name, f.inode, f.state, coalesce(f.why, p.why), f.size, f.mtime_ns, p.state, p.number,
    n.name, p.left_out, p.place, p.entries, p.own, p.canon, p.canon_size, t.form, t.budget, p.kind,
    nullif(p.looks_like, ''), p.several, nullif(p.stop, ''), c.page IS NOT NULL, c.treatments, c.grade, c.entries,
    c.copy, c.canon, c.canon_size, x.first, x.source, p.holds
    FROM files f CROSS JOIN folders d ON d.id = f.folder LEFT JOIN pages p ON p.id = f.page AND f.state = {tables.READ}
    LEFT JOIN terms t ON t.id = p.terms LEFT JOIN faults n ON n.number = p.number
    LEFT JOIN cures c ON c.page = p.id AND c.terms = p.terms LEFT JOIN texts x ON x.page = p.id AND x.terms = p.terms
    WHERE {tables.IS_FILE} {{}} ORDER BY d.path, f.name"""
ANY = Reason(0)


class FileFacts(NamedTuple):
    """All that a store knows of a file."""

    folder: Path
    name: Name
    at: Optional[Count]
    state: FileState
    why: Optional[Text]
    size: Optional[Count]
    mtime_ns: Optional[Number]
    answer: Optional[PageState]
    number: Optional[RefusalNumber]
    fault: Optional[Text]
    left_out: Optional[Text]
    place: Optional[Count]
    entries: Optional[Count]
    own: Optional[Hash]
    canon: Optional[Hash]
    canon_size: Optional[Count]
    form: Optional[Text]
    budget: Optional[Count]
    kind: Optional[PageKind]
    looks_like: Optional[Text]
    several: Optional[Flag]
    stop: Optional[Text]
    tried: Flag
    treatments: Optional[Text]
    grade: Optional[GradeNumber]
    treated_entries: Optional[Count]
    treated: Optional[Hash]
    treated_canon: Optional[Hash]
    treated_canon_size: Optional[Count]
    first: Optional[Text]
    source: Optional[TextSource]
    holds: Optional[Count]

    @property
    def at_path(self) -> Place:
        """Where it is."""
        return Place(self.folder, self.name, self.at)

    @property
    def status(self) -> str:
        """Its status, as `listing` has it."""
        return tables.FILE_STATES[self.state] if self.answer is None else tables.PAGE_STATES[self.answer]

    @property
    def answered(self) -> Answer:
        """The answer to its page."""
        if self.answer == tables.ACCEPTED and self.entries is not None:
            return Accepted(self.entries)
        if self.answer == tables.REFUSED and self.number is not None and self.place is not None:
            return Refusal(self.number, self.fault or "", self.left_out, self.place)
        return Unanswered(self.why or "")


def load(connection: sqlite3.Connection, kind: Optional[str], refused: Optional[Reason]) -> Iterator[FileFacts]:
    """The files in the order of their names; those of one kind alone, or of one reason, where that is given."""
    some = "AND p.number IS NOT NULL" if refused == ANY else only(refused)
    for file in kept(connection, FILES.format(some), FileFacts, code=refused.code if refused else ""):
        if kind is None or kind == kind_of(file):
            yield file


def kind_of(file: FileFacts) -> Optional[str]:
    """The kind of an accepted page or of a capture, or what another refused file looks like."""
    return file.looks_like if file.kind is None else tables.KINDS[file.kind]


def members(file: FileFacts) -> Members:
    """All facts by their names; null where there is nothing to say."""
    return {"status": file.status, "number": file.number, "fault": file.fault, "code": file.left_out,
            "place": file.place, "entries": file.entries, "reason": file.why, "size": file.size,
            "mtime_ns": file.mtime_ns, "hash": _hex(file.own), "canonical": _hex(file.canon),
            "canonical_size": file.canon_size, "form": file.form, "budget": file.budget,
            "kind": None if file.kind is None else tables.KINDS[file.kind], "looks_like": file.looks_like,
            "perhaps_several": None if file.several is None else bool(file.several),
            "stops": file.stop, "tried": bool(file.tried) if file.answer == tables.REFUSED else None,
            "treatments": file.treatments,
            "grade": None if file.grade is None else tables.GRADES[file.grade],
            "treated_entries": file.treated_entries, "treated_hash": _hex(file.treated),
            "treated_canonical": _hex(file.treated_canon), "treated_canonical_size": file.treated_canon_size,
            "first_words": file.first, "text_source": None if file.source is None else tables.SOURCES[file.source],
            "pages": file.holds or None}


def _hex(value: Optional[bytes]) -> Optional[str]:
    return None if value is None else value.hex()


def show(printer: Printer, file: FileFacts) -> None:
    """Prints a file."""
    if printer.form == "null":
        printer.name(file.at_path)
    elif printer.form == "json":
        printer.object({**named(file.at_path), **members(file)})
    elif printer.form == "csv":
        printer.row({**shown_as(file.at_path), **members(file)})
    else:
        printer.line(f"{shown(file.at_path.path)}: {_line(file)}")


def _line(file: FileFacts) -> str:
    """What is known of a file, for people."""
    answer = file.answered
    if isinstance(answer, Unanswered):
        return f"{file.status}: {file.why}" if file.why else file.status
    more = [answer.line]
    if kind_of(file):
        more.append(f"looks like {file.looks_like}" if file.kind is None else
                    f"capture of {file.holds} pages" if file.holds else tables.KINDS[file.kind])
    if file.treatments:
        more.append(f"readable by {graded(file.treatments)}")
    return ", ".join(more)
