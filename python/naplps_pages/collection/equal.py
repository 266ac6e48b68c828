"""The command equal: groups of pages that draw the same, treated copies among them, and of pages that look alike at
their end.

By themselves all copies stand in groups of their own. Where they are wanted among others, a copy that was treated
around its page stands beside pages that are read as they are. One that was treated within is a guess: it stands in
groups of guesses alone, of which it is told how many other files draw the same.
"""
import sqlite3
from argparse import Namespace
from itertools import chain, groupby
from operator import attrgetter
from typing import Callable, Iterable, Iterator, List, NamedTuple, Optional, Sequence, Tuple

from naplps.answers import Accepted, Answer, Refusal
from naplps.client import Client
from naplps.client import find as find_program
from naplps.limits import MOST_LISTED, Limits
from naplps.names import Members, shown
from naplps.treating.treatments import find, graded

from .. import messages
from ..console import FAILED, tell
from ..source import Page
from .file_reader import Otherwise, read
from .folders import Place
from .kept import PICTURES
from .printing import NAME, ErrorReporter, Printer, named, numbered, shown_as
from .store import StoreFailed, kept, open_to_read
from .tables import ACCEPTED, AROUND, GRADES, REFUSED, WITHIN, Count, GradeNumber, Hash, Name, Path, Text, hashed

COLUMNS = ["canonical", "spellings", "files", "entries", "spelling", "hash", *NAME]
OF_TREATED = ["treatments", "grade", "copy", "others"]
# Canonical hashes that several pages have, and those of pages that several files have.
SEVERAL = "SELECT canon FROM pages WHERE canon IS NOT NULL GROUP BY canon HAVING count(*) > 1"
COPIES = """ UNION SELECT p.canon FROM (SELECT page FROM present GROUP BY page HAVING count(*) > 1) AS m
    CROSS JOIN pages p ON p.id = m.page WHERE p.canon IS NOT NULL"""
# Groups, by hash and form, since forms mustn't be compared. (CROSS JOIN says in which order SQLite goes.)
GROUPS = """CREATE TEMP TABLE found AS SELECT s.canon AS canon, t.form AS form, count(DISTINCT p.id) AS spellings,
    count(*) AS files FROM ({}) AS s CROSS JOIN pages p ON p.canon = s.canon CROSS JOIN terms t ON t.id = p.terms
    CROSS JOIN present f ON f.page = p.id GROUP BY 1, 2 HAVING {}"""
MEMBERS = """SELECT g.canon, g.form, p.entries, p.canon_size, p.own, d.path, f.name, f.at FROM found g
    CROSS JOIN pages p ON p.canon = g.canon CROSS JOIN terms t ON t.id = p.terms AND t.form = g.form
    CROSS JOIN present f ON f.page = p.id CROSS JOIN folders d ON d.id = f.folder
    ORDER BY g.spellings DESC, g.files DESC, g.canon, g.form, p.own, d.path, f.name"""


class EqualFile(NamedTuple):
    """A file of a group: by its canonical stream and the form of that; by what it is treated, where it is the source of
    a copy in the group, and how many other files draw the same; and the hash of its picture, in groups of these."""

    canon: Hash
    form: Text
    entries: Count
    length: Count
    own: Hash
    folder: Path
    name: Name
    at: Optional[Count]
    treatments: Optional[Text] = None
    grade: Optional[GradeNumber] = None
    copy: Optional[Hash] = None
    others: Count = 0
    picture: Optional[Hash] = None

    @property
    def place(self) -> Place:
        """Where it is."""
        return Place(self.folder, self.name, self.at)

    @property
    def treated(self) -> "Optional[TreatedBy]":
        """By what it is treated, if it is."""
        if self.treatments is None or self.grade is None or self.copy is None:
            return None
        return TreatedBy(self.treatments, self.grade, self.copy)


class TreatedBy(NamedTuple):
    """By what a copy is treated, and its hash; it is the copy that draws the same, and not its source."""

    treatments: str
    grade: int
    copy: bytes


class Spelling(NamedTuple):
    """Bytes of a page, by their hash, and the files that have them; of a treated copy those of its source."""

    own: bytes
    places: List[Place]
    treated: Optional[TreatedBy] = None


class Group(NamedTuple):
    """Pages of one canonical stream, by its hash; of treated copies also how many other files draw the same."""

    canon: bytes
    form: str
    entries: int
    length: int
    spellings: List[Spelling]
    others: int = 0
    # (whether treated copies alone are in it, since they stand in groups of their own)
    is_apart: bool = False

    @property
    def is_guess(self) -> bool:
        """Whether its pages are copies that were treated within."""
        return any(each.treated and each.treated.grade == WITHIN for each in self.spellings)

    @property
    def files(self) -> int:
        """How many files it has."""
        return sum(len(each.places) for each in self.spellings)


def groups(connection: sqlite3.Connection, copies: bool) -> Iterator[Group]:
    """The groups, those of most spellings first; those of one spelling, which are copies, only where that is said."""
    connection.execute(GROUPS.format(SEVERAL + COPIES, "count(*) > 1") if copies else
                       GROUPS.format(SEVERAL, "count(DISTINCT p.id) > 1"))
    return grouped(kept(connection, MEMBERS, EqualFile))


def grouped(files: Iterable[EqualFile]) -> Iterator[Group]:
    """The groups of files, which stand in their order."""
    for (canon, form), some in groupby(files, key=attrgetter("canon", "form")):
        group: Optional[Group] = None
        for file in some:
            group = group or Group(canon, form, file.entries, file.length, [], file.others)
            if not group.spellings or group.spellings[-1].own != file.own:
                group.spellings.append(Spelling(file.own, [], file.treated))
            group.spellings[-1].places.append(file.place)
        if group:
            yield group


def show(printer: Printer, group: Group) -> None:
    """Prints a group."""
    if printer.form == "json":
        printer.object(_object(group))
        return
    if printer.form == "text":
        printer.line("%s, %s, %s%s: canonical %s" % (
            numbered(len(group.spellings), "spelling"), numbered(group.files, "file"),
            numbered(group.entries, "entry", "entries"), _guessed(group), group.canon.hex()))
    for number, spelling, place in _members(group):
        by = spelling.treated
        if printer.form == "text":
            printer.line(f"  {number}: {shown(place.path)}" + (f": treated by {graded(by.treatments)}" if by else ""))
        elif printer.form == "csv":
            row: Members = {"canonical": group.canon.hex(), "spellings": len(group.spellings), "files": group.files,
                            "entries": group.entries, "spelling": number, "hash": spelling.own.hex()}
            printer.row({**row, **shown_as(place), **_treated(by), "others": group.others or None})
        else:
            printer.name(place)
    if printer.form == "null":
        printer.end()


def _members(group: Group) -> Iterator[Tuple[int, Spelling, Place]]:
    for number, spelling in enumerate(group.spellings, 1):
        for place in spelling.places:
            yield number, spelling, place


def _guessed(group: Group) -> str:
    """What is told of a group of treated copies."""
    if not (group.is_guess or group.is_apart):
        return ""
    told = "readable copies" if group.is_apart else "by guess"
    return f", {told}" + (f", the same as {numbered(group.others, 'other file')}" if group.others else "")


def _treated(by: Optional[TreatedBy]) -> Members:
    return {"treatments": by.treatments, "grade": GRADES[by.grade], "copy": by.copy.hex()} if by else {}


def _spelling(each: Spelling) -> Members:
    members: Members = {"hash": each.own.hex()}
    return {**members, **_treated(each.treated), "files": [named(place) for place in each.places]}


def _object(group: Group) -> Members:
    spellings = [_spelling(each) for each in group.spellings]
    members: Members = {"canonical": group.canon.hex(), "canonical_bytes": group.length, "entries": group.entries}
    if group.is_guess:
        members["others"] = group.others
    return {**members, "spellings": spellings}


# Treated copies of one grade, whose canonical hashes are found at once.
TREATED = ("""CREATE TEMP TABLE {0} AS SELECT c.canon AS canon, t.form AS form, c.page AS page, c.entries AS entries,
    c.canon_size AS canon_size, c.treatments AS treatments, c.grade AS grade, c.copy AS copy FROM cures c
    CROSS JOIN pages p ON p.id = c.page AND p.terms = c.terms CROSS JOIN terms t ON t.id = c.terms
    WHERE c.canon IS NOT NULL AND c.grade = ?""", "CREATE INDEX temp.{0}_by_canon ON {0}(canon, page)")
# Canonical hashes that several pages have, of which one is treated at least; and those of sources in several files.
AMONG_THEM = "SELECT canon FROM {0} GROUP BY canon HAVING count(*) > 1"
WITH_PAGES = " UNION SELECT c.canon FROM {0} c WHERE EXISTS(SELECT 1 FROM pages p WHERE p.canon = c.canon)"
WITH_AROUND = " UNION SELECT c.canon FROM within c WHERE EXISTS(SELECT 1 FROM around o WHERE o.canon = c.canon)"
OF_COPIES = """ UNION SELECT c.canon FROM {0} c
    WHERE (SELECT count(*) FROM (SELECT 1 FROM present f WHERE f.page = c.page LIMIT 2)) > 1"""
JOINED = "CREATE TEMP TABLE joined AS SELECT c.* FROM several s CROSS JOIN {0} c ON c.canon = s.canon"
OTHERS = """INSERT INTO joined SELECT p.canon, t.form, p.id, p.entries, p.canon_size, NULL, NULL, NULL FROM several s
    CROSS JOIN pages p ON p.canon = s.canon CROSS JOIN terms t ON t.id = p.terms"""
# How many files are read as they are, and draw the same; and how many other files draw the same as guesses.
ALIKE_PAGES = """(SELECT count(*) FROM pages p CROSS JOIN terms t ON t.id = p.terms CROSS JOIN present f
    ON f.page = p.id WHERE p.canon = j.canon AND t.form = j.form)"""
ALIKE = ALIKE_PAGES + """ + (SELECT count(*) FROM around c
    CROSS JOIN present f ON f.page = c.page WHERE c.canon = j.canon AND c.form = j.form)"""
TREATED_GROUPS = """CREATE TEMP TABLE found AS SELECT j.canon AS canon, j.form AS form,
    count(DISTINCT j.page) AS spellings,
    count(*) AS files, {} AS others FROM joined j CROSS JOIN present f ON f.page = j.page
    GROUP BY 1, 2 HAVING {}"""
TREATED_MEMBERS = """SELECT g.canon, g.form, j.entries, j.canon_size, p.own, d.path, f.name, f.at,
    j.treatments, j.grade, j.copy, g.others FROM found g CROSS JOIN joined j ON j.canon = g.canon AND j.form = g.form
    CROSS JOIN pages p ON p.id = j.page CROSS JOIN present f ON f.page = p.id CROSS JOIN folders d ON d.id = f.folder
    ORDER BY g.spellings DESC, g.files DESC, g.canon, g.form, j.grade IS NOT NULL, p.own, d.path, f.name"""
TREATED_LEAST = ("count(DISTINCT j.page) > 1", "count(*) > 1")
TREATED_TABLES = ("around", "within", "readable", "several", "joined", "found", "kept")
UNTRIED = f"""SELECT (SELECT count(*) FROM pages p WHERE p.state = {REFUSED} AND NOT EXISTS(SELECT 1 FROM cures c
    WHERE c.page = p.id AND c.terms = p.terms)),
    (SELECT count(*) FROM cures WHERE treatments IS NOT NULL AND grade IS NULL)"""


def treated_groups(connection: sqlite3.Connection, copies: bool) -> Iterator[Group]:
    """The groups in which copies that were treated around their pages stand beside others, those of most first."""
    _begin(connection)
    several = SEVERAL + " UNION " + AMONG_THEM + WITH_PAGES + (COPIES + OF_COPIES if copies else "")
    _join(connection, "around", several)
    connection.execute(OTHERS)
    return _grouped(connection, "0", TREATED_LEAST[copies])


def guesses(connection: sqlite3.Connection, copies: bool) -> Iterator[Group]:
    """The groups of copies that were treated within their pages, and of such a copy with which others draw the same."""
    _begin(connection)
    _join(connection, "within", AMONG_THEM + WITH_PAGES + WITH_AROUND + (OF_COPIES if copies else ""))
    return _grouped(connection, ALIKE, f"{TREATED_LEAST[copies]} OR others > 0")


def apart(connection: sqlite3.Connection, copies: bool) -> Iterator[Group]:
    """The groups of treated copies alone, and of such a copy with which untreated pages draw the same."""
    _begin(connection)
    connection.execute("CREATE TEMP TABLE readable AS SELECT * FROM around UNION ALL SELECT * FROM within")
    connection.execute("CREATE INDEX temp.readable_by_canon ON readable(canon, page)")
    _join(connection, "readable", AMONG_THEM + WITH_PAGES + (OF_COPIES if copies else ""))
    for group in _grouped(connection, ALIKE_PAGES, f"{TREATED_LEAST[copies]} OR others > 0"):
        yield group._replace(is_apart=True)


def untried(connection: sqlite3.Connection) -> Tuple[int, int]:
    """How many refused pages had no treatments tried; and how many treated copies have an unknown canonical hash."""
    pages, unknown = connection.execute(UNTRIED).fetchone()
    return int(pages), int(unknown)


def _begin(connection: sqlite3.Connection) -> None:
    """Finds the treated copies."""
    for name in TREATED_TABLES:
        connection.execute(f"DROP TABLE IF EXISTS temp.{name}")
    for grade, name in ((AROUND, "around"), (WITHIN, "within")):
        connection.execute(TREATED[0].format(name), (grade,))
        connection.execute(TREATED[1].format(name))


def _join(connection: sqlite3.Connection, name: str, several: str) -> None:
    """Takes the treated copies of a grade that have one of these canonical hashes."""
    connection.execute("CREATE TEMP TABLE several AS " + several.format(name))
    connection.execute(JOINED.format(name))


def _grouped(connection: sqlite3.Connection, others: str, least: str) -> Iterator[Group]:
    connection.execute("CREATE INDEX temp.joined_by_canon ON joined(canon, form, page)")
    connection.execute(TREATED_GROUPS.format(others, least))
    return grouped(kept(connection, TREATED_MEMBERS, EqualFile))


PICTURE_COLUMNS = ["picture", "lists", "files", "list", "canonical", "entries", "hash", *NAME]
# Pictures that pages have whose lists differ, by hash and form of these. (CROSS JOIN says in which order SQLite goes.)
PICTURE_GROUPS = f"""CREATE TEMP TABLE found AS SELECT k.picture AS picture, t.form AS form,
    count(DISTINCT k.canon) AS lists, count(*) AS files FROM pictures k
    CROSS JOIN pages p ON p.canon = k.canon AND p.state = {ACCEPTED}
    CROSS JOIN terms t ON t.id = p.terms CROSS JOIN present f ON f.page = p.id
    WHERE k.form = {PICTURES.form} AND k.picture IN (SELECT picture FROM pictures WHERE form = {PICTURES.form}
    GROUP BY picture HAVING count(*) > 1) GROUP BY 1, 2 HAVING lists > 1"""
PICTURE_INDEX = "CREATE INDEX temp.found_by_picture ON found(picture, form)"
PICTURE_MEMBERS = f"""SELECT k.canon, g.form, p.entries, p.canon_size, p.own, d.path, f.name, f.at, NULL, NULL, NULL, 0,
    g.picture FROM pictures k
    CROSS JOIN found g ON g.picture = k.picture CROSS JOIN pages p ON p.canon = k.canon AND p.state = {ACCEPTED}
    CROSS JOIN terms t ON t.id = p.terms AND t.form = g.form CROSS JOIN present f ON f.page = p.id
    CROSS JOIN folders d ON d.id = f.folder WHERE k.form = {PICTURES.form}
    ORDER BY g.lists DESC, g.files DESC, g.picture, g.form, k.canon, p.own, d.path, f.name"""
# Pages without a picture: they have too many entries, or paint too much.
WITHOUT_PICTURE = f"""SELECT d.path, f.name, f.at, p.entries FROM pages p CROSS JOIN present f ON f.page = p.id
    CROSS JOIN folders d ON d.id = f.folder WHERE p.state = {ACCEPTED} AND (p.entries > {MOST_LISTED} OR EXISTS(
    SELECT 1 FROM pictures k WHERE k.canon = p.canon AND k.form = {PICTURES.form} AND k.picture IS NULL))
    ORDER BY d.path, f.name"""


class UnpaintedFile(NamedTuple):
    """A file whose page has no picture, and how many entries that has."""

    folder: Path
    name: Name
    at: Optional[Count]
    entries: Count


class PictureGroup(NamedTuple):
    """A picture by its hash, and its pages by their lists, of each of which the spellings draw the same."""

    picture: bytes
    lists: Sequence[Group]

    @property
    def files(self) -> int:
        """How many files it has."""
        return sum(each.files for each in self.lists)


def picture_groups(connection: sqlite3.Connection) -> Iterator[PictureGroup]:
    """The groups of a store whose pictures are known, those of most lists first."""
    connection.execute(PICTURE_GROUPS)
    connection.execute(PICTURE_INDEX)
    for (picture, _), files in groupby(kept(connection, PICTURE_MEMBERS, EqualFile), attrgetter("picture", "form")):
        yield PictureGroup(picture, list(grouped(files)))


def without_picture(connection: sqlite3.Connection) -> Iterator[Tuple[str, str]]:
    """The files whose pages have no picture, and why."""
    connection.execute("DROP TABLE IF EXISTS temp.kept")
    for file in kept(connection, WITHOUT_PICTURE, UnpaintedFile):
        yield Place(file.folder, file.name, file.at).path, (
            messages.LONG_TO_PAINT.format(most=MOST_LISTED) if file.entries > MOST_LISTED else messages.PAINTS_TOO_MUCH)
    connection.execute("DROP TABLE temp.kept")


def show_pictures(printer: Printer, group: PictureGroup) -> None:
    """Prints a group."""
    if printer.form == "json":
        printer.object({"picture": group.picture.hex(), "form": PICTURES.form, "lists": list(map(_list, group.lists))})
        return
    if printer.form == "text":
        printer.line("%s, %s: picture %s" % (
            numbered(len(group.lists), "list"), numbered(group.files, "file"), group.picture.hex()))
    for number, some in enumerate(group.lists, 1):
        for own, place in _files(some):
            if printer.form == "text":
                printer.line(f"  {number}: {shown(place.path)}")
            elif printer.form == "csv":
                printer.row({"picture": group.picture.hex(), "lists": len(group.lists), "files": group.files,
                             "list": number, "canonical": some.canon.hex(), "entries": some.entries, "hash": own.hex(),
                             **shown_as(place)})
            else:
                printer.name(place)
    if printer.form == "null":
        printer.end()


def _files(some: Group) -> List[Tuple[bytes, Place]]:
    return [(spelling.own, place) for spelling in some.spellings for place in spelling.places]


def _list(some: Group) -> Members:
    return {"canonical": some.canon.hex(), "canonical_bytes": some.length, "entries": some.entries, "spellings": [
        {"hash": each.own.hex(), "files": [named(place) for place in each.places]} for each in some.spellings]}


# Given the path of a file and what is wrong with it.
Tell = Callable[[str, str], None]


def verified(program: Client, group: Group, tell: Tell) -> Group:
    """The group as it is now: each file is read again, and the canonical bytes of each spelling are compared."""
    spellings: List[Spelling] = []
    first: Optional[bytes] = None
    for spelling in group.spellings:
        found = _verified_spelling(program, group, spelling, tell)
        if found is None:
            continue
        canon, there = found
        if first is not None and canon != first:
            for place in there.places:
                tell(place.path, messages.SAME_HASH.format(other=shown(spellings[0].places[0].path)))
            continue
        first = canon
        spellings.append(there)
    return group._replace(spellings=spellings)


def _verified_spelling(program: Client, group: Group, spelling: Spelling,
              tell: Tell) -> Optional[Tuple[bytes, Spelling]]:
    """The canonical bytes of a spelling, and its files that have it still."""
    canon: Optional[bytes] = None
    places: List[Place] = []
    for place in spelling.places:
        try:
            page = read(place, spelling.own)
        except Otherwise as otherwise:
            tell(place.path, str(otherwise))
            continue
        try:
            if canon is None:
                answer = _canon(program, page, spelling)
                if answer is None:
                    tell(place.path, messages.OTHER_COPY_OF_IT)
                    return None
                if not isinstance(answer, Accepted):
                    tell(place.path, answer.line)
                    return None
                canon = answer.body
        finally:
            page.close()
        places.append(place)
    if canon is None:
        return None
    if hashed(canon) != group.canon:
        tell(places[0].path, messages.OTHER_HASH)
        return None
    return canon, spelling._replace(places=places)


def _canon(program: Client, page: Page, spelling: Spelling) -> Optional[Answer]:
    """The answer to `canon` on a page, or on its treated copy; None where that, or its grade, is another now."""
    if spelling.treated is None:
        return program.ask("canon", page)
    answer = program.ask("check", page)
    if not isinstance(answer, Refusal) or page.data is None:
        return None
    cure = find(program.ask, page.data, answer.place)
    if cure is None or hashed(cure.data) != spelling.treated.copy or cure.treated.is_guess != (
            spelling.treated.grade == WITHIN):
        return None
    return program.ask("canon", cure.data)




def _program(given: Namespace, tool: str, stores: List[str]) -> Client:
    """The program, under the largest budget of the stores: a budget only refuses."""
    from .sources import most_budget
    return Client(find_program(tool), most_budget(stores), Limits(seconds=given.timeout))


def equal_by_picture(given: Namespace, tool: str) -> int:
    """The groups of pages that look alike. What isn't known of pictures is found out first."""
    from .canon_filling import filling
    it = filling(PICTURES, given, tool).filled()
    if it is None:
        return FAILED
    printer = Printer(given.form, PICTURE_COLUMNS)
    telling = ErrorReporter(printer)
    for group in picture_groups(it.connection):
        show_pictures(printer, group)
    printer.flush()
    for name, why in without_picture(it.connection):
        telling(name, why)
    return max(it.status, telling.status)


def equal(given: Namespace, tool: str) -> int:
    """The groups of pages with one list, in one store or over several; the status."""
    with_treated = given.treated or given.guesses
    connection = open_to_read(given.stores[0]) if len(given.stores) == 1 else None
    printer = Printer(given.form, COLUMNS + (OF_TREATED if with_treated else []))
    telling = ErrorReporter(printer)
    some = _groups(given, connection, telling, with_treated)
    if not given.verify:
        for group in some:
            show(printer, group)
    else:
        program = _program(given, tool, given.stores)
        try:
            for group in _verified(program, some, given.copies, telling):
                show(printer, group)
        finally:
            program.close()
    printer.flush()
    return telling.status


def _groups(given: Namespace, connection: Optional[sqlite3.Connection], telling: ErrorReporter,
            with_treated: bool) -> Iterator[Group]:
    """The groups that are asked for. What isn't known of treated copies is told."""
    if connection is None:
        if with_treated:
            raise StoreFailed(given.stores[1], messages.COPIES_OF_ONE_STORE)
        from .sources import groups_over
        return groups_over(given.stores, given.copies, telling)
    if not with_treated:
        some = groups(connection, given.copies)
        # (a script that takes one page of each group mustn't take a copy for one)
        return chain(some, _apart(connection, given.copies)) if given.form == "text" else some
    without, unknown = untried(connection)
    store = shown(given.stores[0])
    if without:
        tell(messages.UNTRIED.format(path=store, pages=_refused(without)))
    if unknown:
        tell(messages.UNKNOWN_COPIES.format(path=store, pages=_refused(unknown)))
    return chain(treated_groups(connection, given.copies), (
        group for _ in range(given.guesses) for group in guesses(connection, given.copies)))


def _refused(number: int) -> str:
    return numbered(number, "refused page")


def _apart(connection: sqlite3.Connection, copies: bool) -> Iterator[Group]:
    """The groups of treated copies, which are looked for once all others are printed."""
    yield from apart(connection, copies)


def _verified(program: Client, some: Iterator[Group], copies: bool, telling: ErrorReporter) -> Iterator[Group]:
    for group in some:
        left = verified(program, group, telling)
        if len(left.spellings) > 1 or copies and left.files > 1 or left.spellings and left.others:
            yield left
