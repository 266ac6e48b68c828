"""What a served report asks of the store: files, groups, the details of a file and its drawing."""
import re
from typing import Dict, List, NamedTuple, Optional, Set, Tuple

from naplps.treating.treatments import graded

from .. import messages
from ..collection import tables, texts
from ..collection.tables import Count, Name, Path, checked, one
from ..collection.store import open_to_read
from ..packs import MOST_NAME
from . import HASH_DIGITS
from . import files as of_files
from .document import Document
from .drawing import DrawingTask, drawing_task
from .facts import (
    IS_SHOWN, Facts, GroupSummary, cure, is_inside, kind, load_facts, load_groups, of_spellings, refusal_texts,
)
from .files import ReportFile, files_of, first_words_of, joined, word_condition
from .near_files import NearFiles

Answer = Dict[str, object]
Words = Dict[str, str]
GROUP = re.compile(r"group ([0-9]{1,9})", re.IGNORECASE)
KEY = re.compile(r"([0-9]{1,18})-((?:[0-9a-f]{2}){0,%d})" % MOST_NAME)
NAMES = 12
# (`rank` is the number of its group where that is asked for, and `nth` which of the files it is that draw the same)
HITS = """CREATE TEMP TABLE hits AS SELECT folder, name FROM (SELECT f.folder AS folder, f.name AS name,
    d.path AS path, p.own AS own, p.canon IS NULL AS is_copy, {blank} AS is_blank, {rank} AS rank, {nth} AS nth
    {files} WHERE {conditions}) WHERE nth = 1 ORDER BY is_blank, {order}path, name"""
BLANK_LAST, RANK, BY_GROUP = f"p.kind IS {tables.BLANK}", "group_rank(coalesce(p.canon, c.canon), t.form)", \
    "rank, CASE rank WHEN {last} THEN 0 ELSE is_copy END, CASE rank WHEN {last} THEN x'' ELSE own END, "
NTH = "row_number() OVER (PARTITION BY coalesce(p.canon, c.canon, p.own), t.form " \
    "ORDER BY p.canon IS NULL, d.path, f.name)"
POSITION = "SELECT rowid FROM hits WHERE folder = ? AND name = ?"
HASH = re.compile(r"[0-9a-f]{%d,64}" % HASH_DIGITS)
OF_HASH = "SELECT f.folder, f.name FROM pages p CROSS JOIN files f ON f.page = p.id AND " \
    f"f.state = {tables.READ} " \
    "CROSS JOIN folders d ON d.id = f.folder WHERE p.own >= ? AND p.own <= ? ORDER BY d.path, f.name LIMIT 1"
PART = f"SELECT {of_files.COLUMNS} FROM hits h CROSS JOIN files f ON f.folder = h.folder AND f.name = h.name " \
    f"{of_files.JOINS} WHERE h.rowid > ? AND h.rowid <= ? ORDER BY h.rowid"
ONE = f"SELECT {of_files.COLUMNS} {of_files.FROM} WHERE f.folder = ? AND f.name = ? AND {of_files.THERE}"
# (`named` is a table that NearGroups makes)
OF_CANON = "SELECT n.folder, n.name FROM named n CROSS JOIN folders d ON d.id = n.folder WHERE n.canon = ? " \
    "ORDER BY d.path, n.name LIMIT 1"
MEMBERS = f"SELECT {of_files.COLUMNS} FROM pages p CROSS JOIN terms t ON t.id = p.terms CROSS JOIN files f ON " \
    f"f.page = p.id AND f.state = {tables.READ} CROSS JOIN folders d ON d.id = f.folder LEFT JOIN faults n ON " \
    "n.number = p.number LEFT JOIN cures c " \
    "ON c.page = p.id AND c.terms = p.terms WHERE p.canon = ? AND t.form = ? ORDER BY p.own, d.path, f.name LIMIT ?"
COPIES = f"SELECT {of_files.COLUMNS} FROM cures c CROSS JOIN pages p ON p.id = c.page AND p.terms = c.terms " \
    "CROSS JOIN terms t ON " \
    f"t.id = p.terms CROSS JOIN files f ON f.page = p.id AND f.state = {tables.READ} CROSS JOIN folders d ON " \
    "d.id = f.folder LEFT JOIN faults n ON n.number = p.number WHERE c.canon = ? AND t.form = ? " \
    "ORDER BY p.own, d.path, f.name LIMIT ?"


# The words by which files are found, and those of them that a value has to be equal to.
FIELDS = ("text", "folder", "kind", "answer", "cure", "order", "pages", "once", "others")
EQUALS = {"kind": "kind_of(p.kind, p.looks_like) = ?", "answer": f"summary({of_files.REASONS}) = ?",
          "cure": "c.page IS NOT NULL AND cure_of(c.treatments) = ?"}


class FolderPath(NamedTuple):
    """A folder by its number, and its path."""

    id: Count
    path: Path


class FileNumber(NamedTuple):
    """A file, by the number of its folder and its name."""

    folder: Count
    name: Name


class Unasked(Exception):
    """What is asked for isn't there, or the words are wrong."""


class StoreFacts(NamedTuple):
    """What is known of the store as it is now."""

    version: int
    facts: Facts
    groups: List[GroupSummary]
    numbers: Dict[Tuple[bytes, str], int]
    document: Document


class Questions:
    """Answers questions on a store, one after another, all in the thread that made it."""

    def __init__(self, store: str) -> None:
        self.store = store
        self.connection = open_to_read(store)
        self.connection.create_function("summary", 7, of_files.summary)
        self.connection.create_function("has", 2, self._has)
        self.connection.create_function("kind_of", 2, kind)
        self.connection.create_function("cure_of", 1, cure)
        self.connection.create_function("group_rank", 2, self._rank)
        self.connection.create_function("is_inside", 1, lambda folder: folder in self.inside)
        self.known: Optional[StoreFacts] = None
        self.near: Optional[NearFiles] = None
        self.folders: Dict[int, str] = {}
        self.part = ""
        self.inside: Set[int] = set()
        self.found: Tuple[object, ...] = ()
        self.refusals = refusal_texts()
        self.ways = {"files": self._files, "find": self._place, "groups": self._groups, "details": self._details}

    def close(self) -> None:
        """Ends the connection."""
        self.connection.close()

    def page(self) -> Tuple[str, str]:
        """The HTML, and its policy."""
        document = self._now().document
        return document.html("Sketches are drawn as they are looked at.", ""), document.policy

    def ask(self, what: str, words: Words) -> Answer:
        """The answer to a question of this name. Raises Unasked."""
        self._now()
        return self.ways[what](words)

    def _now(self) -> StoreFacts:
        """What is known, once more where the store has changed."""
        version = int(self.connection.execute("PRAGMA data_version").fetchone()[0])
        if self.known is None or self.known.version != version:
            some = load_groups(self.connection)
            facts = load_facts(self.connection, self.store, some)
            numbers = {group.key: number for number, group in enumerate(some, 1)}
            self.near = None
            self.known = StoreFacts(version, facts, some, numbers, Document(facts, some, "asked.js"))
            self.folders = {folder.id: facts.roots.relative(folder.path) for folder in checked(self.connection.execute(
                "SELECT id, path FROM folders"), FolderPath)}
        return self.known

    def _has(self, folder: int, name: bytes) -> bool:
        return self.part in joined(self.folders.get(folder, ""), name).lower()

    def _rank(self, canon: Optional[bytes], form: Optional[str]) -> int:
        """The number of a page's group, and a larger one where it has none."""
        known = self._now()
        return known.numbers.get((canon, form), len(known.groups) + 1) if canon and form else len(known.groups) + 1

    def _files(self, words: Words) -> Answer:
        first, count = _number(words, "from"), _number(words, "count", 1000)
        self._find(words)
        total = self.connection.execute("SELECT coalesce(max(rowid), 0) FROM hits").fetchone()[0]
        some = list(files_of(self.connection.execute(PART, (first, first + count))))
        says = first_words_of(self.connection, [file.page for file in some])
        return {"total": total, "files": [self._row(file, says) for file in some]}

    def _place(self, words: Words) -> Answer:
        """The first file with a page of a hash, and its position among the files that are found."""
        hash_asked = words.get("hash", "").lower()
        if not HASH.fullmatch(hash_asked):
            raise Unasked(messages.SHORT_HASH.format(digits=HASH_DIGITS))
        ends = [bytes.fromhex((hash_asked + digit * 64)[:64]) for digit in "0f"]
        found = one(self.connection.execute(OF_HASH, ends).fetchone(), FileNumber)
        if found is None:
            raise Unasked(messages.NO_PAGE_OF_HASH)
        self._find(words)
        position = self.connection.execute(POSITION, found).fetchone()
        return {"key": f"{found[0]}-{found[1].hex()}", "position": position[0] - 1 if position else -1}

    def _find(self, words: Words) -> None:
        """Puts the files that these words leave into the table `hits`, if they aren't there."""
        known = self._now()
        named = tuple(words.get(name, "") for name in FIELDS) + (known.version,)
        if self.found == named:
            return
        conditions, values = self._conditions(words)
        self.found = ()
        self.connection.execute("DROP TABLE IF EXISTS temp.hits")
        with texts.used():
            self.connection.execute(self._hits(words, " AND ".join(conditions)), values)
        self.found = named

    def _hits(self, words: Words, conditions: str) -> str:
        """What makes the table `hits`: on the wall, which has pages alone, those that draw nothing stand last."""
        is_wall, by_group = words.get("pages") == "1", words.get("order") == "group"
        last = len(self._now().groups) + 1
        return HITS.format(
            files=of_files.FROM, conditions=conditions, blank=BLANK_LAST if is_wall else "0",
            rank=RANK if by_group else "0", order=BY_GROUP.format(last=last) if by_group else "",
            nth=NTH if is_wall and words.get("once") == "1" else "1")

    def _conditions(self, words: Words) -> Tuple[List[str], List[object]]:
        """What files must fulfil, and the values of that."""
        conditions: List[str] = [of_files.THERE]
        values: List[object] = []
        text, folder = words.get("text", ""), words.get("folder", "")
        group = GROUP.fullmatch(text)
        if group:
            conditions.append("coalesce(p.canon, c.canon) = ? AND t.form = ?")
            values += self._key(int(group[1]))
        elif text:
            self.part = text.lower()
            has_words, more = word_condition(text) if self._now().facts.has_words else ("0", [])
            conditions.append(f"(has(f.folder, f.name) OR {has_words})")
            values += more
        if folder:
            self.inside = {number for number, name in self.folders.items() if is_inside(name, folder)}
            conditions.append("is_inside(f.folder)")
        for name, condition in EQUALS.items():
            if words.get(name):
                conditions.append(condition)
                values.append(words[name])
        if words.get("pages") == "1":
            conditions.append("p.id IS NOT NULL")
            if words.get("others") != "1" and not words.get("kind"):
                conditions.append(IS_SHOWN)
        return conditions, values

    def _key(self, number: int) -> Tuple[bytes, str]:
        """What the pages of a group are equal by."""
        groups = self._now().groups
        return groups[number - 1].key if 0 < number <= len(groups) else (b"", "")

    def _groups(self, words: Words) -> Answer:
        first, count, names = _number(words, "from"), _number(words, "count", 100), _number(words, "names", 100)
        some = self._now().groups
        total = len(some) if words.get("copies") == "1" else of_spellings(some)
        return {"total": total, "groups": [self._group(number, names)
                                           for number in range(first + 1, min(first + count, total) + 1)]}

    def _group(self, number: int, names: int) -> Answer:
        group = self._now().groups[number - 1]
        some = list(files_of(self.connection.execute(MEMBERS, (*group.key, max(names, 1)))))
        if group.copies and len(some) < max(names, 1):
            some += files_of(self.connection.execute(COPIES, (*group.key, max(names, 1) - len(some))))
        members: List[Answer] = []
        last: Optional[bytes] = None
        for file in some[:names]:
            if not members or file.own != last:
                members.append({"spelling": len(members), "size": file.size, "files": [],
                                "treated": "" if file.canon else graded(file.treatments or "")})
                last = file.own
            named = members[-1]["files"]
            assert isinstance(named, list)
            named.append({"key": key_of(file), "name": self._name(file)})
        return {"number": number, "canonical": group.canon.hex(), "spellings": group.spellings, "files": group.files,
                "copies": group.copies, "entries": group.entries, "length": group.length,
                "key": key_of(some[0]) if some else "", "members": members}

    def _name(self, file: ReportFile) -> str:
        return joined(self.folders.get(file.folder, ""), file.name)

    def _row(self, file: ReportFile, says: Dict[int, str]) -> Answer:
        return {"key": key_of(file), "name": self._name(file), "size": file.size, "answer": file.summary,
                "hash": file.own.hex() if file.own else "", "says": says.get(file.page or 0, ""),
                "kind": kind(file.kind, file.looks_like),
                "treated": graded(file.treatments) if file.treatments else "",
                "entries": file.at if file.entries is None else file.entries,
                "group": self._now().numbers.get(file.drawn_key, 0) if file.drawn_key else 0}

    def _details(self, words: Words) -> Answer:
        file = self._file(words)
        row = self._row(file, first_words_of(self.connection, [file.page]))
        group = row["group"]
        assert isinstance(group, int)
        return {**row, "refusal": self.refusals.get(file.summary) or self.refusals.get(str(file.number or 0)),
                "cure": (graded(file.treatments) if file.treatments else "") if file.tried else None,
                "equal": self._group(group, NAMES) if group else None, "near": self._near(file)}

    def _near(self, file: ReportFile) -> List[Answer]:
        """The files that are almost equal to one. They are looked for once they are asked for."""
        if self.near is None:
            self.near = NearFiles(self.connection)
        found: List[Answer] = []
        for each in self.near.of(file):
            place = one(self.connection.execute(OF_CANON, (each.canon,)).fetchone(), FileNumber)
            rows = self.connection.execute(ONE, place).fetchall() if place else []
            found += [{"key": key_of(other), "name": self._name(other), "told": each.text} for other in files_of(rows)]
        return found

    def drawing_task(self, words: Words) -> Optional[DrawingTask]:
        """The page that is to be drawn; None where it has no answer to draw. Raises Unasked."""
        self._now()
        return drawing_task(self._file(words))

    def _file(self, words: Words) -> ReportFile:
        found = KEY.fullmatch(words.get("key", ""))
        rows = self.connection.execute(ONE, (int(found[1]), bytes.fromhex(found[2]))).fetchall() if found else []
        if not rows:
            raise Unasked(messages.NO_SUCH_FILE)
        return next(files_of(rows))


def key_of(file: ReportFile) -> str:
    """What a file is asked for by."""
    return f"{file.folder}-{file.name.hex()}"


def _number(words: Words, name: str, most: int = 1 << 40) -> int:
    text = words.get(name, "")
    if not text.isascii() or not text.isdigit() or len(text) > 12 or int(text) > most:
        raise Unasked(messages.NO_NUMBER.format(name=name))
    return int(text)
