"""Makes a report, as one HTML file: its table of all files, which pages have a sketch, and how all is packed."""
import os
import sqlite3
import sys
from concurrent.futures import Future, ThreadPoolExecutor
from itertools import chain, zip_longest
from typing import Callable, Dict, Iterable, Iterator, List, NamedTuple, Optional, Sequence, Set, Tuple, TypeVar

from naplps.names import shown
from naplps.treating.treatments import graded

from .. import messages
from ..collection import tables
from ..collection.progress import Progress
from ..console import CHANGED, COMPLETE, FAILED, NotWritten, Output
from ..new_files import put, replace
from ..page_words import first_words
from . import (
    A_PLAYED_BLOCK, HASH_DIGITS, HELD_LINES, HELD_PLAYER, HELD_SKETCH, HELD_TEXT, MOST_FILES, MOST_HELD, MOST_PLAYED,
    MOST_SKETCHES, SOME_TEXTS, in_block,
)
from .document import Document, data_of, packed, packed_json
from .drawing import Block, Drawing, DrawingLimits, DrawnBlock, DrawingTask, drawing_task
from .facts import GroupSummary, kind, load_facts, load_groups, refusal_texts
from .files import ALL, COUNT, ReportFile, Roots, files_of, first_words_of, load_roots
from .near_files import NearFiles
from .sketch_workers import BlockQueue, DrawingOptions, Room

NONE = -1
# Of a file: the number of entries or the place of a refusal; the number of its spelling in the group, and of its page.
COLUMNS = ("folder", "name", "size", "answer", "entries", "group", "spelling", "cure", "kind", "page", "sketch")


class Numbers:
    """Numbers for names, as they are met."""

    def __init__(self) -> None:
        self.names: List[str] = []
        self.numbers: Dict[object, int] = {}

    def of(self, name: str, key: object = None) -> int:
        """The number of a name; names with different keys are different."""
        number = self.numbers.setdefault((name, key), len(self.names))
        if number == len(self.names):
            self.names.append(name)
        return number


class Table:
    """All files of a store, in the order of their paths. Its columns are there once it is filled."""

    def __init__(self, connection: sqlite3.Connection, roots: Roots, groups: List[GroupSummary]) -> None:
        self.files: List[ReportFile] = list(files_of(connection.execute(ALL)))
        self.groups = groups
        self.folders, self.answers, self.cures, self.kinds, self.hashes = (Numbers() for _ in range(5))
        self.says: List[str] = []
        self.first = first_words_of(connection)
        self.roots, self.near = roots, NearFiles(connection)
        self.columns: Dict[str, List[object]] = {name: [] for name in COLUMNS}
        numbers = {group.key: number for number, group in enumerate(groups)}
        # The groups of the files by their numbers, or NONE; and of the files that are accepted alone.
        self.shown_in = [numbers.get(file.drawn_key, NONE) if file.drawn_key else NONE for file in self.files]
        self.in_group = [group if file.key else NONE for file, group in zip(self.files, self.shown_in)]

    def fill(self) -> None:
        """Fills the columns."""
        spellings = _spellings(self.files, self.shown_in)
        relative: Dict[int, str] = {}
        rows = []
        for file, group in zip(self.files, self.shown_in):
            if file.folder not in relative:
                relative[file.folder] = self.roots.relative(file.path)
            rows.append(self._row(file, relative[file.folder], group, spellings.get((group, file.own), NONE)))
        self.columns.update(zip(COLUMNS, map(list, zip(*rows))))

    def _row(self, file: ReportFile, folder: str, group: int, spelling: int) -> Tuple[object, ...]:
        cure = NONE
        if file.tried:
            cure = self.cures.of(graded(file.treatments) if file.treatments else "")
        page = NONE if file.own is None else self.hashes.of(file.own.hex()[:HASH_DIGITS])
        return (self.folders.of(folder, file.folder), shown(os.fsdecode(file.name)), file.size,
                self.answers.of(file.summary, file.number), file.at if file.entries is None else file.entries, group,
                spelling, cure, self.kinds.of(kind(file.kind, file.looks_like)), page, NONE)

    def place_sketches(self, drawn: List[Tuple[int, Drawing]]) -> None:
        """Notes which sketch the files have, given those of some: equal pages and copies share one."""
        shared = {_picture(self.files[number]): sketch for sketch, (number, _) in enumerate(drawn)}
        sketches = [shared.get(_picture(file), NONE) for file in self.files]
        self.columns["sketch"] = list(sketches)
        shown_first = [first_words(drawing.text) for _, drawing in drawn]
        says: Dict[object, str] = {}
        for file, page, sketch in zip(self.files, self.columns["page"], sketches):
            shows = shown_first[sketch] if sketch != NONE else ""
            says[page] = shows or self.first.get(file.page or 0, "")
        self.says = [says.get(page, "") for page in range(len(self.hashes.names))]

    def held(self) -> Dict[str, object]:
        """What the HTML file holds of it."""
        return {"folders": self.folders.names, "answers": self.answers.names, "cures": self.cures.names,
                "kinds": self.kinds.names, "numbers": self._numbers(), "hashes": self.hashes.names, "says": self.says,
                "columns": self.columns, "near": self._near(),
                "groups": [[group.canon.hex()[:16], group.spellings, group.files, group.entries, group.length,
                            group.copies] for group in self.groups]}

    def _near(self) -> Dict[object, List[Tuple[int, str]]]:
        """The files that are almost equal, and the text on each, by the numbers of pages."""
        numbers = {file.canon or file.treated_canon: number for number, file in reversed([*enumerate(self.files)])}
        near = {page: [(numbers[each.canon], each.text) for each in self.near.of(file) if each.canon in numbers]
                for file, page in zip(self.files, self.columns["page"])}
        return {page: some for page, some in near.items() if some}

    def _numbers(self) -> List[int]:
        """The number of the refusal that each of the answers is, or 0."""
        made = [0] * len(self.answers.names)
        for file, answer in zip(self.files, self.columns["answer"]):
            assert isinstance(answer, int)
            made[answer] = file.number or 0
        return made


def _picture(file: ReportFile) -> object:
    """What the pages with one sketch have alike."""
    return file.key or ((file.page,) if file.page is not None else (file.path, file.name))


def _spellings(files: List[ReportFile], in_group: List[int]) -> Dict[Tuple[int, Optional[bytes]], int]:
    """The number of each spelling within its group, in the order of their hashes, those of readable copies last."""
    owns: Dict[int, Set[Tuple[bool, bytes]]] = {}
    for file, group in zip(files, in_group):
        if group != NONE and file.own is not None:
            owns.setdefault(group, set()).add((file.key is None, file.own))
    return {(group, own): number for group, some in owns.items() for number, (_, own) in enumerate(sorted(some))}


It = TypeVar("It")


class Packing:
    """Packs by a number of threads."""

    def __init__(self, threads: int) -> None:
        self.pool = ThreadPoolExecutor(max(1, threads))

    def __enter__(self) -> "Packing":
        return self

    def __exit__(self, *_: object) -> None:
        self.pool.shutdown(cancel_futures=True)

    def table(self, value: object) -> "Future[str]":
        """The table, as it will be packed."""
        return self.pool.submit(packed, value)

    def texts(self, some: Sequence[str]) -> List[str]:
        """Texts, a number of them together."""
        return self._parts(packed, some, SOME_TEXTS)

    def played(self, some: Sequence[str]) -> List[str]:
        """What players have, as JSON, a number of them together."""
        return self._parts(lambda part: packed_json("[%s]" % ",".join(part)), some, A_PLAYED_BLOCK)

    def _parts(self, pack: Callable[[Sequence[It]], str], some: Sequence[It], size: int) -> List[str]:
        return list(self.pool.map(pack, (some[at:at + size] for at in range(0, len(some), size))))


# Tenths of the sketches for groups of equal pages and for refused pages; what they leave goes to the others.
GROUPS, REFUSED = 6, 3


def choose(table: Table, most: int) -> List[int]:
    """The numbers of a number of files: one for each page, or for each group of equal pages."""
    groups, refused, others = _groups(table), _refused(table), _others(table)
    first = groups[:most * GROUPS // 10] + refused[:most * REFUSED // 10]
    taken = set(first)
    left = [number for number in chain(groups, refused) if number not in taken] if len(first) < most else []
    rest = chain(others[:most - len(first)], left)
    return _first(chain(first, rest), most)


def _first(numbers: Iterable[int], most: int) -> List[int]:
    return [number for number, _ in zip(numbers, range(most))]


def _groups(table: Table) -> List[int]:
    """A file of each group, in the order of the groups."""
    found = [NONE] * len(table.groups)
    for number, group in enumerate(table.in_group):
        if group != NONE and found[group] == NONE:
            found[group] = number
    return [number for number in found if number != NONE]


def _refused(table: Table) -> List[int]:
    """A file of each refused page: the first of each reason, then the second of each, and so on."""
    seen = set()
    reasons: Dict[str, List[int]] = {}
    for number, file in enumerate(table.files):
        if file.answer == tables.REFUSED and file.page not in seen:
            seen.add(file.page)
            reasons.setdefault(file.summary, []).append(number)
    return list(_in_turn(reasons.values()))


def _in_turn(lists: Iterable[List[int]]) -> Iterator[int]:
    for some in zip_longest(*lists):
        yield from (number for number in some if number is not None)


def _others(table: Table) -> List[int]:
    """The accepted files that have no equal."""
    return [number for number, file in enumerate(table.files)
            if file.answer == tables.ACCEPTED and table.in_group[number] == NONE]


def number_of_pictures(table: Table) -> int:
    """How many sketches all pages together have."""
    return len(_groups(table)) + len(_refused(table)) + len(_others(table))


# A page that is to be drawn, and a drawing, with the number of their file.
Task = Tuple[int, DrawingTask]
Numbered = Tuple[int, Drawing]
# Where pages are that have no sketch in the file.
# Why a page has no picture that isn't as it was scanned.
OTHER_NOW = (messages.NOT_AS_SCANNED, messages.OTHER_ANSWER, messages.OTHER_COPY)
OTHERS_SERVED = "naplps-pages report --serve shows the others too."
# So each report begins.
BEGINNING = b'<!doctype html>\n<html lang="en">\n<head>\n<meta charset="utf-8">\n<meta http-equiv="Content-Security-'


class ReportOptions(NamedTuple):
    """What report was asked for: a number of sketches, or all; by how many processes, in how many seconds each; in
    place of one that is there. Without a file to put it into it is printed."""

    store: str
    into: Optional[str]
    program: str
    sketches: int
    all: bool
    processes: int
    seconds: float
    replace: bool = False
    # (the path of what a box keeps of its pages)
    kept: str = ""


class ReportTotals(NamedTuple):
    """What a report holds."""

    files: int
    groups: int
    sketches: int
    pictures: int
    missed: List[Tuple[str, str]]
    status: int
    length: int


class TooLarge(Exception):
    """The collection is too large for one file."""


def require_room(path: str, is_replaced: bool = False) -> None:
    """Raises NotWritten where the file can't be made, before the work that it would cost."""
    if os.path.lexists(path) and (os.path.isfile(path) or not os.path.exists(path)):
        if not is_replaced:
            raise NotWritten(path, messages.IS_THERE)
        if not _is_report(path):
            raise NotWritten(path, messages.NO_REPORT_THERE)
    folder = os.path.dirname(path) or "."
    if not os.path.isdir(folder):
        raise NotWritten(path, messages.NO_FOLDER)


def _is_report(path: str) -> bool:
    """Whether a file begins as a report does."""
    try:
        with open(path, "rb") as file:
            return file.read(len(BEGINNING)) == BEGINNING
    except OSError as error:
        raise NotWritten(path, error.strerror or str(error)) from None


def make(connection: sqlite3.Connection, options: ReportOptions) -> ReportTotals:
    """Makes the report. Raises NotWritten or TooLarge."""
    if options.into is not None:
        require_room(options.into, options.replace)
    most = DrawingLimits(HELD_SKETCH, HELD_TEXT, HELD_LINES, HELD_PLAYER, shortens=True)
    drawing_options = DrawingOptions(options.program, options.seconds, most, options.kept)
    # (the processes begin while the store is read, and to draw before all of it is)
    with BlockQueue(drawing_options, _processes(connection, options), Room(MOST_HELD)) as queue:
        connection.execute("BEGIN")
        try:
            some, table = _read(connection)
            pictures = number_of_pictures(table)
            if options.all and pictures > MOST_SKETCHES:
                raise TooLarge(messages.MANY_SKETCHES.format(number=pictures))
            tasks = _tasks(table, choose(table, MOST_SKETCHES if options.all else options.sketches))
            queue.begin(_blocks(tasks))
            facts = load_facts(connection, options.store, some)
        finally:
            connection.execute("ROLLBACK")
        blocks = _drawn(table, len(tasks), queue)
    drawings = [(number, page.drawing) for (number, _), page in zip(tasks, chain(*(each.pages for each in blocks)))]
    data = _data(table, drawings, [each.packed for each in blocks], options.processes)
    status = max((CHANGED if each.is_other or each.why in OTHER_NOW else FAILED for _, each in drawings if each.why),
                 default=COMPLETE)
    missed = [(table.files[number].place.path, each.why) for number, each in drawings if each.why]
    page = Document(facts, some, "held.js").html(_held_sentence(drawings, pictures), data).encode("utf-8")
    _put(options, page)
    return ReportTotals(facts.files, len(some), len(drawings), pictures, missed, status, len(page))


def _put(options: ReportOptions, page: bytes) -> None:
    """Writes the report, or prints it."""
    if options.into is None:
        output = Output(sys.stdout.buffer)
        output.bytes(page)
        output.flush()
    elif options.replace and os.path.isfile(options.into):
        replace(options.into, page)
    else:
        put(options.into, page)


def _processes(connection: sqlite3.Connection, options: ReportOptions) -> int:
    """How many processes have something to draw."""
    pages: int = connection.execute("SELECT count(*) FROM pages").fetchone()[0]
    pages = min(pages, MOST_SKETCHES if options.all else options.sketches)
    return min(options.processes, -(-pages // in_block(pages)))


def _read(connection: sqlite3.Connection) -> Tuple[List[GroupSummary], Table]:
    """The groups and the files of a store. Raises TooLarge."""
    files: int = connection.execute(COUNT).fetchone()[0]
    if files > MOST_FILES:
        raise TooLarge(messages.MANY_FILES.format(number=files))
    some = load_groups(connection)
    return some, Table(connection, load_roots(connection), some)


def _held_sentence(drawings: List[Numbered], pictures: int) -> str:
    """How many sketches there are, how many of their pages can be played, and what shows the others."""
    text = f"{len(drawings):,} of {pictures:,} sketches are in this file"
    played = sum(1 for _, each in drawings if each.played)
    if played < len(drawings):
        text += f"; {played:,} of these pages can be played"
    return f"{text}." if len(drawings) == pictures else f"{text}. {OTHERS_SERVED}"


def _tasks(table: Table, numbers: List[int]) -> List[Task]:
    """What is to be drawn of these files, in their order. The first of the numbers can be played."""
    tasks: List[Task] = []
    for number in numbers:
        it = drawing_task(table.files[number])
        if it:
            tasks.append((number, it._replace(is_played=len(tasks) < MOST_PLAYED)))
    return sorted(tasks)


def _blocks(tasks: List[Task]) -> List[Block]:
    """What is drawn together."""
    size = in_block(len(tasks))
    return [Block(at // size, [it for _, it in tasks[at:at + size]]) for at in range(0, len(tasks), size)]


def _drawn(table: Table, tasks: int, queue: BlockQueue) -> List[DrawnBlock]:
    """The blocks with a number of drawings, in the order of their files. Meanwhile the table is filled."""
    progress = Progress(sys.stderr, lambda: tasks, what="sketches")
    try:
        with ThreadPoolExecutor(1) as beside:
            filled = beside.submit(table.fill)
            made = sorted(queue.drawn(progress.show), key=lambda each: each.block.number)
            filled.result()
    finally:
        progress.clear()
    return made


def _data(table: Table, drawings: List[Numbered], blocks: List[str], threads: int) -> str:
    table.place_sketches(drawings)
    accepted = tables.PAGE_STATES[tables.ACCEPTED]
    names = table.answers.names
    played = [(number, drawing.played) for number, drawing in drawings if drawing.played]
    with Packing(threads) as packing:
        held = packing.table({
            **table.held(), "per": in_block(len(drawings)), "texts": SOME_TEXTS, "refusals": refusal_texts(),
            "accepted": names.index(accepted) if accepted in names else -1, "playedPer": A_PLAYED_BLOCK,
            "played": [table.columns["page"][number] for number, _ in played]})
        texts = packing.texts([drawing.text for _, drawing in drawings])
        players = packing.played([each for _, each in played])
        return data_of(held.result(), blocks, texts, players)
