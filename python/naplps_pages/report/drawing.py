"""Drawings of a report: one page's, by its file or by what a box keeps of it, and blocks of them."""
import re
from itertools import islice
from typing import Callable, Dict, List, NamedTuple, Optional, Sequence

from naplps.answers import Accepted, Answer, Refusal, Unanswered, read_line
from naplps.client import Client
from naplps.entry import placed
from naplps.faults import NotALine
from naplps.limits import MOST_LISTED
from naplps.screen_text import lines_of
from naplps.treating.treatments import find, graded

from .. import messages
from ..box.kept_pages import KeptPage, KeptPages
from ..collection.file_reader import Otherwise, read
from ..collection.folders import Place
from ..collection.store import StoreFailed
from ..collection.tables import hashed
from ..listing import MOST_IN_ROW, FoldedRow, Listed, Row, folded, listed, listed_of_few
from ..player import can_be_played, played
from ..pictures import sketch_of
from ..source import Page
from . import A_LINE, SMALL_SKETCH, SMALL_TEXT
from .document import packed
from .files import ReportFile

QUOTED = re.compile(r'"(?:[^"\\]|\\.)*"')
NO_BREAK = "\u00a0"


def shortened(lines: Sequence[str]) -> List[str]:
    """Lines of a list, where a word that stood in the same place of the last line of its kind is left out.

    What stands in quotation marks is one word: its blanks are no-break spaces here.
    """
    last: Dict[str, List[str]] = {}
    made = []
    for line in lines:
        if '"' in line:
            line = QUOTED.sub(lambda quoted: quoted[0].replace(" ", NO_BREAK), line)
        kind, *words = line.split(" ")
        before = last.get(kind, [])
        left = ["" if word == other else word for word, other in zip(words, before)]
        made.append(" ".join([kind, *left, *words[len(before):]]))
        last[kind] = words
    return made


TOO_LARGE = "its sketch is too large to be held here"


class TreatedCopy(NamedTuple):
    """The copy of a refused page that is drawn in its place: its hash, and the treatments for people with the grade."""

    own: bytes
    by: str


class DrawingTask(NamedTuple):
    """A page that is to be drawn: where it is, its hash, and what the program said of it under which budget; and
    whether it is to be played too."""

    place: Place
    own: bytes
    line: str
    budget: int
    treated: Optional[TreatedCopy] = None
    is_played: bool = False
    # (whether only a thumbnail shows it)
    is_small: bool = False


class DrawingLimits(NamedTuple):
    """How much is kept of a page: characters of its sketch and of its text, lines of its list, and characters of what a
    player has."""

    sketch: int
    text: int
    lines: int
    player: int = 0
    # (whether words are left out of the rows as a report leaves them out)
    shortens: bool = False


class Drawing(NamedTuple):
    """The sketch of a page, its text, and some rows of its list: which entry is the first, and how many there are.

    Characters that differ in nothing but their letter have one row. A row that is long ends with two dots. What a
    player has of it is JSON.
    """

    sketch: str = ""
    text: str = ""
    lines: List[str] = []
    # (how many entries each of them tells)
    counts: List[int] = []
    first: int = 0
    entries: int = 0
    why: str = ""
    played: str = ""
    # (whether it has none since its file isn't the page that was scanned)
    is_other: bool = False

    def characters(self) -> int:
        """How many characters it has."""
        return len(self.sketch) + len(self.text) + sum(map(len, self.lines)) + len(self.played)

    def small(self) -> Dict[str, object]:
        """What a thumbnail shows of it."""
        is_small = len(self.sketch) <= SMALL_SKETCH
        return {"sketch": self.sketch if is_small else "", "text": self.text[:SMALL_TEXT], "entries": self.entries,
                "why": self.why if is_small else TOO_LARGE}


def draw(program: Client, task: DrawingTask, most: DrawingLimits) -> Drawing:
    """Draws a page as it is now, if it is as it was."""
    program.budget = task.budget
    try:
        page = read(task.place, task.own)
    except Otherwise as otherwise:
        return Drawing(why=str(otherwise), is_other=True)
    try:
        return _drawn_treated(program, page, task, most) if task.treated else _drawn(program, page, task, most)
    except NotALine:
        return Drawing(why=messages.OTHER_ANSWER)
    finally:
        page.close()


def _drawn_treated(program: Client, page: Page, task: DrawingTask, most: DrawingLimits) -> Drawing:
    """Draws the treated copy of a page."""
    answer = program.ask("check", page)
    if not isinstance(answer, Refusal) or answer.line != task.line or page.data is None:
        return drawn_of(page, Listed(answer), task._replace(treated=None), most)
    cure = find(program.ask, page.data, answer.place)
    if cure is None or task.treated is None or hashed(cure.data) != task.treated.own:
        return Drawing(why=messages.OTHER_COPY)
    return _drawn(program, Page(page.name, cure.data), task._replace(line=Accepted(cure.entries).line), most)


def _drawn(program: Client, page: Page, task: DrawingTask, most: DrawingLimits) -> Drawing:
    before = read_line(task.line.encode("ascii"), None)
    has_few = isinstance(before, Accepted) and before.entries <= MOST_LISTED
    page_list = listed_of_few(program, page, task.is_played) if has_few else listed(program, page)
    return drawn_of(page, page_list, task, most)


def drawn_of(page: Page, page_list: Listed, task: DrawingTask, most: DrawingLimits) -> Drawing:
    """The drawing of a page that has this answer and these entries."""
    answer = page_list.answer
    if isinstance(answer, Unanswered):
        return Drawing(why=answer.reason)
    if answer.line != task.line:
        return Drawing(why=messages.OTHER_ANSWER)
    svg = sketch_of(page_list, f"treated by {task.treated.by}" if task.treated else "").svg
    lines = page_list.lines
    if lines is None:
        return Drawing(svg, entries=answer.entries if isinstance(answer, Accepted) else 0)
    text = "\n".join(lines_of("\n".join(lines) + "\n"))[:most.text]
    rows = [] if task.is_small else _rows(lines, most, isinstance(answer, Refusal))
    some, counts = [_cut(row.line) for row in rows], [row.entries for row in rows]
    some = shortened(some) if most.shortens else some
    first = len(lines) - sum(counts) if isinstance(answer, Refusal) else 0
    if len(svg) > most.sketch:
        return Drawing("", text, some, counts, first, len(lines), TOO_LARGE)
    return Drawing(svg, text, some, counts, first, len(lines), "", _played(page, page_list, task, most))


def _rows(lines: List[str], most: DrawingLimits, is_refused: bool) -> List[FoldedRow]:
    """Rows of a list: what comes last before a refusal, which tells of it, and what comes first of the other pages."""
    if not most.lines:
        return []
    enough = most.lines * MOST_IN_ROW
    some = lines[-enough:] if is_refused else lines[:enough]
    rows = folded(some)
    return [*rows][-most.lines:] if is_refused else [*islice(rows, most.lines)]


def _played(page: Page, page_list: Listed, task: DrawingTask, most: DrawingLimits) -> str:
    """What a player has of the page that the sketch shows, where that isn't too much."""
    if not task.is_played or page.data is None or not can_be_played(page_list):
        return ""
    text = played(page.data, page_list, f"This is a copy, treated by {task.treated.by}." if task.treated else "")
    return text if len(text) <= most.player else ""


def _cut(line: str) -> str:
    """A line as it is shown: of a long one what comes first."""
    return line if len(line) <= A_LINE else line[:A_LINE].rsplit(" ", 1)[0] + " .."


def drawing_task(file: ReportFile) -> Optional[DrawingTask]:
    """The page of a file as it is to be drawn, where there is one with an answer."""
    if file.own is None or file.budget is None or not file.line:
        return None
    copy = TreatedCopy(file.treated, graded(file.treatments)) if file.treated and file.treatments else None
    return DrawingTask(file.place, file.own, file.line, file.budget, copy)


class Block(NamedTuple):
    """Some pages, by its number among the blocks; and why those of them have no drawing that are known to have none."""

    number: int
    pages: Sequence[DrawingTask]
    without: Dict[int, str] = {}
    # (whether there is room for its drawings)
    is_counted: bool = False


class DrawnPage(NamedTuple):
    """The drawing of a page of a block, without what is packed of it, and how many characters it has as a whole."""

    drawing: Drawing
    characters: int


class DrawnBlock(NamedTuple):
    """A block, its drawings as a report holds them, and its pages."""

    block: Block
    packed: str
    pages: List[DrawnPage]


def draw_block(draws: Callable[[DrawingTask], Drawing], block: Block, tell: Callable[[DrawnPage], None]) -> str:
    """Draws the pages of a block, tells of each as it comes, and packs them."""
    drawings: List[Drawing] = []
    for at, task in enumerate(block.pages):
        drawing = Drawing(why=block.without[at]) if at in block.without else draws(task)
        drawings.append(drawing)
        tell(_drawn_page(drawing))
    return pack(drawings)


def _drawn_page(drawing: Drawing) -> DrawnPage:
    return DrawnPage(drawing._replace(sketch="", lines=[], counts=[]), drawing.characters())


def without_drawings(block: Block, why: str) -> DrawnBlock:
    """A block none of whose pages is drawn."""
    drawings = [Drawing(why=why)] * len(block.pages)
    return DrawnBlock(block, pack(drawings), list(map(_drawn_page, drawings)))


def pack(drawings: Sequence[Drawing]) -> str:
    """Drawings, with shortened lines, that are packed together: those that are seen at once."""
    return packed({"sketch": [each.sketch for each in drawings],
                   "lines": ["\n".join(each.lines) for each in drawings], "counts": [each.counts for each in drawings],
                   "first": [each.first for each in drawings],
                   "entries": [each.entries for each in drawings], "why": [each.why for each in drawings]})


def kept_drawer(program: Client, path: str, most: DrawingLimits) -> Callable[[DrawingTask], Drawing]:
    """What draws a page by what is kept at this path. What isn't kept is drawn as in any report."""
    pages = KeptPages(path)

    def draws(task: DrawingTask) -> Drawing:
        try:
            kept: Optional[KeptPage] = pages.of(task.own)
        except StoreFailed:
            kept = None
        try:
            return kept and _drawn_as_kept(kept, task, most) or draw(program, task, most)
        except NotALine:
            return Drawing(why=messages.OTHER_ANSWER)
    return draws


def _drawn_as_kept(kept: KeptPage, task: DrawingTask, most: DrawingLimits) -> Optional[Drawing]:
    """The drawing of a page or of its treated copy; nothing where too little is kept for that."""
    answer: Answer = read_line(task.line.encode("ascii"), None)
    data, body = kept.data, kept.places
    if task.treated:
        if kept.cure is None or kept.copy is None or hashed(kept.copy) != task.treated.own:
            return None
        answer = Accepted(int(str(kept.cure["entries"])))
        data, body, task = kept.copy, kept.copied, task._replace(line=answer.line)
    page_list = _listed_as_kept(answer, body)
    return drawn_of(Page(task.place.path, data), page_list, task, most) if page_list else None


def _listed_as_kept(answer: Answer, body: Optional[bytes]) -> Optional[Listed]:
    """An answer with the entries that this body of `places` tells."""
    if isinstance(answer, Accepted) and answer.entries > MOST_LISTED:
        return Listed(answer)
    if body is None or not isinstance(answer, (Accepted, Refusal)):
        return None
    rows: List[Row] = [*placed(body)]
    return Listed(answer, rows if len(rows) <= MOST_LISTED else None)
