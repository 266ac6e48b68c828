"""The commands look, cures and split on the files of a store: what they do for single pages.

Look draws readable copies in place of refused pages, and leaves out what draws nothing or is of another format.
"""
import os
import sqlite3
from argparse import Namespace
from dataclasses import dataclass
from typing import TYPE_CHECKING, Any, Callable, Dict, Iterator, List, NamedTuple, Optional, Sequence, Type

from naplps.answers import Refusal
from naplps.client import Client
from naplps.names import shown
from naplps.treating.treatments import find, graded

from .. import console, messages
from ..console import NotWritten, tell, tell_of
from ..free_names import FreeNames, Making
from ..listing import Listed
from ..new_files import make_folders
from ..packs import pack_of
from ..page_session import OPTIONS, Session
from ..pictures import MOST_PAGES
from ..source import Page, Unread
from .file_reader import Otherwise, read
from .folders import Place, is_within
from .kept import RootPath
from .printing import numbered
from .sources import most_budget
from .store import kept, open_to_read, run
from .tables import REFUSED, Count, Hash, Name, Path, Text, checked, hashed

if TYPE_CHECKING:
    from ..listing import Earlier

ROOTS = "SELECT DISTINCT path FROM roots ORDER BY path"
# The files with an answer, in the order of their names.
FILES = """SELECT d.path, f.name, f.at, p.own, p.place, p.entries, p.looks_like, c.treatments, c.copy FROM present f
    CROSS JOIN pages p ON p.id = f.page CROSS JOIN folders d ON d.id = f.folder LEFT JOIN cures c ON c.page = p.id AND
    c.terms = p.terms AND c.treatments IS NOT NULL WHERE p.state {} ORDER BY d.path, f.name"""
ANSWERED, REFUSED_ALONE = f"<= {REFUSED}", f"= {REFUSED}"


class StoredFile(NamedTuple):
    """A file of a store, and the hash of its page: where that is refused, or how many entries it has; what it looks
    like; and the hash of its readable copy, with the treatments that make this."""

    folder: Path
    name: Name
    begins: Optional[Count]
    own: Hash
    at: Optional[Count] = None
    entries: Optional[Count] = None
    looks_like: Optional[Text] = None
    treatments: Optional[Text] = None
    copy: Optional[Hash] = None

    @property
    def place(self) -> Place:
        """Where it is."""
        return Place(self.folder, self.name, self.begins)

    @property
    def is_empty(self) -> bool:
        """Whether it is known to draw nothing."""
        return self.entries == 0

    @property
    def is_other(self) -> bool:
        """Whether it is of another format, and has no readable copy."""
        return bool(self.looks_like) and self.copy is None


def files(connection: sqlite3.Connection, which: str = ANSWERED) -> Iterator[StoredFile]:
    """The files of which the pages have such an answer."""
    return kept(connection, FILES.format(which), StoredFile)


class Names:
    """Names for files that are made of those of a store: relative to the folders that were scanned."""

    def __init__(self, connection: sqlite3.Connection) -> None:
        paths = [root.path for root in checked(connection.execute(ROOTS), RootPath)]
        self.roots = [path for path in paths if not any(other != path and is_within(path, other) for other in paths)]
        self.fronts = _fronts([os.path.basename(root) for root in self.roots])

    def of(self, place: Place) -> str:
        """The path for a file. Raises NotWritten.

        A store may come from anybody, so the name is taken apart: no part of it is nothing, '.' or '..'.
        """
        path = os.fsencode(place.path)
        if pack_of(place.folder) is None and b"/" in place.name:
            raise NotWritten(place.path, messages.NO_FILE_NAME)
        for number, root in enumerate(self.roots):
            below = _below(path, root)
            if below is not None:
                parts = [part for part in (self.fronts[number], *below.split(b"/")) if part not in (b"", b".")]
                if b".." in parts or not below.strip(b"/.") or b"\0" in below:
                    raise NotWritten(place.path, messages.NO_FILE_NAME)
                return os.path.join(*map(os.fsdecode, parts))
        raise NotWritten(place.path, messages.NOT_BELOW_ROOT)


def _fronts(names: List[bytes]) -> List[bytes]:
    """What stands before the files of each root where there are several: its name, with a number if need be."""
    taken: Dict[bytes, int] = dict.fromkeys(names, 0)
    return [_front(name, taken) if name and len(names) > 1 else b"" for name in names]


def _front(name: bytes, taken: Dict[bytes, int]) -> bytes:
    """A name, or where an earlier root has that the name with the next number that makes no name of another."""
    taken[name] += 1
    if taken[name] == 1:
        return name
    front = name + b" (%d)" % taken[name]
    while front in taken:
        taken[name] += 1
        front = name + b" (%d)" % taken[name]
    taken[front] = 1
    return front


def _below(path: bytes, root: bytes) -> Optional[bytes]:
    """The path of a file below what was scanned: a folder, a pack or the file itself; None where it isn't there."""
    for end in (b"/", b"!"):
        if path.startswith(root.rstrip(b"/") + end):
            return path[len(root.rstrip(b"/") + end):]
    return os.path.basename(path) if path == root else None


class StoreSession(Session):
    """One run of a command on the files of a store."""

    current: Optional[StoredFile] = None
    free: Optional[FreeNames] = None

    def __init__(self, program: Client, names: List[str], files: Iterator[StoredFile], total: int, stored: Names,
                 **options: Any) -> None:
        super().__init__(program, names, **options)
        self.files, self.total, self.stored, self.store = files, total, stored, names[0]
        self.reader = self._read

    def front(self, name: str) -> str:
        """What stands before the answer to a page: its name."""
        return f"{shown(name)}: "

    def title(self, page: Page) -> str:
        """Its name below the folders that were scanned."""
        assert self.current
        return shown(self.stored.of(self.current.place))

    def each(self, work: Callable[[Page], None], more: Sequence[str] = ()) -> int:
        """Does the work for each file, but for those for which there is no room; the status of the whole."""
        left: List[StoredFile] = []
        for self.current in self.told(self.files, self.total):
            if not self.has_room():
                left.append(self.current)
            elif self.take(self.current):
                self.names = [self.current.place.path]
                super().each(work, more)
        self.end(left)
        return self.status

    def take(self, _stored: StoredFile) -> bool:
        """Whether the work is done for a file."""
        return True

    def has_room(self) -> bool:
        """Whether there is room for another file."""
        return True

    def end(self, left: List[StoredFile]) -> None:
        """Tells of the files for which there was no room."""
        if left:
            files = numbered(len(left), "file isn't", "files aren't")
            self.complain(self.store, messages.SHEET_FULL.format(most=MOST_PAGES, files=files))

    def _read(self, _name: str, _seconds: float) -> Page:
        """The page of the file that is at work. Raises Unread, or NotWritten where its name is none."""
        assert self.current
        self.stored.of(self.current.place)  # (a name that leads outside is refused before its file is opened)
        try:
            return read(self.current.place, self.current.own)
        except Otherwise as otherwise:
            raise Unread(str(otherwise), console.CHANGED) from None

    def path_for(self, name: str, ending: str = "", making: Optional[Making] = None) -> str:
        """The path of the file for a page, in the folder that is given; no other file's of this run. Raises NotWritten.
        """
        assert self.into is not None and self.current
        self.free = self.free or FreeNames(self.into, tell_of)
        usual = self.stored.of(self.current.place)
        path = self.free.of(usual, making or (lambda path: [path + ending])) + ending
        self.is_usual = path == usual + ending
        make_folders(self.into, path)
        return os.path.join(self.into, path)


def on_files(given: Namespace, client: Client, after: "Optional[Earlier]", work: Callable[[Session], int],
             which: str, kind: Type[StoreSession] = StoreSession) -> int:
    """Runs a command on those files of a store whose pages have such an answer; the status."""
    def on_store() -> int:
        connection = open_to_read(given.pages[0])
        client.budget = most_budget(given.pages)
        options = {name: getattr(given, name) for name in OPTIONS if name in given}
        total, = connection.execute(f"SELECT count(*) FROM ({FILES.format(which)})").fetchone()
        return work(kind(client, given.pages, **options, after=after, files=files(connection, which), total=total,
                         stored=Names(connection)))
    return run(given.pages[0], on_store)


@dataclass
class LookCounts:
    """How many pictures are made, how many of these of copies and of refused pages, and what is left out."""

    pictures: int = 0
    copies: int = 0
    refused: int = 0
    empty: int = 0
    others: int = 0

    def line(self) -> str:
        """The counts for people."""
        some = [numbered(self.pictures, "picture")]
        some += [f"{self.copies} of readable copies"] * bool(self.copies)
        some += [f"{self.refused} of what comes before a refusal"] * bool(self.refused)
        left = [f"{self.empty} that draw nothing"] * bool(self.empty) + [f"{self.others} of other formats"] * bool(
            self.others)
        return ", ".join(some) + ("; left out: " + ", ".join(left) if left else "")


class LookSession(StoreSession):
    """One run of look on the files of a store."""

    is_quiet = True

    def __init__(self, *words: Any, **options: Any) -> None:
        super().__init__(*words, **options)
        self.counts = LookCounts()

    def take(self, stored: StoredFile) -> bool:
        """Whether a file is looked at: not one that is known to draw nothing, or to be of another format."""
        if stored.is_empty:
            self.counts.empty += 1
        elif stored.is_other:
            self.counts.others += 1
        return not (stored.is_empty or stored.is_other)

    def has_room(self) -> bool:
        """Whether there is room for another picture."""
        return not self.is_sheet or self.counts.pictures < MOST_PAGES

    def takes(self, listed: Listed) -> bool:
        """Whether there is anything to draw; then it is counted."""
        if listed.lines is not None and not listed.lines:
            self.counts.empty += 1
            return False
        self.counts.pictures += 1
        self.counts.copies += bool(self.treated)
        self.counts.refused += isinstance(listed.answer, Refusal)
        if isinstance(listed.answer, Refusal):
            self.fail(console.REFUSED)
        return True

    def end(self, left: List[StoredFile]) -> None:
        """Tells what was made."""
        tell(f"{shown(self.store)}: {self.counts.line()}")
        super().end([each for each in left if not (each.is_empty or each.is_other)])

    def _read(self, name: str, seconds: float) -> Page:
        """The page of the file that is at work, or its readable copy. Raises Unread."""
        page, stored, self.treated = super()._read(name, seconds), self.current, ""
        if stored is None or stored.copy is None or page.data is None:
            return page
        cure = find(self.program.ask, page.data, stored.at or 0)
        if cure is None or hashed(cure.data) != stored.copy:
            return page
        self.treated = f"treated by {graded(stored.treatments or '')}"
        return Page(page.name, cure.data)
