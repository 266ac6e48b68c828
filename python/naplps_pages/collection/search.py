"""Searches folders for files that a worker has to look at: those that the store doesn't know as they are.

Folders are walked in the order of their names, and links aren't followed.
"""
import os
import sqlite3
import stat
from typing import Callable, Dict, FrozenSet, Iterable, Iterator, List, Mapping, NamedTuple, Optional, Tuple

from .. import messages
from ..packs import NO_FILE, inside, is_pack, pack_of
from .file_reader import Marks, marks
from .folders import FolderIdentity, OpenFolders, identity_of, is_gone, is_within, join, opened, reason, root_length
from .kept import Part, below
from .protocol import Chunk, FolderFiles, Retry
from .store_files import ENDINGS
from .tables import (
    GONE, READ, SETTLED, TOO_LONG, UNREADABLE, VANISHED, Count, FileState, Flag, Name, Number, Path, Text, checked,
    one,
)
from .writer import Writer

# Each row of a folder has its whole path, so a deep one would cost the square of its depth.
MAX_PATH = 64 << 10
LONG_PATH = f"its path is longer than {MAX_PATH} bytes"
# A folder by its device and its number.
Identity = Tuple[int, int]


class Listing(NamedTuple):
    """A folder: what in it is no folder, by name, packs apart; and the descriptor, open until the next is asked for."""

    path: bytes
    state: int
    why: Optional[str] = None
    names: Tuple[bytes, ...] = ()
    has_below: bool = False
    descriptor: int = -1
    packs: Tuple[bytes, ...] = ()
    identity: Optional[FolderIdentity] = None


class Hidden(NamedTuple):
    """Files that aren't met: those of the store, in its folder."""

    folder: Optional[Identity]
    names: FrozenSet[bytes]

    def has(self, folder: bytes, name: bytes) -> bool:
        """Whether it is one of them that has this name in a folder."""
        try:
            return name in self.names and _identity(os.stat(folder)) == self.folder
        except OSError:
            return False


NOTHING = Hidden(None, frozenset())


class _Above(NamedTuple):
    """The folders in which one stands."""

    identity: Identity
    above: Optional["_Above"]


def hidden(store: str) -> Hidden:
    """The files of a store."""
    path = os.path.realpath(os.fsencode(store))
    name = os.path.basename(path)
    names = frozenset(name + os.fsencode(ending) for ending in ("", *ENDINGS))
    try:
        return Hidden(_identity(os.stat(os.path.dirname(path))), names)
    except OSError:
        return Hidden(None, names)


def _identity(status: os.stat_result) -> Identity:
    return status.st_dev, status.st_ino


def walk(root: bytes, hides: Hidden) -> Iterator[Listing]:
    """The folder and those below it."""
    with OpenFolders() as folders:
        yield from _walk(root, hides, folders)


def _walk(root: bytes, hides: Hidden, folders: OpenFolders) -> Iterator[Listing]:
    stack: List[Tuple[bytes, Optional[_Above]]] = [(root, None)]
    while stack:
        path, above = stack.pop()
        try:
            descriptor = folders.opened(path, len(root))
        except OSError as error:
            yield _unread(path, error, above is None)
            continue
        try:
            here = _Above(_identity(os.fstat(descriptor)), above)
            if _holds_itself(here):
                yield Listing(path, UNREADABLE, "it is in itself")
                continue
            names, packs, below = _listed(descriptor, hides if here.identity == hides.folder else None)
            which = identity_of(descriptor, above is None)
            yield Listing(path, READ, None, tuple(names), bool(below), descriptor, tuple(packs), which)
            for each in reversed([join(path, name) for name in below]):
                if len(each) <= MAX_PATH:
                    stack.append((each, here))
                else:
                    yield Listing(each, UNREADABLE, LONG_PATH)
        except OSError as error:
            yield _unread(path, error, above is None)


def _listed(descriptor: int, hides: Optional[Hidden]) -> Tuple[List[bytes], List[bytes], List[bytes]]:
    """The names in a folder, those of the packs and those of the folders in it, sorted."""
    names: List[bytes] = []
    packs: List[bytes] = []
    below: List[bytes] = []
    with os.scandir(descriptor) as entries:
        for entry in entries:
            name = os.fsencode(entry.name)
            if _is_folder(entry):
                below.append(name)
            elif not hides or name not in hides.names:
                (packs if is_pack(name) and _is_file(entry) else names).append(name)
    for each in (names, packs, below):
        each.sort()
    return names, packs, below


def _is_folder(entry: "os.DirEntry[str]") -> bool:
    try:
        return entry.is_dir(follow_symlinks=False)
    except OSError:
        return False


def _is_file(entry: "os.DirEntry[str]") -> bool:
    try:
        return entry.is_file(follow_symlinks=False)
    except OSError:
        return False


def _holds_itself(here: _Above) -> bool:
    """Whether a folder stands in itself, as some file systems show it."""
    above = here.above
    while above:
        if above.identity == here.identity:
            return True
        above = above.above
    return False


def _unread(path: bytes, error: OSError, is_root: bool) -> Listing:
    if is_gone(error) and not is_root:
        return Listing(path, VANISHED, "it vanished while it was looked at")
    return Listing(path, UNREADABLE, reason(error))


# A pack as it was read, to its end or as far as it can be.
PACK = f"""SELECT size, mtime_ns, ctime_ns, inode, state, coalesce(why, '') FROM files WHERE folder = ? AND name = x''
    AND state IN ({READ}, {UNREADABLE})"""
# How many members it has, how many of these have to be asked about again, and how many couldn't be read.
MEMBERS = f"""SELECT count(*), total(NOT CASE f.state WHEN {READ} THEN coalesce({SETTLED}, 0)
    WHEN {TOO_LONG} THEN f.size > :most ELSE 1 END), total(f.state = {UNREADABLE})
    FROM files f LEFT JOIN pages p ON p.id = f.page
    WHERE f.folder = :folder AND f.name <> x'' AND f.state <> {GONE}"""
# The number of members of a pack that couldn't be read which are told one by one.
MAX_BROKEN = 20
UNREAD = f"""SELECT name, coalesce(why, '') FROM files WHERE folder = ? AND name <> x'' AND state = {UNREADABLE}
    ORDER BY name LIMIT {MAX_BROKEN}"""
BROKEN = f"""SELECT d.path, (SELECT count(*) FROM files f WHERE f.folder = d.id AND f.name <> x''
    AND f.state = {UNREADABLE}) FROM folders d WHERE d.id = ?"""


class KnownPack(NamedTuple):
    """A pack as it was read."""

    size: Optional[Count]
    mtime_ns: Optional[Number]
    ctime_ns: Optional[Number]
    inode: Optional[Count]
    state: FileState
    why: Text

    @property
    def marks(self) -> Tuple[Optional[int], ...]:
        """By what it is known again."""
        return self.size, self.mtime_ns, self.ctime_ns, self.inode


class UnreadMember(NamedTuple):
    """A member that couldn't be read, and why."""

    name: Name
    why: Text


class BrokenPack(NamedTuple):
    """A pack by its path, and how many of its members couldn't be read."""

    path: Path
    members: Count


class PackState(NamedTuple):
    """How many members a known pack has; and which of them couldn't be read, and why, with the pack itself.

    If there are more than `MAX_BROKEN`, these are the first, and that there are more.
    """

    members: int
    unread: List[UnreadMember]


def settled(connection: sqlite3.Connection, folder: int, marks: Optional[Marks],
            asked: Mapping[str, object], most: int) -> Optional[PackState]:
    """What is known of a pack with these marks; None where it has to be read.

    Its answers have to be on the terms that are asked for, with treatments and texts if these are, and of all members
    that have no more than `most` bytes.
    """
    pack = one(connection.execute(PACK, (folder,)).fetchone(), KnownPack)
    if pack is None or marks is None or pack.marks != marks:
        return None
    values: Dict[str, object] = {**asked, "most": most, "folder": folder}
    members, unsettled, unread = connection.execute(MEMBERS, values).fetchone()
    if unsettled:
        return None
    some = list(checked(connection.execute(UNREAD, (folder,)), UnreadMember)) if unread else []
    some += [UnreadMember(b"", pack.why)] if pack.state == UNREADABLE else []
    if unread > MAX_BROKEN:
        some.append(UnreadMember(b"", messages.MANY_UNREAD_MEMBERS.format(number=int(unread), most=MAX_BROKEN)))
    return PackState(members, some)


def broken(connection: sqlite3.Connection, folder: int) -> Tuple[bytes, str]:
    """A pack by its path, and how many of its members couldn't be read."""
    pack = next(checked(connection.execute(BROKEN, (folder,)), BrokenPack))
    return join(pack.path, b""), messages.MANY_UNREAD_MEMBERS.format(number=pack.members, most=MAX_BROKEN)


# The number of rows of the store that are looked at together.
ROWS = 1000
# The number of folders, or of known files, without any other, after which a chunk of nothing comes.
QUIET_FOLDERS, QUIET_FILES = 64, 1000
KNOWN = f"""SELECT f.name, f.state, f.size, f.mtime_ns, f.ctime_ns, f.inode, f.state = {READ} AND {SETTLED}
    FROM files f LEFT JOIN pages p ON p.id = f.page WHERE f.folder = :folder AND f.name > :last
    ORDER BY f.name LIMIT {ROWS}"""


class KnownFile(NamedTuple):
    """A file as the store knows it, and whether there is nothing left to ask about it."""

    name: Name
    state: FileState
    size: Optional[Count]
    mtime_ns: Optional[Number]
    ctime_ns: Optional[Number]
    inode: Optional[Count]
    settled: Optional[Flag]

    @property
    def marks(self) -> Tuple[Optional[int], ...]:
        """By what it is known again."""
        return self.size, self.mtime_ns, self.ctime_ns, self.inode


# Files of one folder that may have to be looked at, by its number, its path and which it is; now and then no name is
# ready yet.
Found = Tuple[int, bytes, Iterator[Optional[bytes]], Optional[FolderIdentity]]


class Scope(NamedTuple):
    """What is searched for: files of a part, if it isn't all, and members of packs of no more than `most` bytes.

    A chunk has at most a number of files, and of bytes of names.
    """

    retry: Retry
    hides: Hidden
    most: int
    part: Optional[Part]
    files: int
    names: int


class Search:
    """Searches roots. `known` counts files that needn't be looked at; `tell` is given folders and what is wrong."""

    def __init__(self, writer: Writer, scope: Scope, tell: Callable[[bytes, str], None]) -> None:
        self.writer, self.scope, self.tell = writer, scope, tell
        self.known = 0
        self.path = b""
        self.whole: List[bytes] = []

    def chunks(self, roots: Iterable[bytes]) -> Iterator[Chunk]:
        """The files that a worker has to look at; now and then none, while none is found."""
        held: List[FolderFiles] = []
        files = length = 0
        pairs = ((root, found) for root in roots for found in self._root(root))
        for number, (root, (folder, path, names, which)) in enumerate(pairs):
            length_of_root = root_length(path, (root,))
            for some in _cut(names, self.scope):
                folder_files = FolderFiles(folder, path, some, which, length_of_root)
                if not some or pack_of(path) is not None:
                    yield (folder_files,) if some else ()
                    continue
                held.append(folder_files)
                files += len(some)
                length += len(path) + sum(map(len, some))
                if files >= self.scope.files or length >= self.scope.names:
                    yield tuple(held)
                    held, files, length = [], 0, 0
            if number % QUIET_FOLDERS == 0:
                yield ()
        if held:
            yield tuple(held)

    def _root(self, root: bytes) -> Iterator[Found]:
        if is_pack(root) and not os.path.isdir(root):
            yield from self._named_pack(root)
            return
        if os.path.isfile(root) and not self.writer.has_below(root):
            yield from self._named_file(root)
            return
        why: Optional[str] = None
        for listing in walk(root, self.scope.hides):
            self.path = listing.path
            is_root = listing.path == root
            if is_root:
                why = listing.why or self._emptied(listing)
                self.writer.root(root, why)
            fault = why if is_root else listing.why
            if fault and (is_root or listing.state == UNREADABLE):
                self.tell(listing.path, fault)
            if self.scope.part:
                listing = listing._replace(names=self.scope.part.names(below(root, listing.path), listing.names))
            folder, was_known = self.writer.folder(listing.path, listing.state, listing.why)
            if listing.state == READ and not (is_root and why):
                names = self._unknown(folder, listing) if was_known else iter(listing.names)
                yield folder, listing.path, names, listing.identity
                yield from self._packs(root, listing)
        if why is None:
            self.whole.append(root)

    def _named_pack(self, root: bytes) -> Iterator[Found]:
        """A pack that was named. It may be a link."""
        why: Optional[str] = None
        try:
            if not stat.S_ISREG(os.stat(root).st_mode):
                why = NO_FILE
        except OSError as error:
            why = reason(error)
        self.writer.root(root, why)
        if why is not None:
            self.tell(root, why)
        elif self.scope.part is None or self.scope.part.takes(b""):
            yield self._pack(root, root)

    def _named_file(self, root: bytes) -> Iterator[Found]:
        """A file that was named, by itself: nothing is said of what stands beside it. It may be a link."""
        self.path = root
        self.writer.root(root)
        self.writer.is_no_folder(root)
        folder, name = os.path.split(os.path.realpath(root))
        if (self.scope.part is None or self.scope.part.takes(b"")) and not self.scope.hides.has(folder, name):
            yield self.writer.folder_of(folder), folder, iter((name,)), _identity_at(folder)

    def _packs(self, root: bytes, listing: Listing) -> Iterator[Found]:
        """The packs in a folder."""
        for name in listing.packs:
            path = join(listing.path, name)
            if self.scope.part is None or self.scope.part.takes(below(root, path)):
                yield self._pack(path, name, listing)

    def _pack(self, path: bytes, name: bytes, listing: Optional[Listing] = None) -> Found:
        """A pack, which has to be read as a whole, or is known so. What couldn't be read in it is told again then."""
        descriptor, which = (listing.descriptor, listing.identity) if listing else (None, None)
        self.path = path
        folder, was_known = self.writer.folder(inside(path), READ, None)
        known: Optional[PackState] = None
        if was_known and not self.scope.retry.again:
            known = settled(self.writer.connection, folder, self._marks(name, descriptor), self._asked, self.scope.most)
        if known is None:
            return folder, inside(path), iter((b"",)), which
        self.known += known.members
        for member, why in known.unread:
            self.tell(join(inside(path), member), why)
        return folder, inside(path), iter(()), which

    @property
    def _asked(self) -> Dict[str, object]:
        """The parameters of SETTLED."""
        return {"terms": self.writer.terms, "cures": self.scope.retry.cures, "words": self.scope.retry.words}

    def _marks(self, name: bytes, descriptor: Optional[int]) -> Optional[Marks]:
        """The marks of a pack by its name in a folder; without one, a link is followed, since one may be named."""
        try:
            return marks(os.stat(name, dir_fd=descriptor, follow_symlinks=descriptor is None))
        except OSError:
            return None

    def _emptied(self, listing: Listing) -> Optional[str]:
        """What is told of a root that is empty, as a disk that isn't mounted is."""
        empty = not listing.names and not listing.packs and not listing.has_below
        return messages.EMPTY_ROOT if empty and self.writer.has_below(listing.path) else None

    def _unknown(self, folder: int, listing: Listing) -> Iterator[Optional[bytes]]:
        """The names in a folder that has to be looked at, and now and then none. Those that aren't there are noted."""
        rows = _rows(self.writer.connection, folder, self._asked)
        row = next(rows, None)
        for name in listing.names:
            while row and row.name < name:
                self._miss(folder, row)
                row = next(rows, None)
            if row is None or row.name != name:
                yield name
                continue
            if not self.scope.retry.again and row.settled and self._is_as_it_was(row, listing.descriptor):
                self.known += 1
                if self.known % QUIET_FILES == 0:
                    yield None
            else:
                yield name
            row = next(rows, None)
        while row:
            self._miss(folder, row)
            row = next(rows, None)

    def _miss(self, folder: int, row: KnownFile) -> None:
        if row.state != GONE:
            self.writer.is_gone(folder, row.name)

    def _is_as_it_was(self, row: KnownFile, descriptor: int) -> bool:
        try:
            return marks(os.stat(row.name, dir_fd=descriptor, follow_symlinks=False)) == row.marks
        except OSError:
            return False


def _identity_at(path: bytes) -> Optional[FolderIdentity]:
    """Which folder this path leads to; none where it can't be opened, as the worker will find."""
    try:
        descriptor = opened(path)
    except OSError:
        return None
    try:
        return identity_of(descriptor, False)
    finally:
        os.close(descriptor)


def _rows(connection: sqlite3.Connection, folder: int, asked: Mapping[str, object]) -> Iterator[KnownFile]:
    """What the store knows of a folder's files, in the order of their names."""
    last = b""
    while True:
        some = list(checked(connection.execute(KNOWN, {**asked, "folder": folder, "last": last}), KnownFile))
        yield from some
        if len(some) < ROWS:
            return
        last = some[-1].name


def _cut(names: Iterator[Optional[bytes]], scope: Scope) -> Iterator[Tuple[bytes, ...]]:
    """The names in parts that aren't too large for a chunk; an empty part where there is none for now."""
    part: List[bytes] = []
    length = 0
    for name in names:
        if name is None:
            yield ()
            continue
        part.append(name)
        length += len(name)
        if len(part) >= scope.files or length >= scope.names:
            yield tuple(part)
            part, length = [], 0
    if part:
        yield tuple(part)


def apart(roots: Iterable[bytes]) -> List[bytes]:
    """The roots without those that stand in others, in their order."""
    some = list(dict.fromkeys(roots))
    return [root for root in some if not any(root != other and is_within(root, other) for other in some)]
