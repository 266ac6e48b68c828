"""Looks at files, safely, and at packs: no link is followed, nothing is waited for, and what changes meanwhile is told.

The bytes of a page are read again where they still are those that were scanned.
"""
import hashlib
import os
import stat
import time
from typing import IO, Callable, Iterator, List, NamedTuple, Optional, Tuple

from naplps.limits import MOST_PAGE

from .. import messages
from ..packs import Member, PackLimits, pack_of
from ..packs.reading import PACKS, NoMember, open_file, open_pack
from ..source import Page
from .folders import Place, Replaced, is_gone, opened, reason
from .protocol import FolderFiles
from .tables import CHANGED, MAX_NUMBER, NOT_A_FILE, READ, TOO_LONG, UNREADABLE, VANISHED, File, hashed

FLAGS = os.O_RDONLY | os.O_NOFOLLOW | os.O_NONBLOCK | os.O_CLOEXEC | os.O_NOCTTY
PIECE = 1 << 20
# How long the clock of a file system may stand: a change within that time can't be seen by its times.
FRESH = 20_000_000
KINDS = {stat.S_IFLNK: "a symbolic link", stat.S_IFDIR: "a folder", stat.S_IFIFO: "a fifo", stat.S_IFSOCK: "a socket",
         stat.S_IFCHR: "a device", stat.S_IFBLK: "a device"}
# The size, the times and the number of a file.
Marks = Tuple[int, int, int, int]
GREW = "it grew while it was read"
OTHER = "it changed while it was read"


class Seen(NamedTuple):
    """A file and its bytes; of a page that isn't held, the descriptor from which they can be read again."""

    file: File
    data: Optional[bytes] = None
    descriptor: Optional[int] = None


def look(folder: int, at: int, name: bytes, most: int, held: int, beat: Callable[[], None] = lambda: None) -> Seen:
    """Looks at the file of this name in the folder `at`, whose number in the store is `folder`.

    It is read if it has no more than `most` bytes, and its bytes are held if they are no more than `held`. `beat` is
    called before each piece.
    """
    now = time.time_ns()
    try:
        before = os.stat(name, dir_fd=at, follow_symlinks=False)
    except OSError as error:
        return Seen(_unread(folder, name, error))
    kind = stat.S_IFMT(before.st_mode)
    if kind != stat.S_IFREG:
        return Seen(File(folder, name, NOT_A_FILE, KINDS.get(kind, "of another kind")))
    if before.st_size > most:
        return Seen(with_marks(before, File(folder, name, TOO_LONG, f"{before.st_size} bytes"), now))
    try:
        descriptor = os.open(name, FLAGS, dir_fd=at)
    except OSError as error:
        return Seen(_unread(folder, name, error, before))
    kept = False
    try:
        short = before.st_size < PIECE and before.st_size <= held
        seen = _read_at_once(folder, name, descriptor, before, now, beat) if short else None
        seen = seen or _read(File(folder, name, READ), descriptor, before, held, now, beat)
        kept = seen.descriptor is not None
        return seen
    except OSError as error:
        return Seen(_unread(folder, name, error, before))
    finally:
        if not kept:
            os.close(descriptor)


def _read_at_once(folder: int, name: bytes, descriptor: int, before: os.stat_result, now: int,
                  beat: Callable[[], None]) -> Optional[Seen]:
    """A short file by one read; nothing where it isn't as it was or hasn't come whole, and is read from its start."""
    beat()
    data = os.read(descriptor, before.st_size + 1)
    if len(data) != before.st_size or change(before, os.fstat(descriptor)):
        os.lseek(descriptor, 0, os.SEEK_SET)
        return None
    size, mtime_ns, ctime_ns, inode = marks(before)
    return Seen(File(folder, name, READ, None, size, mtime_ns, ctime_ns if ctime_ns < now - FRESH else None, inode,
                     hashlib.sha256(data).digest()), data)


def _read(file: File, descriptor: int, before: os.stat_result, held: int, now: int, beat: Callable[[], None]) -> Seen:
    pieces: List[bytes] = []
    hashed = hashlib.sha256()
    length = 0
    while length <= before.st_size:
        beat()
        piece = os.read(descriptor, min(PIECE, before.st_size + 1 - length))
        if not piece:
            break
        length += len(piece)
        hashed.update(piece)
        if before.st_size <= held:
            pieces.append(piece)
    changed = change(before, os.fstat(descriptor)) or (OTHER if length != before.st_size else None)
    if changed:
        return Seen(file._replace(state=CHANGED, why=changed))
    whole = with_marks(before, file, now)._replace(own=hashed.digest())
    return Seen(whole, b"".join(pieces)) if before.st_size <= held else Seen(whole, None, descriptor)


def change(before: os.stat_result, after: os.stat_result) -> Optional[str]:
    """How a file differs from before: another one, or changed; None if it is the same."""
    if (before.st_dev, before.st_ino) == (after.st_dev, after.st_ino) and after.st_size > before.st_size:
        return GREW
    same = (before.st_mtime_ns == after.st_mtime_ns and before.st_ctime_ns == after.st_ctime_ns
            and before.st_size == after.st_size and before.st_ino == after.st_ino and before.st_dev == after.st_dev)
    return None if same else OTHER


def with_marks(before: os.stat_result, file: File, now: int) -> File:
    """The file with its size and its times: none where it is so fresh that a change mightn't show."""
    size, mtime_ns, ctime_ns, inode = marks(before)
    return file._replace(size=size, mtime_ns=mtime_ns, ctime_ns=ctime_ns if ctime_ns < now - FRESH else None,
                         inode=inode)


def marks(status: os.stat_result) -> Marks:
    """The size, the times and the number of a file, by which it is known again."""
    return status.st_size, _kept(status.st_mtime_ns), _kept(status.st_ctime_ns), _kept(status.st_ino)


def _kept(number: int) -> int:
    """The number as it is kept: that of a file may have a bit more, and far times too."""
    return number if -MAX_NUMBER <= number <= MAX_NUMBER else number & MAX_NUMBER


def _unread(folder: int, name: bytes, error: OSError, before: Optional[os.stat_result] = None) -> File:
    """A file that can't be read."""
    if is_gone(error):
        return File(folder, name, VANISHED, "it vanished while it was looked at")
    size = before.st_size if before else None
    return File(folder, name, UNREADABLE, reason(error), size)


REPLACED = "another folder took the place of its own while it was scanned"


class _From(NamedTuple):
    """From where on a pack is read; when that began, and which marks it had then; and what is wrong with it so far."""

    at: int
    began: int
    marks: Marks
    why: Optional[str] = None

    @property
    def encoded(self) -> bytes:
        """This as a name in a chunk."""
        return b"%d %d %d %d %d %d " % (self.at, self.began, *self.marks) + (self.why or "").encode("utf-8")


def _from(encoded: bytes) -> Optional[_From]:
    """The same again; nothing where a pack is read from its start."""
    if not encoded:
        return None
    *numbers, why = encoded.split(b" ", 6)
    at, began, size, mtime_ns, ctime_ns, inode = map(int, numbers)
    return _From(at, began, (size, mtime_ns, ctime_ns, inode), why.decode("utf-8") or None)


class PackScan:
    """One reading of a pack, or of a number of its members.

    After the members `own` is the row of the pack itself; but where more are left, `left` says so in place of it.
    """

    def __init__(self, names: FolderFiles, limits: PackLimits, members: Optional[int] = None,
                 elsewhere: bool = False) -> None:
        self.folder, path, (encoded,), self.identity, self.root = names
        self.path, self.elsewhere = pack_of(path) or b"", elsewhere
        self.limits, self.most_members, self.start = limits, members, _from(encoded)
        self.own = File(self.folder, b"", READ)
        self.left: Optional[bytes] = None

    def members(self) -> Iterator[Seen]:
        """The members, as files."""
        try:
            with open_file(self.path, self.root, self.identity, self.elsewhere) as file:
                yield from self._members(file)
        except Replaced:
            self.own, self.left = File(self.folder, b"", CHANGED, REPLACED), None
        except OSError as error:
            state, why = VANISHED, "it vanished while it was looked at"
            if not is_gone(error):
                state, why = UNREADABLE, reason(error)
            self.own, self.left = File(self.folder, b"", state, why), None

    def _members(self, file: IO[bytes]) -> Iterator[Seen]:
        before = os.fstat(file.fileno())
        start = self.start or _From(0, time.time_ns(), marks(before))
        if start.marks != marks(before):
            self.own = self.own._replace(state=CHANGED, why=OTHER)
            return
        pack = open_pack(file, self.path, self.limits)
        for number, member in enumerate(pack.members(start.at), 1):
            yield self._seen(member)
            if number == self.most_members:
                self.left = start._replace(at=pack.next, why=start.why or pack.why).encoded
                return
        changed = change(before, os.fstat(file.fileno()))
        if changed:
            self.own = self.own._replace(state=CHANGED, why=changed)
        else:
            why = start.why or pack.why
            state = UNREADABLE if why else READ
            self.own = with_marks(before, self.own._replace(state=state, why=why), start.began)

    def _seen(self, member: Member) -> Seen:
        own = None if member.data is None else hashed(member.data)
        return Seen(File(self.folder, member.name, member.state, member.why, member.size, None, None, member.at, own),
                    member.data)




class Otherwise(Exception):
    """The file can't be read, or isn't the page any more, with the reason."""


def read(place: Place, own: bytes) -> Page:
    """The page at the place, whose bytes have this hash. Raises Otherwise."""
    pack = pack_of(place.folder)
    if pack is not None:
        return _member(pack, place, own)
    try:
        at = opened(place.folder, follow=True)
    except OSError as error:
        raise Otherwise(reason(error)) from None
    try:
        seen = look(0, at, place.name, place.at or 0, MOST_PAGE)  # (nothing is read of one that is longer now)
    finally:
        os.close(at)
    file: Optional[IO[bytes]] = None
    if seen.descriptor is not None:
        file = open(seen.descriptor, "rb", buffering=0)
    if seen.file.state != READ or seen.file.own != own:
        if file:
            file.close()
        why = None if seen.file.state in (READ, TOO_LONG) else seen.file.why
        raise Otherwise(why or messages.NOT_AS_SCANNED)
    return Page(place.path, seen.data, file)


def _member(pack: bytes, place: Place, own: bytes) -> Page:
    """The page in a pack, whose bytes have this hash. Raises Otherwise."""
    try:
        data = PACKS.read(pack, place.name, place.at)
    except NoMember as error:
        raise Otherwise(str(error)) from None
    if hashed(data) != own:
        raise Otherwise(messages.NOT_AS_SCANNED)
    return Page(place.path, data)
