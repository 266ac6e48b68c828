"""Packs as they are opened, and members that are read again."""
import os
import stat
from collections import OrderedDict
from dataclasses import dataclass
from typing import IO, Dict, List, Optional, Tuple, Union

from naplps.limits import MOST_PAGE

from .. import messages
from ..collection.folders import FolderIdentity, OpenFolders, opened, reason
from ..collection.tables import NOT_A_FILE, READ
from . import ZIP, Damage, Member, PackLimits
from .tars import Tar
from .zips import Zip

Pack = Union[Tar, Zip]
FLAGS = os.O_RDONLY | os.O_NONBLOCK | os.O_CLOEXEC | os.O_NOCTTY
BUFFER = 1 << 16
# The number of packs that are held open.
MOST_OPEN = 4


def open_file(path: bytes, root: int = 0, identity: Optional[FolderIdentity] = None,
              elsewhere: bool = False) -> IO[bytes]:
    """The file of a pack at this path, from the top. Raises OSError.

    A link in place of it is followed, but not where it was met in this folder, or below a named one, which so many
    bytes of its path are. Then Replaced is raised if that is another folder now.
    """
    folder, name = os.path.split(path)
    if identity or root:
        with OpenFolders() as folders:
            descriptor = _opened_file(name, folders.opened_again(folder, root, identity, elsewhere), follow=False)
    else:
        at = opened(folder, follow=True)
        try:
            descriptor = _opened_file(name, at, follow=True)
        finally:
            os.close(at)
    if not stat.S_ISREG(os.fstat(descriptor).st_mode):
        os.close(descriptor)
        raise OSError(messages.NOT_REGULAR)
    return open(descriptor, "rb", buffering=BUFFER)


def _opened_file(name: bytes, at: int, follow: bool) -> int:
    """A descriptor of the regular file of this name in an open folder. Raises OSError."""
    if not stat.S_ISREG(os.stat(name, dir_fd=at, follow_symlinks=follow).st_mode):
        raise OSError(messages.NOT_REGULAR)  # (to open a device might do something)
    return os.open(name, FLAGS if follow else FLAGS | os.O_NOFOLLOW, dir_fd=at)


def open_pack(file: IO[bytes], path: bytes, limits: PackLimits, goes_back: bool = False) -> Pack:
    """The pack in a file; one that goes back reads members in any order. Raises OSError."""
    return Zip(file, limits) if path.lower().endswith(ZIP) else Tar(file, limits, goes_back)


class NoMember(Exception):
    """There is no such member to be read, with the reason."""


@dataclass
class _Held:
    """A pack that is open, by what its file was known as, and where its members begin, once that was looked for.

    In place of where a member begins stands why it can't be read, if it has no place of its own.
    """

    marks: Tuple[int, ...]
    file: IO[bytes]
    pack: Pack
    places: Optional[Dict[bytes, Union[int, str]]] = None

    def place(self, name: bytes) -> int:
        """Where the member of this name begins. Raises NoMember."""
        if self.places is None:
            self.places = {}
            for member in self.pack.members(reads=False):
                if member.name in self.places:
                    self.places[member.name] = messages.SEVERAL_OF_NAME
                else:
                    self.places[member.name] = (member.why or messages.NO_MEMBER) if member.at is None else member.at
        if name not in self.places:
            raise NoMember(self.pack.why or messages.NO_MEMBER)
        place = self.places[name]
        if isinstance(place, str):
            raise NoMember(place)
        return place

    def member(self, name: bytes, at: int) -> Optional[Member]:
        """The member of this name that begins at this place."""
        try:
            member = self.pack.member_at(at)
        except Damage:
            return None
        return member if member and member.name == name else None


class Packs:
    """Packs of which members with no more than `most` bytes are read. A few packs are held open."""

    def __init__(self, most: int) -> None:
        self.limits = PackLimits(most)
        self.held: "OrderedDict[bytes, _Held]" = OrderedDict()

    def read(self, path: bytes, name: bytes, at: Optional[int] = None) -> bytes:
        """The bytes of a member, which began at this place when it was scanned. Raises NoMember."""
        try:
            held = self._held(path)
            member = held.member(name, at) if at is not None else None
            if member is None or member.state != READ:
                member = held.member(name, held.place(name))
        except OSError as error:
            raise NoMember(reason(error)) from None
        if member is None or member.data is None:
            raise NoMember(member.why or messages.NO_MEMBER if member else messages.NO_MEMBER)
        return member.data

    def names(self, path: bytes) -> List[bytes]:
        """The names of the members that are files. Raises NoMember."""
        try:
            pack = self._held(path).pack
            found = [member.name for member in pack.members(reads=False) if member.state != NOT_A_FILE]
        except OSError as error:
            raise NoMember(reason(error)) from None
        if not found and pack.why:
            raise NoMember(pack.why)
        return found

    def _held(self, path: bytes) -> _Held:
        """The pack at this path as it is now."""
        held = self.held.pop(path, None)
        file = open_file(path)
        marks = _marks(os.fstat(file.fileno()))
        if held and held.marks == marks:
            file.close()
        else:
            if held:
                held.file.close()
            held = _Held(marks, file, open_pack(file, path, self.limits, goes_back=True))
        self.held[path] = held
        while len(self.held) > MOST_OPEN:
            self.held.popitem(last=False)[1].file.close()
        return held


def _marks(status: os.stat_result) -> Tuple[int, ...]:
    return status.st_dev, status.st_ino, status.st_size, status.st_mtime_ns, status.st_ctime_ns


# Those of which pages are read.
PACKS = Packs(MOST_PAGE)
