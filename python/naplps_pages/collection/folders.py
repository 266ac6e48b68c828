"""Folders by their descriptors, since paths may be longer than the system takes at once; and where pages are."""
import errno
import os
from collections import OrderedDict
from types import TracebackType
from typing import Iterable, Iterator, List, NamedTuple, Optional, Type

from ..packs import pack_of

FLAGS = os.O_RDONLY | os.O_DIRECTORY | os.O_CLOEXEC | os.O_NOCTTY
# Bytes of a path that are given to the system at once.
PIECE = 2048
# The number of folders that are open at a time on the way through a tree.
MOST_OPEN = 32


def absolute(name: str) -> bytes:
    """The path of a folder, from the top. Raises OSError where there is no current folder."""
    return os.path.abspath(os.fsencode(name))


def join(folder: bytes, name: bytes) -> bytes:
    """The path of what has this name in a folder, or in a pack, with '!' between; of the pack itself without a name."""
    if pack_of(folder) is not None:
        return folder[:-1] + name if name else folder[:-2]
    return folder + name if folder.endswith(b"/") else folder + b"/" + name


def is_within(path: bytes, folder: bytes) -> bool:
    """Whether the path is the folder's, or leads into it."""
    return path == folder or path.startswith(folder if folder.endswith(b"/") else folder + b"/")


def opened(path: bytes, follow: bool = False) -> int:
    """A descriptor of the folder. A link in place of it is followed only where that is said. Raises OSError."""
    flags = FLAGS if follow else FLAGS | os.O_NOFOLLOW
    if len(path) <= PIECE:
        return os.open(path, flags)
    *first, last = _pieces(path)
    at: Optional[int] = None
    try:
        for piece in first:
            below = os.open(piece, FLAGS, dir_fd=at)
            if at is not None:
                os.close(at)
            at = below
        return os.open(last, flags, dir_fd=at)
    finally:
        if at is not None:
            os.close(at)


class FolderIdentity(NamedTuple):
    """Which folder a path led to: whether it was named, so that it may be a link; its device and its number there; and
    whether a file system begins at it.
    """

    is_root: bool
    device: int
    inode: int
    is_mount: bool


class Replaced(Exception):
    """Another folder, or something else, has the path of one that was met."""


def identity_of(descriptor: int, is_root: bool) -> FolderIdentity:
    """Which folder is open."""
    status = os.fstat(descriptor)
    try:
        is_mount = os.stat("..", dir_fd=descriptor).st_dev != status.st_dev
    except OSError:  # (as where what is above it mayn't be looked at)
        is_mount = False
    return FolderIdentity(is_root, status.st_dev, status.st_ino, is_mount)


def root_length(path: bytes, roots: Iterable[bytes]) -> int:
    """How many bytes of a path are those of the named folder that it is in; 0 where it is in none of these."""
    return max((len(root) for root in roots if is_within(path, root)), default=0)


class OpenFolders:
    """Opens folders below those that were named, each by its name in the open folder above it, so that no link and no
    folder that is exchanged meanwhile leads out of what was named. The last ones stay open, for those in them.
    """

    def __init__(self) -> None:
        self.descriptors: "OrderedDict[bytes, int]" = OrderedDict()

    def __enter__(self) -> "OpenFolders":
        return self

    def __exit__(self, kind: Optional[Type[BaseException]], error: Optional[BaseException],
                 trace: Optional[TracebackType]) -> None:
        while self.descriptors:
            self._close_oldest()

    def opened(self, path: bytes, root: int) -> int:
        """The descriptor of a folder, open until the next is asked for. Raises OSError.

        So many bytes of its path are those of a named folder, which alone may be a link; where it is below none, it has
        0, and isn't opened through a link itself.
        """
        names: List[bytes] = []
        while len(path) > root > 0 and path not in self.descriptors:
            path, name = os.path.split(path)
            names.append(name)
        if path not in self.descriptors:
            self._keep(path, opened(path, follow=root > 0))
        self.descriptors.move_to_end(path)
        descriptor = self.descriptors[path]
        for name in reversed(names):
            path = join(path, name)
            descriptor = self._keep(path, _below(descriptor, name))
        return descriptor

    def opened_again(self, path: bytes, root: int, identity: Optional[FolderIdentity], elsewhere: bool = False) -> int:
        """The same for a folder that was met before. Raises OSError, or Replaced where it isn't that any more.

        Elsewhere, on another machine, devices have other numbers.
        """
        try:
            descriptor = self.opened(path, root)
        except OSError as error:
            if identity and error.errno in (errno.ELOOP, errno.ENOTDIR):
                raise Replaced from None
            raise
        if identity:
            now = identity_of(descriptor, identity.is_root)
            if now != (identity._replace(device=now.device) if elsewhere else identity):
                raise Replaced
        return descriptor

    def _keep(self, path: bytes, descriptor: int) -> int:
        self.descriptors[path] = descriptor
        if len(self.descriptors) > MOST_OPEN:
            self._close_oldest()
        return descriptor

    def _close_oldest(self) -> None:
        os.close(self.descriptors.popitem(last=False)[1])


def _below(descriptor: int, name: bytes) -> int:
    """A descriptor of the folder of this name in an open one. Raises OSError."""
    if name == b"..":  # (as a path of a forged store may have it)
        raise OSError(errno.ENOENT, os.strerror(errno.ENOENT))
    return os.open(name, FLAGS | os.O_NOFOLLOW, dir_fd=descriptor)


def _pieces(path: bytes) -> Iterator[bytes]:
    """The path cut into paths that are short enough, each relative to the one before."""
    _, first, *names = path.split(b"/")
    piece = b"/" + first
    for name in names:
        if len(piece) + 1 + len(name) > PIECE:
            yield piece
            piece = name
        else:
            piece += b"/" + name
    yield piece


def reason(error: OSError) -> str:
    """The system's reason, in its words."""
    return os.strerror(error.errno) if error.errno else str(error)


def is_gone(error: OSError) -> bool:
    """Whether there is nothing of that name any more."""
    return error.errno in (errno.ENOENT, errno.ENOTDIR)


class Place(NamedTuple):
    """A file, by its folder and its name, and how long it was; or a member of a pack, and where it began there."""

    folder: bytes
    name: bytes
    at: Optional[int] = None

    @property
    def path(self) -> str:
        """Its path."""
        return os.fsdecode(join(self.folder, self.name))
