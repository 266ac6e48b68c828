"""One page: a file, standard input, or a pipe that has a name and is waited for so long, and no longer."""
import errno
import os
import select
import stat
import sys
import time
from types import TracebackType
from typing import IO, List, NamedTuple, Optional, Type, cast

from naplps.limits import MOST_PAGE

from . import messages
from .console import FAILED


class Late(OSError):
    """It didn't end in time."""


class Pipe:
    """Reads a pipe until all who write to it have closed it, for a number of seconds. Raises OSError."""

    def __init__(self, name: str, seconds: float) -> None:
        self.seconds, self.end = seconds, time.monotonic() + seconds
        # (without O_NONBLOCK this would wait for somebody who writes)
        self.descriptor = os.open(name, os.O_RDONLY | os.O_NONBLOCK | os.O_CLOEXEC | os.O_NOCTTY)
        self.poll = select.poll()
        self.poll.register(self.descriptor, select.POLLIN)

    def __enter__(self) -> "Pipe":
        return self

    def __exit__(self, kind: Optional[Type[BaseException]], error: Optional[BaseException],
                 trace: Optional[TracebackType]) -> None:
        os.close(self.descriptor)

    def read(self, most: int) -> bytes:
        """Some bytes, and nothing at the end. Raises Late."""
        while True:
            left = self.end - time.monotonic()
            ready = self.poll.poll(max(0, left) * 1000)
            if not ready or left <= 0:
                raise Late(messages.LATE_PIPE.format(seconds=self.seconds))
            try:
                return os.read(self.descriptor, most)
            except BlockingIOError:
                continue

    def seekable(self) -> bool:
        """As of files."""
        return False


PIECE = 1 << 20
# So much of a pipe is put into a temporary file: what the program takes at most.
MOST_SPOOLED = 1 << 32
DEVICES = {stat.S_IFCHR: messages.IS_DEVICE, stat.S_IFBLK: messages.IS_DEVICE, stat.S_IFSOCK: messages.IS_SOCKET}
# (a name in a pack may be longer than one of a file)
NO_SUCH_FILE = (errno.ENOENT, errno.ENOTDIR, errno.ENAMETOOLONG)


class Page(NamedTuple):
    """The bytes of a page; or, of a page that is longer than MOST_PAGE, the file that has them."""

    name: str
    data: Optional[bytes]
    file: Optional[IO[bytes]] = None

    def close(self) -> None:
        """Closes the file of a long page."""
        if self.file:
            self.file.close()


def is_store(page: Page) -> bool:
    """Whether the bytes are those of a store of this tool."""
    from .collection.store_files import HEADER, MAGIC, begins_store  # (what few need, the others don't wait for)
    if page.data is not None:
        return page.data.startswith(MAGIC) and begins_store(page.data)
    assert page.file
    header = page.file.read(HEADER)
    page.file.seek(0)
    return begins_store(header)


class Unread(Exception):
    """The page can't be read, with the system's reason; or it isn't the page that was scanned, which has a status."""

    def __init__(self, reason: str, status: int = FAILED) -> None:
        super().__init__(reason)
        self.status = status


def read(name: str, seconds: float) -> Page:
    """Reads the page of this name, '-' for standard input, 'PACK!MEMBER' for a member of a pack. Raises Unread.

    A pipe that has a name is waited for a number of seconds. Others are waited for as other filters do.
    """
    try:
        if name == "-":
            if sys.stdin is None:
                raise OSError(errno.EBADF, os.strerror(errno.EBADF))
            return _gathered(name, sys.stdin.buffer)
        kind = stat.S_IFMT(os.stat(name).st_mode)
        if kind == stat.S_IFDIR:
            raise Unread(messages.IS_FOLDER)
        if kind in DEVICES:
            raise Unread(DEVICES[kind])  # (to open it might do something, and some have no end)
        if kind == stat.S_IFIFO and not _is_unnamed(name):
            with Pipe(name, seconds) as pipe:
                return _gathered(name, cast(IO[bytes], pipe))
        with open(name, "rb", buffering=0) as file:
            return _gathered(name, file)
    except OSError as error:
        member = _member(name) if error.errno in NO_SUCH_FILE else None
        if member:
            return member
        raise Unread(error.strerror or str(error)) from None
    except ValueError as error:  # a name with NUL
        raise Unread(str(error)) from None


def _is_unnamed(name: str) -> bool:
    """Whether the name, as /dev/fd/63, is that of a pipe which was handed to this process."""
    ours = os.pipe()
    try:
        return os.stat(name).st_dev == os.fstat(ours[0]).st_dev
    finally:
        for each in ours:
            os.close(each)


def _member(name: str) -> Optional[Page]:
    """The member of a pack, where the name begins with a pack that is there. Raises Unread."""
    from .packs import BETWEEN, is_pack
    at = name.find(BETWEEN)
    while at >= 0:
        pack = os.path.abspath(os.fsencode(name[:at]))
        if is_pack(pack) and os.path.isfile(pack):
            from .packs.reading import PACKS, NoMember
            try:
                return Page(name, PACKS.read(pack, os.fsencode(name[at + 1:])))
            except NoMember as error:
                raise Unread(str(error)) from None
        at = name.find(BETWEEN, at + 1)
    return None


def _gathered(name: str, file: IO[bytes]) -> Page:
    pieces: List[bytes] = []
    length = 0
    while length <= MOST_PAGE:
        piece = file.read(PIECE)
        if not piece:
            return Page(name, b"".join(pieces))
        pieces.append(piece)
        length += len(piece)
    return Page(name, None, _kept(b"".join(pieces), file))


def _kept(first: bytes, file: IO[bytes]) -> IO[bytes]:
    """A file of the whole page, at its start: the file itself where it can go back, else a copy."""
    if file.seekable():
        copy: IO[bytes] = open(os.dup(file.fileno()), "rb", buffering=0)
        copy.seek(-len(first), os.SEEK_CUR)
        return copy
    import tempfile  # (which takes long to be imported, and few need)
    spool = tempfile.TemporaryFile()
    length = spool.write(first)
    for piece in iter(lambda: file.read(PIECE), b""):
        length += spool.write(piece)
        if length > MOST_SPOOLED:
            spool.close()
            raise Unread(messages.LONG_PIPE.format(most=MOST_SPOOLED))
    spool.seek(0)
    return spool
