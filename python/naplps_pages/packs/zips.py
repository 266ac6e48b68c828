"""Zip files. Their directory is read as a whole, and so can't be of any length."""
import errno
import os
import stat
import struct
import zipfile
import zlib
from typing import IO, Dict, Iterator, List, Optional, Set, cast

from .. import messages
from ..collection.tables import READ, UNREADABLE
from . import Member, PackLimits, named, other, passed_over, taken

# The greatest number of bytes of a directory: some 400,000 members.
MOST_DIRECTORY = 32 << 20
ENCRYPTED, UTF_8 = 1, 1 << 11
MOST_SAID = 200
# What is wrong with a file is said by these alone, and in part by some versions of Python only.
ZIP_FAULTS = (zipfile.BadZipFile, zipfile.LargeZipFile, NotImplementedError)
UNSAID = ("Bad offset for central directory",)
# What stands before the bytes of a member: its mark, the length of what has no name, and where two lengths are in that.
LOCAL, LOCAL_LENGTH, LENGTHS = b"PK\3\4", 30, struct.Struct("<26xHH")
# What zipfile raises over directories and members that are made up.
FAULTS = (zipfile.BadZipFile, zipfile.LargeZipFile, NotImplementedError, RuntimeError, ValueError, LookupError,
          ArithmeticError, TypeError, EOFError, struct.error, zlib.error)
KINDS = {stat.S_IFLNK: "a symbolic link", stat.S_IFIFO: "a fifo", stat.S_IFSOCK: "a socket", stat.S_IFCHR: "a device",
         stat.S_IFBLK: "a device"}


class _Directory:
    """A file of which as much is read at once as a directory may have."""

    def __init__(self, file: IO[bytes], limits: PackLimits) -> None:
        self.file, self.limits = file, limits
        self.seekable, self.seek, self.tell = file.seekable, file.seek, file.tell

    def read(self, most: int = -1) -> bytes:
        """As of files."""
        self.limits.beat()
        if most > MOST_DIRECTORY:
            raise zipfile.BadZipFile(messages.LONG_DIRECTORY.format(most=MOST_DIRECTORY))
        return self.file.read(most if most >= 0 else MOST_DIRECTORY)


class Zip:
    """A zip file. After its members `why` says what is wrong with it as a whole, if something is."""

    def __init__(self, file: IO[bytes], limits: PackLimits) -> None:
        self.limits = limits
        self.why: Optional[str] = None
        self.zip: Optional[zipfile.ZipFile] = None
        self.infos: Optional[Dict[int, zipfile.ZipInfo]] = None
        self.ordered: Optional[List[zipfile.ZipInfo]] = None
        self.overlapping: Set[int] = set()
        self.next = 0
        self.descriptor = file.fileno()
        self.size = os.fstat(self.descriptor).st_size
        try:
            self.zip = zipfile.ZipFile(cast(IO[bytes], _Directory(file, limits)))
        except FAULTS as error:
            message = _message(error)
            is_of_zip = isinstance(error, ZIP_FAULTS) and message not in UNSAID
            self.why = f"{messages.NO_ZIP}: {message}" if is_of_zip else messages.NO_ZIP
        except OSError as error:
            if error.errno not in (None, errno.EINVAL):  # (that is a place before the start, or none)
                raise
            self.why = messages.NO_ZIP

    def members(self, start: int = 0, reads: bool = True) -> Iterator[Member]:
        """The members from a place on, which is 0 or was `next`, that after the last one; also without their bytes."""
        for number, info in enumerate(self._ordered()[start:], start + 1):
            self.limits.beat()
            self.next = number
            member = self._member(info, reads)
            if member:
                yield member

    def member_at(self, at: int) -> Optional[Member]:
        """The member that begins at this place."""
        if self.infos is None:
            self.infos = {info.header_offset: info for info in self._ordered()}
        info = self.infos.get(at)
        return self._member(info, True) if info else None

    def _ordered(self) -> List[zipfile.ZipInfo]:
        """The members in the order of their places. It is noted where some overlap."""
        if self.ordered is None:
            some = self.zip.infolist() if self.zip else []
            self.ordered = sorted(some, key=lambda info: info.header_offset)
            self.overlapping = self._overlaps(self.ordered)
        return self.ordered

    def _overlaps(self, infos: List[zipfile.ZipInfo]) -> Set[int]:
        """The places of members that overlap others or the directory. (Not each Python sees that by itself.)"""
        some: Set[int] = set()
        farthest = end = min((info.header_offset for info in infos), default=0)
        for info in infos:
            at = info.header_offset
            if at < end:
                some.update((farthest, at))
            behind = self._behind(info)
            if behind > self._directory:
                some.add(at)
            if behind > end:
                farthest, end = at, behind
        return some

    @property
    def _directory(self) -> int:
        """Where the directory begins."""
        assert self.zip
        return int(self.zip.start_dir)

    def _behind(self, info: zipfile.ZipInfo) -> int:
        """Where the bytes of a member end."""
        self.limits.beat()
        at = info.header_offset
        local = os.pread(self.descriptor, LOCAL_LENGTH, at) if 0 <= at < self.size else b""
        has_lengths = len(local) == LOCAL_LENGTH and local.startswith(LOCAL)
        more: int = sum(LENGTHS.unpack(local)) if has_lengths else 0
        return at + LOCAL_LENGTH + more + info.compress_size

    def _member(self, info: zipfile.ZipInfo, reads: bool) -> Optional[Member]:
        """A member as it is found; nothing of a folder."""
        raw = info.orig_filename.encode("utf-8" if info.flag_bits & UTF_8 else "cp437")
        mode = stat.S_IFMT(info.external_attr >> 16)
        if raw.endswith(b"/") or mode == stat.S_IFDIR:
            return None
        name, why = named(raw)
        at, size = info.header_offset, info.file_size
        if not 0 <= at < self.size:
            return Member(name, UNREADABLE, why or messages.OUTSIDE_OF_PACK, None, None)
        if mode in KINDS and not why:
            return other(name, KINDS[mode], at)
        why = why or (messages.OVERLAPS if at in self.overlapping else _unreadable(info))
        member = passed_over(name, why, size, at, self.limits.most)
        if member or not reads:
            return member or Member(name, READ, None, size, at)
        assert self.zip
        try:
            with self.zip.open(info) as file:
                return taken(name, file.read(size + 1), size, at)
        except FAULTS as error:
            return Member(name, UNREADABLE, messages.NOT_UNPACKED.format(reason=_message(error)), size, at)


def _unreadable(info: zipfile.ZipInfo) -> Optional[str]:
    """Why a member can't be unpacked, whatever its bytes are."""
    if info.flag_bits & ENCRYPTED:
        return messages.ENCRYPTED
    if info.compress_type not in (zipfile.ZIP_STORED, zipfile.ZIP_DEFLATED):
        return messages.UNKNOWN_COMPRESSION.format(method=info.compress_type)
    return None


def _message(error: Exception) -> str:
    """What the library says of an error, on one line that isn't long."""
    message = str(error) or type(error).__name__
    return "".join(each if each.isprintable() else "?" for each in message)[:MOST_SAID]
