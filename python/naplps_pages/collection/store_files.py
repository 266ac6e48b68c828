"""The files of a store: how it begins, what stands beside it, and its lock.

What stands beside it is written to and removed, by this tool or by SQLite. So it has to be a file of the store's own,
or nothing is done.
"""
import fcntl
import os
import re
import stat
import sys
import time
from types import TracebackType
from typing import List, Optional, Type

from .. import messages

# 'NAPL', the number of this tool among the applications of SQLite.
APPLICATION = 0x4E41504C
# The header of a database of SQLite, up to the number of the application, and where that stands.
MAGIC, HEADER, AT_APPLICATION = b"SQLite format 3\0", 72, 68


def begins_store(header: bytes) -> bool:
    """Whether these are the first bytes of a store."""
    return header.startswith(MAGIC) and header[AT_APPLICATION:HEADER] == APPLICATION.to_bytes(4, "big")


def is_store(path: str) -> bool:
    """Whether a file is a database of this tool, by its header. (Nothing else is opened: a pipe would be read.)"""
    try:
        if not stat.S_ISREG(os.stat(path).st_mode):
            return False
        with open(os.open(path, os.O_RDONLY | os.O_NONBLOCK | os.O_CLOEXEC), "rb") as file:
            return begins_store(file.read(HEADER))
    except (OSError, ValueError):
        return False


LOCK, MADE, JOURNAL, LOG, INDEX = ".lock", ".new", "-journal", "-wal", "-shm"
ENDINGS = (LOCK, MADE, JOURNAL, LOG, INDEX)
FLAGS = os.O_RDONLY | os.O_NOFOLLOW | os.O_NONBLOCK | os.O_NOCTTY | os.O_CLOEXEC
# How a journal begins; one that ends so too names a further file, which SQLite deletes. No journal of a store has that.
BEGINS_JOURNAL = bytes.fromhex("D9D505F920A163D7")
# The version of a log and of its index, which stands in the log from its fifth byte on.
LOG_VERSION = 3007000
BEGINS_LOG = tuple(bytes((0x37, 0x7F, 0x06, last)) + LOG_VERSION.to_bytes(4, "big") for last in (0x82, 0x83))
NUMBER = re.compile(rb"[0-9]{1,20}\n?")


# What others than the owner may do with a file.
OF_OTHERS = 0o077


def close_to_others(store: str) -> None:
    """Lets only its owner read a store that is open. Raises OSError, where the file of this name isn't a store any more
    too.

    Its descriptor is left to the end of the process: when one is closed, SQLite's locks on the file end.
    """
    if not os.lstat(store).st_mode & OF_OTHERS:
        return
    descriptor = os.open(store, FLAGS)
    status = os.fstat(descriptor)
    if not stat.S_ISREG(status.st_mode) or not begins_store(os.pread(descriptor, HEADER, 0)):
        raise OSError(messages.NOT_A_STORE)
    os.fchmod(descriptor, stat.S_IMODE(status.st_mode) & ~OF_OTHERS)


class NotOwn(OSError):
    """What stands beside a store isn't its own, with what it is."""


def place(store: str, ending: str) -> str:
    """The path of what stands beside a store, which is one however the store is named."""
    return os.path.realpath(store) + ending


def foreign(store: str) -> Optional[str]:
    """What beside a store isn't its own; None where all is. Raises OSError."""
    try:
        for ending in ENDINGS:
            require_own(store, ending)
    except NotOwn as error:
        return str(error)
    return None


def require_own(store: str, ending: str) -> None:
    """Looks whether what has this ending, if something has, is the store's own. Raises OSError, of it NotOwn.

    It is its own as a regular file with one name, and with what this tool or SQLite writes there. Nothing else is
    opened, and nothing is waited for.
    """
    path = place(store, ending)
    try:
        _require_plain(os.lstat(path), store, ending)
        descriptor = os.open(path, FLAGS)
    except FileNotFoundError:
        return
    try:
        require_own_file(descriptor, store, ending)
    finally:
        os.close(descriptor)


def require_own_file(descriptor: int, store: str, ending: str) -> None:
    """Looks whether an open file is the store's own. Raises OSError, of it NotOwn."""
    status = os.fstat(descriptor)
    _require_plain(status, store, ending)
    if not _begins_own(os.pread(descriptor, HEADER, 0), ending):
        raise NotOwn(messages.NOT_ITS_OWN.format(ending=ending))
    if ending == JOURNAL:
        length = len(BEGINS_JOURNAL)
        if os.pread(descriptor, length, max(0, status.st_size - length)) == BEGINS_JOURNAL and status.st_size > length:
            raise NotOwn(messages.JOURNAL_OF_OTHER.format(ending=JOURNAL))


def _require_plain(status: os.stat_result, store: str, ending: str) -> None:
    """Raises NotOwn where it isn't a plain file of somebody who may write the store."""
    if not _is_plain(status, store, ending):
        raise NotOwn(messages.NOT_ITS_OWN.format(ending=ending))
    if not _may_write(status.st_uid, store):
        raise NotOwn(messages.OF_OTHER_USER.format(ending=ending))


def _may_write(user: int, store: str) -> bool:
    """Whether a user may write a store as root, this user, its owner, or by its mode; one that isn't there yet as root
    or this user."""
    if user in (0, os.geteuid()):
        return True
    try:
        status = os.stat(store)
    except FileNotFoundError:
        return False
    return user == status.st_uid or bool(status.st_mode & stat.S_IWOTH) or (
        bool(status.st_mode & stat.S_IWGRP) and status.st_gid in _groups(user))


def _groups(user: int) -> List[int]:
    """The groups of a user; none of one whom the system doesn't know."""
    import pwd  # (which few stores need)
    try:
        entry = pwd.getpwuid(user)
        return os.getgrouplist(entry.pw_name, entry.pw_gid)
    except (KeyError, OSError):
        return []


def _is_plain(status: os.stat_result, store: str, ending: str) -> bool:
    """Whether it is a regular file with one name, or with none any more; a store that was just put in place has two."""
    if not stat.S_ISREG(status.st_mode):
        return False
    return status.st_nlink <= 1 or (ending == MADE and status.st_nlink == 2 and _is_store(status, store))


def _is_store(status: os.stat_result, store: str) -> bool:
    try:
        return os.path.samestat(status, os.stat(store))
    except OSError:
        return False


def _begins_own(data: bytes, ending: str) -> bool:
    """Whether a file that begins so has what is written there; one that is empty may get it still."""
    if not data:
        return True
    if ending == LOCK:
        return NUMBER.fullmatch(data) is not None
    if ending == MADE:
        return begins_store(data)
    if ending == JOURNAL:  # (until it is on the disk, it begins with zeros)
        return data[:8] in (BEGINS_JOURNAL, bytes(8))
    if ending == LOG:
        return data[:8] in BEGINS_LOG
    return int.from_bytes(data[:4], sys.byteorder) in (0, LOG_VERSION)


LOCK_FLAGS = os.O_NOFOLLOW | os.O_NONBLOCK | os.O_NOCTTY | os.O_CLOEXEC
# Who only asks whether a scan is at work holds the lock for an instant.
TURNS, TURN = 4, 0.05


class Busy(Exception):
    """Another process has the lock."""


class Lock:
    """Holds the lock of a store. Its file is beside the store, and is taken away at the end."""

    def __init__(self, store: str) -> None:
        self.store, self.path = store, place(store, LOCK)
        self.descriptor: Optional[int] = None

    def __enter__(self) -> "Lock":
        """Takes the lock. Raises Busy, or OSError where there can be no such file, or is one that isn't the store's."""
        left = TURNS
        while self.descriptor is None:
            require_own(self.store, LOCK)
            descriptor = os.open(self.path, os.O_RDWR | os.O_CREAT | LOCK_FLAGS, 0o666)
            try:
                require_own_file(descriptor, self.store, LOCK)
                fcntl.flock(descriptor, fcntl.LOCK_EX | fcntl.LOCK_NB)
                if self._is_there(descriptor):
                    self.descriptor = descriptor  # (else it was the file of a scan that ended just now)
            except BlockingIOError:
                left -= 1
                if not left:
                    raise Busy(_holder(descriptor)) from None
                time.sleep(TURN)
            finally:
                if self.descriptor is None:
                    os.close(descriptor)
        try:
            os.truncate(self.descriptor, 0)
            os.write(self.descriptor, b"%d\n" % os.getpid())
        except OSError:  # as where the disk is full
            self._let_go()
            raise
        return self

    def _is_there(self, descriptor: int) -> bool:
        try:
            return os.path.samestat(os.fstat(descriptor), os.stat(self.path, follow_symlinks=False))
        except FileNotFoundError:
            return False

    def __exit__(self, kind: Optional[Type[BaseException]], error: Optional[BaseException],
                 trace: Optional[TracebackType]) -> None:
        self._let_go()

    def _let_go(self) -> None:
        if self.descriptor is not None:
            try:
                if self._is_there(self.descriptor):
                    os.unlink(self.path)
            except OSError:
                pass
            os.close(self.descriptor)
            self.descriptor = None


def _holder(descriptor: int) -> str:
    holder = os.read(descriptor, 32).decode("ascii", "replace").strip()
    return f"process {holder}" if holder.isdigit() else "another process"


def is_held(store: str) -> bool:
    """Whether a scan is at work on the store."""
    path = place(store, LOCK)
    try:
        if not stat.S_ISREG(os.lstat(path).st_mode):
            return False
        descriptor = os.open(path, os.O_RDONLY | LOCK_FLAGS)
    except OSError:
        return False
    try:
        fcntl.flock(descriptor, fcntl.LOCK_SH | fcntl.LOCK_NB)
        return False
    except OSError:
        return True
    finally:
        os.close(descriptor)
