"""Packs: tar, tar.gz and zip files, by their names, and their members as they are found."""
from typing import Callable, NamedTuple, Optional, Tuple

from .. import PACKS, messages
from ..collection.tables import MAX_NUMBER, NOT_A_FILE, READ, TOO_LONG, UNREADABLE

ENDINGS = tuple(each.encode("ascii") for each in PACKS)
ZIP = b".zip"
# (The path of a folder never ends so.)
MARK = b"!/"
BETWEEN = "!"
# A longer name of a member isn't taken.
MOST_NAME = 4096


def is_pack(name: bytes) -> bool:
    """Whether a file of this name is taken for a pack: by its ending, in capitals too."""
    return name.lower().endswith(ENDINGS)


def inside(path: bytes) -> bytes:
    """The folder that stands for the pack at this path."""
    return path + MARK


def pack_of(folder: bytes) -> Optional[bytes]:
    """The path of the pack that the folder stands for; None where it is a folder of the file system."""
    return folder[:-len(MARK)] if folder.endswith(MARK) else None


def named(raw: bytes) -> Tuple[bytes, Optional[str]]:
    """The name of a member without what says nothing, as './'; or the name as it is, and what is wrong with it."""
    whole = raw.split(b"\0", 1)[0]
    parts = [part for part in whole.split(b"/") if part not in (b"", b".")]
    name = b"/".join(parts)
    why = None
    if whole != raw:
        why = messages.NUL_IN_NAME
    elif whole.startswith(b"/"):
        why = messages.ABSOLUTE_NAME
    elif b".." in parts:
        why = messages.NAME_LEADS_OUT
    elif not parts:
        why = messages.NO_NAME
    elif len(name) > MOST_NAME:
        why = messages.LONG_NAME.format(most=MOST_NAME)
    return (name, None) if why is None else ((whole or b".")[:MOST_NAME], why)


# What a scan says of files, and of members that a store can't tell apart.
SEVERAL, NO_FILE = messages.SEVERAL_OF_NAME, messages.NOT_REGULAR


class Damage(Exception):
    """A pack that can't be read on, with the reason."""


class Member(NamedTuple):
    """A member of a pack: its state and the reason as a file has them, where it begins, and its bytes if it is read.

    A size that can't be kept, and a place that the pack doesn't have, are none.
    """

    name: bytes
    state: int
    why: Optional[str]
    size: Optional[int]
    at: Optional[int]
    data: Optional[bytes] = None


class PackLimits(NamedTuple):
    """How many bytes a member may have; and what is called now and then, while a pack is read."""

    most: int
    beat: Callable[[], None] = lambda: None


def other(name: bytes, kind: str, at: int) -> Member:
    """A member that is no file."""
    return Member(name, NOT_A_FILE, kind, None, at)


def passed_over(name: bytes, why: Optional[str], size: int, at: int, most: int) -> Optional[Member]:
    """The member, if it isn't to be read: for a reason of its own, since it is a pack, or since it is too long."""
    if why is not None:
        return Member(name, UNREADABLE, why, None, at)
    kept = size if size <= MAX_NUMBER else None
    if is_pack(name):
        return Member(name, UNREADABLE, messages.PACK_IN_PACK, kept, at)
    if size > most:
        reason = messages.BYTES.format(number=size) if kept is not None else messages.MORE_BYTES.format(most=MAX_NUMBER)
        return Member(name, TOO_LONG, reason, kept, at)
    return None


def taken(name: bytes, data: bytes, size: int, at: int) -> Member:
    """The member that was read."""
    if len(data) != size:
        return Member(name, UNREADABLE, messages.CUT_IN_MEMBER, size, at)
    return Member(name, READ, None, size, at, data)
