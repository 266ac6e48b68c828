"""The files in a folder and below it, by the names by which each can be read as a page."""
import os
import stat
from typing import Callable, Iterator, List

from .collection.folders import absolute, join
from .collection.search import NOTHING, Listing, walk
from .packs import BETWEEN, is_pack
from .packs.reading import PACKS, NoMember

Complain = Callable[[str, str], None]


def has_files(name: str) -> bool:
    """Whether it is a folder, or a pack."""
    return name != "-" and (os.path.isdir(name) or is_pack(os.fsencode(name)) and os.path.isfile(name))


def files_in(folder: str, complain: Complain) -> List[str]:
    """The names of the files, and of the members of packs, in the order of the folders. Links aren't followed.

    What can't be listed is complained of, by its name and the reason. A file that is no pack is itself.
    """
    root = absolute(folder)
    if not os.path.isdir(folder):
        return [*_members(root, folder, complain)] if has_files(folder) else [folder]

    def named(path: bytes) -> str:
        below = path[len(root):].lstrip(b"/")
        return os.path.join(folder, os.fsdecode(below)) if below else folder
    files: List[str] = []
    for listing in walk(root, NOTHING):
        if listing.why is not None:
            complain(named(listing.path), listing.why)
        files += [named(join(listing.path, name)) for name in listing.names if _is_regular(listing, name)]
        for name in listing.packs:
            files += _members(join(listing.path, name), named(join(listing.path, name)), complain)
    return files


def _is_regular(listing: Listing, name: bytes) -> bool:
    try:
        return stat.S_ISREG(os.stat(name, dir_fd=listing.descriptor, follow_symlinks=False).st_mode)
    except OSError:
        return False


def _members(path: bytes, named: str, complain: Complain) -> Iterator[str]:
    """The names of the members of a pack."""
    try:
        for name in PACKS.names(path):
            yield named + BETWEEN + os.fsdecode(name)
    except NoMember as error:
        complain(named, str(error))
