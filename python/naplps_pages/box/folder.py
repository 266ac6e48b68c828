"""The folder of a box: it is empty or one that was made so, is held by one run at a time, and has nothing foreign in
the places where files of a box stand.
"""
import os
import re
import stat
from contextlib import suppress
from types import TracebackType
from typing import Iterator, List, Optional, Type

from naplps.names import as_json, shown
from naplps.version import VERSION

from .. import STORE_OF_BOX, TOOL, messages
from ..collection.folders import reason
from ..collection.store_files import Busy, Lock
from ..console import NotWritten
from ..new_files import make_folder, put_inside
from ..notes import note_bytes, read_note

# What stands in it: the marker; the store and what is kept beside it; what people look at; and the folders of pages.
MARKER, STORE, KEPT = "box.json", STORE_OF_BOX, "kept.db"
REPORT, TABLE, CUT = "index.html", "files.csv", "cut.csv"
CANONICAL, READABLE, CAPTURES, CARVED = "canonical", "readable", "captures", "carved"
FILES, FOLDERS = (MARKER, STORE, KEPT, REPORT, TABLE, CUT), (CANONICAL, READABLE, CAPTURES, CARVED)
# The name of which the lock is that of a box.
LOCKED = "box"
LOCK = LOCKED + ".lock"
WHAT = f"a box: what {TOOL} found in these folders; the same command goes on in it"
MOST_MARKER = 1 << 20
# Files that aren't whole, and that of which worker asks about which page, of a run that was killed.
UNFINISHED = re.compile(r"\.naplps-[a-z0-9_]{8}")


class BoxFolder:
    """The folder, held by this run."""

    def __init__(self, path: str, roots: List[bytes]) -> None:
        self.path, self.roots = path, roots
        self.folders = [as_json(os.fsdecode(root)) for root in roots]
        self.lock = Lock(os.path.join(path, LOCKED))

    def of(self, *names: str) -> str:
        """The path of what has this name in it."""
        return os.path.join(self.path, *names)

    def __enter__(self) -> "BoxFolder":
        """Takes the folder, or makes it. Raises NotWritten where it isn't one for a box, or another run has it."""
        self._require_apart()
        self._require_free_or_box()
        make_folder(self.path)
        try:
            self.lock.__enter__()
        except Busy as busy:
            raise NotWritten(self.path, messages.BUSY_BOX.format(reason=busy)) from None
        except OSError as error:
            raise NotWritten(self.path, reason(error)) from None
        try:
            self._require_free_or_box()
            if not os.path.lexists(self.of(MARKER)):
                put_inside(self.of(MARKER), self._marker())
            self._clear()
        except BaseException:
            self.lock.__exit__(None, None, None)
            raise
        return self

    def __exit__(self, kind: Optional[Type[BaseException]], error: Optional[BaseException],
                 trace: Optional[TracebackType]) -> None:
        self.lock.__exit__(kind, error, trace)

    def _require_apart(self) -> None:
        """Raises NotWritten where the folder stands in one that is searched, or the other way round."""
        place = os.fsencode(os.path.realpath(self.path))
        for root in self.roots:
            real = os.path.realpath(root)
            if _stands_in(place, real):
                raise NotWritten(self.path, messages.BOX_WITHIN.format(folder=shown(os.fsdecode(root))))
            if _stands_in(real, place):
                raise NotWritten(self.path, messages.BOX_AROUND.format(folder=shown(os.fsdecode(root))))

    def _require_free_or_box(self) -> None:
        """Raises NotWritten where the folder isn't empty and no box, or something foreign has a name of a box's."""
        try:
            names = sorted(os.listdir(self.path))
        except FileNotFoundError:
            return
        except OSError as error:
            raise NotWritten(self.path, reason(error)) from None
        if MARKER in names:
            self._require_marker()
        else:
            others = [name for name in names if name != LOCK and not UNFINISHED.fullmatch(name)]
            if others:
                raise NotWritten(self.path, messages.NO_BOX.format(name=shown(others[0])))
        for name in names:
            what = "file" if name in FILES else "folder" if name in FOLDERS else ""
            mode = os.lstat(self.of(name))
            if what and not (stat.S_ISREG(mode.st_mode) and mode.st_nlink == 1 if what == "file"
                             else stat.S_ISDIR(mode.st_mode)):
                raise NotWritten(self.of(name), messages.FOREIGN_IN_BOX.format(kind=what))

    def _require_marker(self) -> None:
        path = self.of(MARKER)
        try:
            held = read_note(path, MOST_MARKER)
            if held["what"] != WHAT or not isinstance(held["folders"], list):
                raise ValueError
            names = [str(each["name"]) for each in held["folders"]]
        except OSError as error:
            raise NotWritten(path, reason(error)) from None
        except (ValueError, KeyError, TypeError, RecursionError):
            raise NotWritten(path, messages.NO_MARKER) from None
        if held["folders"] != self.folders:
            raise NotWritten(self.path, messages.BOX_OF_OTHERS.format(folders=", ".join(map(shown, names))))

    def _marker(self) -> bytes:
        return note_bytes({"what": WHAT, "tool": f"{TOOL} {VERSION}", "folders": self.folders})

    def _clear(self) -> None:
        """Takes away the files that a run left unfinished which was killed."""
        for folder in self._folders():
            try:
                with os.scandir(folder) as entries:
                    for entry in entries:
                        if UNFINISHED.fullmatch(entry.name) and entry.is_file(follow_symlinks=False):
                            with suppress(PermissionError):
                                os.unlink(entry.path)
            except OSError as error:
                raise NotWritten(folder, reason(error)) from None

    def _folders(self) -> Iterator[str]:
        yield self.path
        for name in FOLDERS:
            yield from (folder for folder, _, _ in os.walk(self.of(name)))


def _stands_in(path: bytes, folder: bytes) -> bool:
    """Whether a path is a folder's or leads into it, by whatever name."""
    while True:
        try:
            if os.path.samefile(path, folder):
                return True
        except OSError:
            pass  # (what isn't there stands in what is above it)
        above = os.path.dirname(path)
        if above == path:
            return False
        path = above

