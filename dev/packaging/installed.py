"""What scripts/install put under a prefix, by the list that it left there: what may be replaced or removed."""
import hashlib
import os
import re
import stat
from pathlib import Path
from typing import Dict, Iterable, List, Optional, Set

from dev.layout import LINK, File, write_files

LIST = "lib/naplps/installed"
MOST = 1 << 22
# The most bytes of a file that this script installs; what is longer is of others, and isn't read.
MOST_FILE = 1 << 28
# How many bytes of a file are read at once.
PIECE = 1 << 20
LINE = re.compile(r"(?P<sum>[0-9a-f]{64})  (?P<file>.*[^/])|(?P<folder>.*[^/])/")


class NotOurs(Exception):
    """Something under the prefix isn't of this script, a name leads out of the prefix, or a file is too long to be
    installed. Nothing was changed."""


def sum_of(file: File) -> str:
    """The checksum of a file, or of the name to which a link leads."""
    return hashlib.sha256(b"link to " + file.data if file.mode == LINK else file.data).hexdigest()


def standing(path: Path) -> Optional[str]:
    """The checksum of the file or link that stands there; None where nothing does, and else words that are none."""
    try:
        status = path.lstat()
    except FileNotFoundError:
        return None
    if stat.S_ISLNK(status.st_mode):
        return sum_of(File(os.fsencode(os.readlink(path)), LINK))
    if not stat.S_ISREG(status.st_mode):
        return "neither a file nor a link"
    return "too long" if status.st_size > MOST_FILE else _sum_by_pieces(path)


def _sum_by_pieces(path: Path) -> str:
    total = hashlib.sha256()
    with path.open("rb") as file:
        for piece in iter(lambda: file.read(PIECE), b""):
            total.update(piece)
    return total.hexdigest()


class Installed:
    """What is installed under a prefix: each file with the checksums that it may have, and the folders made for it."""

    def __init__(self, prefix: Path) -> None:
        self.prefix = prefix
        self.files: Dict[str, Set[str]] = {}
        self.folders: List[str] = []
        path = self.place(LIST)
        self.is_there = os.path.lexists(path)
        if self.is_there:
            self._read(path)

    def place(self, name: str) -> Path:
        """Where a name stands. One that isn't below the prefix is refused, also where a link leads out of it."""
        path = self.prefix / name
        if any(part in ("", ".", "..") for part in name.split("/")) or not name.isprintable():
            raise NotOurs(f"{self.prefix / LIST} names {name!a}, which isn't under the prefix: nothing was done")
        for folder in [path.parent, *path.parent.parents]:
            if os.path.lexists(folder) and not folder.is_dir():
                raise NotOurs(f"{folder} isn't a folder: nothing was done")
        real, top = path.parent.resolve(), self.prefix.resolve()
        if top != real and top not in real.parents:
            raise NotOurs(f"{path.parent} leads out of {self.prefix}, to {real}: nothing was done")
        return path

    def _read(self, path: Path) -> None:
        """Reads the list; each name in it has to be one below the prefix."""
        lines = []
        if path.is_file() and not path.is_symlink() and path.stat().st_size <= MOST:
            lines = path.read_bytes().decode("utf-8", "replace").splitlines()
        for line in lines or ["nothing"]:
            found = LINE.fullmatch(line)
            if found is None:
                raise NotOurs(f"{path} isn't a list that this script left, with checksums: nothing was done")
            self.place(found["file"] or found["folder"])
            if found["file"]:
                self.files.setdefault(found["file"], set()).add(found["sum"])
            else:
                self.folders.append(found["folder"])

    def put(self, files: Dict[str, File]) -> List[str]:
        """Installs these files in place of those that were installed. It tells which of those stay, since they were
        changed."""
        for name, file in files.items():
            if len(file.data) > MOST_FILE:
                raise NotOurs(f"{name} has more than {MOST_FILE >> 20} MiB, so nothing was installed")
        wanted = {name: sum_of(file) for name, file in files.items()}
        foreign = [name for name, total in wanted.items()
                   if standing(self.place(name)) not in {None, total, *self.files.get(name, ())}]
        if foreign:
            names = ", ".join(str(self.prefix / name) for name in foreign)
            raise NotOurs(f"this isn't of an earlier installation, so nothing was installed: {names}")
        earlier = {name: sums for name, sums in self.files.items() if name not in files}
        self.folders += [name for name in self._folders_wanted([*files, LIST]) if name not in self.folders]
        for name, total in wanted.items():
            self.files.setdefault(name, set()).add(total)
        self._write_list()
        write_files(self.prefix, files)
        kept = self._unlink(earlier)
        self.files = {name: {total} for name, total in wanted.items()}
        self._write_list()
        return kept

    def remove(self) -> List[str]:
        """Removes each file that is as it was installed, and the folders that are empty then. It tells what stays."""
        kept = self._unlink(self.files)
        (self.prefix / LIST).unlink()
        for name in sorted(self.folders, reverse=True):
            path = self.prefix / name
            if path.is_dir() and not path.is_symlink() and not any(path.iterdir()):
                path.rmdir()
        return kept

    def _unlink(self, files: Dict[str, Set[str]]) -> List[str]:
        kept = []
        for name, sums in files.items():
            path = self.place(name)
            there = standing(path)
            if there in sums:
                path.unlink()
            elif there is not None:
                kept.append(name)
        return kept

    def _folders_wanted(self, names: Iterable[str]) -> List[str]:
        """The folders of these files that aren't there yet."""
        folders = {folder for name in names for folder in Path(name).parents} - {Path(".")}
        return [folder.as_posix() for folder in sorted(folders) if not (self.prefix / folder).is_dir()]

    def _write_list(self) -> None:
        lines = [f"{name}/" for name in self.folders]
        lines += [f"{total}  {name}" for name in sorted(self.files) for total in sorted(self.files[name])]
        write_files(self.prefix, {LIST: File("".join(f"{line}\n" for line in lines).encode(), 0o644)})
