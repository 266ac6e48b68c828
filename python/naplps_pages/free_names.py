"""Names for the files that a run makes: no path is given twice, and none that the file system can't hold."""
import hashlib
import os
import re
import stat
import unicodedata
from typing import Callable, Dict, List, Sequence, Set, Tuple

from naplps.names import shown

from . import messages

# How many bytes a name has at most, wherever it is, and a path with the name of a file that isn't whole yet.
MOST_NAME, MOST_PATH = 255, 4095 - 64
# What marks a name that was shortened is this and the first digits of its hash.
MARK, DIGITS = "~", 8
# The stem of a name, and its ending, before which a number or a mark is put.
STEM_AND_ENDING = re.compile(r"(.+?)(\.[A-Za-z0-9]{1,8})?", re.DOTALL)

# For the path that is made of a file's name the paths of the files that are made there.
Making = Callable[[str], Sequence[str]]


class FreeNames:
    """The paths below a folder, each of which is given once; `tell` gets a path that isn't given, and why."""

    def __init__(self, folder: str, tell: Callable[[str, str], None], sees_disk: bool = False,
                 folds: bool = False) -> None:
        self.folder, self.tell, self.sees_disk, self.folds = folder, tell, sees_disk, folds
        self.most = _most_name(folder)
        # (paths stand in these by their hashes: there may be millions)
        self.files: Set[int] = set()
        self.folders: Set[int] = set()
        # (of folders those that have the wanted path, and what the others have)
        self.usual: Set[int] = set()
        self.others: Dict[int, str] = {}
        self.numbers: Dict[int, int] = {}

    def of(self, wanted: str, making: Making) -> str:
        """The path to make files of: the wanted one, or where one of its files has no name of its own the next."""
        if not making(wanted):
            return wanted
        usual = self._within_length(wanted, making)
        place, name = os.path.split(usual)
        path = self._next(self._folder(place), name, making, self._is_free)
        self.files.update(map(self._key, making(path)))
        if os.path.basename(path) != os.path.basename(wanted):
            self._tell(making(wanted)[0], making(path)[0], usual != wanted or self._is_long(name, making))
        return path

    def _within_length(self, wanted: str, making: Making) -> str:
        """A path; of one that is too long its first folder and its shortened name."""
        longest = max(len(os.fsencode(os.path.join(self.folder, path))) for path in making(wanted))
        if longest <= MOST_PATH:
            return wanted
        top, _, below = wanted.partition(os.sep)
        return os.path.join(top if below else "", _marked(os.path.basename(wanted), wanted, self.most // 2))

    def _folder(self, wanted: str) -> str:
        """The path of a folder: the wanted one, or another if a file has its name."""
        path, usual = "", ""
        for name in filter(None, wanted.split(os.sep)):
            usual = os.path.join(usual, name)
            key = self._key(usual)
            if key in self.usual:
                path = usual
            elif key in self.others:
                path = self.others[key]
            else:
                path = self._new_folder(path, name, usual)
        return path

    def _new_folder(self, place: str, name: str, usual: str) -> str:
        """The path of a folder that wasn't asked for before."""
        path = self._next(place, name, _itself, self._is_free_folder)
        self.folders.add(self._key(path))
        if path == usual:
            self.usual.add(self._key(usual))
        else:
            self.others[self._key(usual)] = path
        if os.path.basename(path) != name:
            self._tell(usual, path, self._is_long(name, _itself))
        return path

    def _next(self, place: str, name: str, making: Making, is_free: Callable[[str], bool]) -> str:
        """The first path in a folder whose files are all free: that of a name, or of the name with a number."""
        key = self._key(os.path.join(place, name))
        number = self.numbers.get(key, 1)
        path = self._fitting(place, numbered_name(name, number), making)
        while not all(map(is_free, making(path))):
            number += 1
            self.numbers[key] = number
            path = self._fitting(place, numbered_name(name, number), making)
        return path

    def _fitting(self, place: str, name: str, making: Making) -> str:
        """The path of a name, which is shortened where one of its files would have too long a name."""
        path, most = os.path.join(place, name), self.most
        while most > DIGITS:
            over = max(len(os.fsencode(os.path.basename(each))) for each in making(path)) - self.most
            if over <= 0:
                break
            most = len(os.fsencode(os.path.basename(path))) - over
            path = os.path.join(place, _marked(name, name, most))
        return path

    def _is_long(self, name: str, making: Making) -> bool:
        return self._fitting("", name, making) != name

    def _is_free(self, path: str) -> bool:
        """Whether a file can have this path."""
        key = self._key(path)
        return key not in self.files and key not in self.folders and self._is_there_at_most(path, stat.S_ISREG)

    def _is_free_folder(self, path: str) -> bool:
        """Whether a folder can have this path."""
        key = self._key(path)
        return key not in self.files and key not in self.folders and self._is_there_at_most(path, stat.S_ISDIR)

    def _is_there_at_most(self, path: str, kind: Callable[[int], bool]) -> bool:
        """Whether nothing is at a path, or what is of this kind."""
        try:
            return not self.sees_disk or kind(os.lstat(os.path.join(self.folder, path)).st_mode)
        except OSError:
            return True  # (whatever is wrong there is reported where the file is put)

    def _key(self, path: str) -> int:
        """By what a path is known: one number for all that the file system takes for the same."""
        if self.folds:
            path = os.sep.join(part.rstrip(". ") or part for part in
                               unicodedata.normalize("NFD", path.casefold()).split(os.sep))
        return int.from_bytes(hashlib.blake2b(os.fsencode(path), digest_size=8).digest(), "big")

    def _tell(self, usual: str, path: str, is_long: bool) -> None:
        other = shown(os.path.join(self.folder, path))
        why = messages.NAME_NOT_HELD.format(path=other) if is_long else messages.TAKEN_NAME.format(path=other)
        self.tell(os.path.join(self.folder, usual), why)


def numbered_name(name: str, number: int) -> str:
    """A name with a number in brackets before its ending; 1 gives the name itself."""
    if number == 1:
        return name
    stem, ending = _parts(name)
    return f"{stem} ({number}){ending}"


def shortened(name: str, most: int) -> str:
    """A name of a number of bytes at most: of a longer one the beginning, a mark by its hash, and its ending."""
    return name if len(os.fsencode(name)) <= most else _marked(name, name, most)


def folds_case(path: str) -> bool:
    """Whether a file is found by its name in capitals too."""
    other = os.path.join(os.path.dirname(path), os.path.basename(path).upper())
    try:
        return other != path and os.path.samefile(path, other)
    except OSError:
        return False


def _marked(name: str, hashed: str, most: int) -> str:
    """The beginning of a name, a mark by the hash of a text, and the name's ending."""
    stem, ending = _parts(name)
    mark = MARK + hashlib.sha256(os.fsencode(hashed)).hexdigest()[:DIGITS] + ending
    while stem and len(os.fsencode(stem + mark)) > most:
        stem = stem[:-1]
    return stem + mark


def _parts(name: str) -> Tuple[str, str]:
    found = STEM_AND_ENDING.fullmatch(name)
    return (found[1], found[2] or "") if found else (name, "")


def _itself(path: str) -> List[str]:
    return [path]


def _most_name(folder: str) -> int:
    """How many bytes a name in a folder has at most."""
    try:
        most = os.pathconf(folder, "PC_NAME_MAX")
    except (OSError, ValueError):
        return MOST_NAME
    return most if 0 < most < MOST_NAME else MOST_NAME
