"""Where the repository, its packages and the command naplps-pages are, and files that a test makes."""
import os
import pathlib
import subprocess
import tempfile
from typing import Callable, List, Optional

TOP = str(pathlib.Path(__file__).resolve().parents[2])
LIB = os.path.join(TOP, "tests", "lib")
PACKAGES = os.path.join(TOP, "python")
COMMAND = os.path.join(TOP, "pages", "naplps-pages")
NOBODY = 65534
KEPT = ("words", "repair")
Run = Callable[..., "subprocess.CompletedProcess[bytes]"]


def bare(words: List[str], cwd: Optional[str] = None, keeps: str = "") -> List[str]:
    """The words; a scan into a new store gets what `keeps` names and nothing else, in place of what is usual.

    So a test sees the questions and the rows that it is about. test_usual.py has what is usual.
    """
    if words[:1] != ["scan"] or "-o" not in words[:-1] or "--merge" in words or "--skip" in words:
        return words
    if os.path.lexists(os.path.join(cwd or "", words[words.index("-o") + 1])):
        return words
    return [*words, *(word for each in KEPT if each not in keeps.split() for word in ("--skip", each))]


def open_to_all(folder: pathlib.Path) -> None:
    """Lets all users go into a folder for temporary files, and into those above it."""
    for above in (folder, *folder.parents):
        if above == pathlib.Path(tempfile.gettempdir()):
            return
        above.chmod(above.stat().st_mode | 0o055)


def file(folder: "os.PathLike[str]", name: "str | bytes", data: bytes) -> str:
    """Makes a file; its path."""
    path = os.path.join(os.fsencode(folder), os.fsencode(name))
    with open(path, "wb") as out:
        out.write(data)
    return os.fsdecode(path)
