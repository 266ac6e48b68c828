"""What stands in folders: files as bytes, hashes or states; files that are written; and what may stand in their way."""
import hashlib
import os
import re
import socket
import stat
from pathlib import Path
from typing import Callable, Dict, List, Mapping, Optional, Tuple

import pytest


def _put_file(path: str, _: str) -> None:
    Path(path).write_bytes(b"my own notes\n" * 100)


def _put_device(path: str, _: str) -> None:
    try:
        os.mknod(path, stat.S_IFCHR | 0o600, os.makedev(1, 3))
    except PermissionError:
        pytest.skip("no device can be made here")


def _put_socket(path: str, _: str) -> None:
    folder = os.getcwd()
    os.chdir(os.path.dirname(path))  # (the path of a socket has to be short)
    try:
        with socket.socket(socket.AF_UNIX) as server:
            server.bind(os.path.basename(path))
    finally:
        os.chdir(folder)


# What may stand where a command is about to write: made at a path, with the path of another file of the user's.
OBSTACLES: Dict[str, Callable[[str, str], None]] = {
    "a hard link": lambda path, victim: os.link(victim, path), "a plain file": _put_file,
    "a fifo": lambda path, _: os.mkfifo(path), "a link": lambda path, victim: os.symlink(victim, path),
    "a link to nothing": lambda path, victim: os.symlink(victim + "-not-there", path),
    "a folder": lambda path, _: os.mkdir(path), "a device": _put_device, "a socket": _put_socket}

# The mode of what stands at a path, how many names it has, and the hash of a file or the target of a link.
State = Tuple[int, int, Optional[str]]


def states(folder: str) -> Dict[str, State]:
    """What stands below a folder: kinds, links, numbers of names, and hashes of files; but not what a command says."""
    found = {}
    for top, below, names in os.walk(folder):
        for name in below + names:
            path = os.path.join(top, name)
            status = os.lstat(path)
            content: Optional[str] = None
            if stat.S_ISREG(status.st_mode):
                content = hashlib.sha256(Path(path).read_bytes()).hexdigest()
            elif stat.S_ISLNK(status.st_mode):
                content = os.readlink(path)
            found[os.path.relpath(path, folder)] = (status.st_mode, status.st_nlink, content)
    return {name: state for name, state in found.items() if name not in ("out", "err")}


def remove(path: str) -> None:
    """Removes a file or an empty folder, where one is there."""
    if os.path.isdir(path) and not os.path.islink(path):
        os.rmdir(path)
    elif os.path.lexists(path):
        os.unlink(path)


def file_hashes(home: str, without: Tuple[str, ...] = ("pages/x.db", "pages/r.html", ".cache")) -> Dict[str, str]:
    """The hash of each file below the home folder, but of those that the commands are asked to make."""
    return {name: content for name, (mode, _, content) in states(home).items()
            if content and stat.S_ISREG(mode) and not name.startswith(without)}


def files_in(folder: "str | os.PathLike[str]") -> Dict[bytes, bytes]:
    """The bytes of the files below a folder, by their paths there; notes without their times."""
    found = {}
    for root, _, names in os.walk(os.fsencode(folder)):
        for name in names:
            path = os.path.join(root, name)
            data = Path(os.fsdecode(path)).read_bytes()
            if name.endswith(b".json"):
                data = re.sub(rb'(?m)^  "time": "[^"]*"$', b"", data)
            found[os.path.relpath(path, os.fsencode(folder))] = data
    return found


def write_files(folder: Path, files: Mapping[str, bytes]) -> List[Path]:
    """Writes files of these names and bytes into a folder; their paths."""
    folder.mkdir(exist_ok=True)
    for name, data in files.items():
        (folder / name).write_bytes(data)
    return [folder / name for name in files]
