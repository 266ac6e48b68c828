"""Files that are made: whole or not at all, and never over another one."""
import contextlib
import errno
import os
from typing import Dict, Iterable, Iterator, Optional, Tuple

from naplps.names import leaf

from . import messages
from .console import NotWritten


def put(path: str, data: bytes) -> None:
    """Makes a file that was named by itself. There, what is no file, as a device or a pipe, is written to."""
    try:
        if os.path.exists(path) and not os.path.isfile(path):
            with open(path, "wb") as device:
                device.write(data)
            return
    except OSError as error:
        raise NotWritten(path, error.strerror or str(error)) from None
    put_inside(path, data)


def put_inside(path: str, data: bytes) -> None:
    """Makes a file of a folder, whole or not at all. What is there stays: it is a fault, but a file of these bytes."""
    try:
        _claim(path, data)
    except FileExistsError:
        require_free(path, data)
    except OSError as error:
        raise NotWritten(path, error.strerror or str(error)) from None


def replace(path: str, data: bytes) -> None:
    """Makes a file, whole or not at all, in place of one that may be there."""
    try:
        os.replace(_part(path, data), path)
    except OSError as error:
        raise NotWritten(path, error.strerror or str(error)) from None


def require_free(path: str, data: bytes) -> None:
    """Raises NotWritten where anything but these bytes is there already."""
    if os.path.lexists(path) and not _has(path, data):
        raise NotWritten(path, messages.OTHER_BYTES_THERE)


def _claim(path: str, data: bytes) -> None:
    """Makes a file of a name that nothing has."""
    part = _part(path, data)
    try:
        os.link(part, path)
    except FileExistsError:
        raise
    except OSError:  # a file system without links: there the name is taken first
        os.close(os.open(path, os.O_WRONLY | os.O_CREAT | os.O_EXCL))
        os.replace(part, path)
        return
    finally:
        if os.path.lexists(part):
            os.unlink(part)


def _part(path: str, data: bytes) -> str:
    """A new file with these bytes, which are on the disk, in the folder of the path."""
    number, part = new_part(os.path.dirname(path) or ".")
    try:
        with open(number, "wb") as file:
            file.write(data)
            file.flush()
            os.fsync(number)  # (so that a power cut leaves no name of a file without its bytes)
            os.fchmod(number, 0o666 & ~_mask())  # (by its path it could be another file by now)
    except BaseException:
        os.unlink(part)
        raise
    return part


def new_part(folder: str) -> Tuple[int, str]:
    """A new empty file in a folder, under a name that nothing had, which its owner alone can read. Raises OSError."""
    import tempfile  # (which takes long to be imported, and is needed here alone)
    return tempfile.mkstemp(prefix=".naplps-", dir=folder)


def _mask() -> int:
    mask = os.umask(0o077)
    os.umask(mask)
    return mask


def _has(path: str, data: bytes) -> bool:
    try:
        if not os.path.isfile(path) or os.path.getsize(path) != len(data):
            return False
        with open(path, "rb") as file:
            return file.read() == data
    except OSError:
        return False


def below(names: Iterable[str]) -> Dict[str, str]:
    """For each name of a page the path of a file that is made of it: the name without the folder that all are in."""
    paths = {name: os.path.abspath(name) for name in names if name != "-"}
    common = os.path.commonpath([os.path.dirname(path) for path in paths.values()]) if paths else ""
    return {"-": leaf("-"), **{name: os.path.relpath(path, common) for name, path in paths.items()}}


def make_folders(folder: str, path: str) -> None:
    """Makes the folders in which a path below a folder stands. Raises NotWritten where one of them is a link."""
    parts = os.path.dirname(path).split(os.sep)
    for number in range(1, len(parts) + 1):
        each = os.path.join(folder, *parts[:number])
        if os.path.islink(each):
            raise NotWritten(each, messages.IS_A_LINK)
        make_folder(each)


def make_folder(folder: str) -> None:
    """Makes a folder where there is none."""
    try:
        os.makedirs(folder, exist_ok=True)
    except FileExistsError:
        raise NotWritten(folder, os.strerror(errno.ENOTDIR)) from None
    except OSError as error:
        raise NotWritten(folder, error.strerror or str(error)) from None


@contextlib.contextmanager
def made_folder(folder: Optional[str]) -> Iterator[None]:
    """Makes a folder, if one is named and there is none, and those that it is in. Those that stay empty go again."""
    made = []
    if folder is not None:
        at = os.path.abspath(folder)
        while not os.path.lexists(at):
            made.append(at)
            at = os.path.dirname(at)
    try:
        if folder is not None:
            make_folder(folder)
        yield
    finally:
        for each in made:
            with contextlib.suppress(OSError):
                os.rmdir(each)
