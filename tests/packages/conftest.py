"""The packages, made once for all tests of this folder."""
import shutil
import tempfile
from pathlib import Path
from typing import Iterator, List

import pytest

from debs import CLEAN, Parts, copy_sources, make
from dev.layout import SONAME, Untried, find_library


@pytest.fixture(scope="session")
def open_folder() -> Iterator[Path]:
    """A folder that every user can read, which goes away again."""
    with tempfile.TemporaryDirectory() as name:
        folder = Path(name).resolve()
        folder.chmod(0o755)
        yield folder


@pytest.fixture(scope="session")
def parts(naplps: str, open_folder: Path) -> Parts:
    """Copies of the program and of the library that every user can read."""
    try:
        library = find_library()
    except Untried as reason:
        pytest.skip(str(reason))
    copies = Parts(open_folder / "program", open_folder / "library")
    shutil.copy(naplps, copies.program)
    copies.program.chmod(0o755)
    copies.library.mkdir(mode=0o755)
    for name in ("libnaplps.a", SONAME):
        Path(shutil.copy(library / name, copies.library)).chmod(0o644)
    return copies


@pytest.fixture(scope="session")
def packages(parts: Parts, open_folder: Path) -> List[Path]:
    """The packages naplps, libnaplps0 and libnaplps-dev, made in a copy of the sources."""
    for tool in ("dpkg-buildpackage", "dh", "dh_bash-completion"):
        if shutil.which(tool, path=CLEAN["PATH"]) is None:
            pytest.skip(f"{tool} isn't there (Debian: apt-get install dpkg-dev debhelper bash-completion)")
    return make(copy_sources(open_folder / "first"), parts)
