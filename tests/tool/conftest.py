"""What the tests of the tool and of the module share: the program as it is asked, and what the module asks."""
import os
import pathlib
from typing import Iterator, Union

import pytest

from libraries import library_path
from naplps import backends
from naplps.backends import LibraryBackend, ProgramBackend
from naplps.client import Client


@pytest.fixture(scope="module")
def program(naplps: str) -> Iterator[Client]:
    """The program, asked without the module."""
    client = Client(naplps)
    yield client
    client.close()


def asking(backend: Union[LibraryBackend, ProgramBackend]) -> Iterator[None]:
    """The module asks this."""
    before, backends._found = backends._found, backend
    yield
    backends._found = before


@pytest.fixture(scope="module")
def library() -> Iterator[None]:
    """The module asks the library."""
    yield from asking(LibraryBackend(library_path()))


@pytest.fixture(scope="module", params=["library", "program"])
def kind(request: pytest.FixtureRequest, naplps: str) -> Iterator[str]:
    """The module asks the one, and then the other."""
    is_library = request.param == "library"
    for _ in asking(LibraryBackend(library_path()) if is_library else ProgramBackend(naplps)):
        yield request.param


@pytest.fixture
def to(tmp_path: pathlib.Path) -> str:
    """A folder that a command makes."""
    return os.path.join(str(tmp_path), "to")


@pytest.fixture
def store(tmp_path: pathlib.Path) -> str:
    """The path of a store that isn't there yet."""
    return str(tmp_path / "pages.db")


@pytest.fixture
def pages(store: str) -> str:
    """The folder of which a test's store is."""
    return os.path.join(os.path.dirname(store), "pages")
