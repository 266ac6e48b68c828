"""What the tests of the library share: the library, programs in C that call it, and the vectors."""
from pathlib import Path
from typing import List

import pytest

from batch_requests import request
from dev.layout import TOP, Untried, find_library
from dev.vectors.rows import Vector, files, vectors_of
from samples import need


@pytest.fixture(scope="session")
def compiler() -> str:
    """The C compiler."""
    need("cc", "gcc")
    return "cc"


@pytest.fixture(scope="session")
def library() -> Path:
    """The folder of the library."""
    try:
        return find_library().absolute()
    except Untried as reason:
        pytest.skip(str(reason))


@pytest.fixture(scope="session")
def vectors() -> List[Vector]:
    """The vectors of all files."""
    return [vector for file in files() for vector in vectors_of(file)]


@pytest.fixture(scope="session")
def finds() -> bytes:
    """Requests for the pages among other bytes: those of the gallery, whole and cut, and none."""
    pages = [path.read_bytes() for path in sorted((TOP / "examples" / "gallery").glob("*.nap"))]
    image = b"".join(bytes(40) + page + b"\x80" + page[: len(page) // 2] for page in pages)
    return b"".join(request("find", least, part) for part in (image, image[:-9], b"") for least in (0, 1, 12, 1 << 26))
