"""A browser for the tests of a file, and another one after a test that failed. There pytest-rerunfailures, where it is
installed, runs the test once more: on a busy machine a part of Chromium may end.
"""
from pathlib import Path
from typing import Iterator, List

import pytest

from browser import Browser
from browser_page import MODULE

from dev.packaging.for_pages import page


@pytest.fixture(scope="module")
def browser() -> Iterator[Browser]:
    """Chromium with one page."""
    chromium = Browser()
    yield chromium
    chromium.close()


@pytest.fixture(scope="session")
def document() -> str:
    """The page naplps.html as text."""
    return page(Path(MODULE).read_bytes())


def pytest_collection_modifyitems(items: "List[pytest.Item]") -> None:
    """Has the tests of browsers tried twice at most."""
    for item in items:
        if "browser" in getattr(item, "fixturenames", ()):
            item.add_marker(pytest.mark.flaky(reruns=1))


def pytest_exception_interact(node: pytest.Item) -> None:
    """Takes another browser after a failure."""
    chromium = getattr(node, "funcargs", {}).get("browser")
    if chromium is not None:
        chromium.restart()
