"""Expressions of the page of a report in a browser, and its form."""
import hashlib

from browser import Browser

TOLD = "document.querySelector('#%s-pager span').textContent"
OPEN = "document.getElementById('details').open"
LEAVES = "[...document.querySelectorAll('#wall .leaf')].map((each) => each.textContent)"
WALL_TOLD = "document.getElementById('wall-told').textContent"
TITLE = "document.getElementById('details-title').textContent"
CLICK = "[...document.querySelectorAll(%r)].find((each) => each.textContent === %r).click()"


def part_of(data: bytes, beside: "bytes | None" = None) -> str:
    """The part of an address that names a page by its bytes, and perhaps one beside it."""
    parts = {"page": data} if beside is None else {"page": data, "beside": beside}
    return "#" + "&".join(f"{name}={hashlib.sha256(each).hexdigest()[:16]}" for name, each in parts.items())


def open_page(browser: Browser, address: str, data: bytes) -> None:
    """Opens a page of a report, by its bytes."""
    browser.open(address + part_of(data))
    browser.until(OPEN)


def choose(page: Browser, name: str, value: str) -> None:
    """Chooses a value of a field of the form."""
    page.run("((it) => {it.value = %r; it.onchange()})(document.getElementById(%r))" % (value, name))
