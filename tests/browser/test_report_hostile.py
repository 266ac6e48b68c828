"""Names of files and addresses that others made, in reports and players: none acts, and none breaks the page."""
import os

import pytest

from packers import pack
from players import play
from report_page import OPEN, TITLE, open_page
from reports import ADDRESSES, HOSTILE, scanned, shown_report, words
from samples import needs_chromium
from scans import tree, wait_until

pytestmark = needs_chromium
LONGEST = 4000
# Names of members of a pack, which may be longer than those of files.
NAMES = ["w" * LONGEST, "\u05d0\u202e" * 300, "a b " * 900, "\x1b[31m" * 100, "<img src=x onerror=hacked=1>" * 50,
         "\u0301" * 900 + "x", "\u2028line\u2029end", "\U0001f600" * 200, "x/" * 100 + "deep"]
PLACE = ("(() => {const it = document.getElementById('%s').getBoundingClientRect(); return [it.top, it.bottom, "
         "it.left, it.right]})()")


@pytest.fixture(scope="module")
def pages():
    """Pages by their names."""
    return {name: words("PAGE %d" % at) for at, name in enumerate(NAMES)}


@pytest.fixture(scope="module", params=["file", "served"])
def address(request, naplps, tmp_path_factory, pages):
    """The address of the report: of a file, and of a server."""
    folder = tmp_path_factory.mktemp("names")
    (folder / "pages").mkdir()
    pack(str(folder / "pages" / "p.tar"), pages)
    store = scanned(naplps, str(folder), {"fine.nap": words("FINE")})
    with shown_report(naplps, store, request.param) as found:
        yield found


def require_harmless(page):
    """Nothing has acted, and nothing failed."""
    assert page.run("typeof hacked") == "undefined" and page.errors == []


@pytest.mark.parametrize("width", [390, 1240])
@pytest.mark.parametrize("view", ["pages", "list"])
def test_no_name_makes_a_view_wider(browser, address, width, view):
    browser.size(width, 900)
    browser.open(address + "#" + view)
    browser.until("document.getElementById('files').children.length === %d" % (len(NAMES) + 1))
    browser.until("document.documentElement.scrollWidth <= %d" % width)
    if view == "pages":
        browser.until("document.querySelectorAll('#wall .leaf').length === %d" % (len(NAMES) + 1))
        assert browser.run("[...document.querySelectorAll('#wall .leaf')].every((each) => each.clientHeight < 30)")
    require_harmless(browser)


@pytest.mark.parametrize("width", [390, 1240])
@pytest.mark.parametrize("name", NAMES, ids=range(len(NAMES)))
def test_no_name_hides_its_page(browser, address, pages, width, name):
    """The way to close it can be seen, and so can what is below the name."""
    browser.size(width, 900)
    open_page(browser, address, pages[name])
    top, bottom, left, right = browser.run(PLACE % "close")
    assert 0 <= top < bottom <= 450 and 0 <= left < right <= width
    assert browser.run("((it) => it.scrollWidth <= it.clientWidth)(document.getElementById('details'))")
    shown = browser.run(TITLE)
    assert all(each.isprintable() for each in shown) and len(shown) >= len("p.tar!") + 1
    assert browser.run("document.querySelectorAll('#details-title *').length") == 0
    browser.run("document.getElementById('close').click()")
    browser.until("!" + OPEN)
    require_harmless(browser)


@pytest.mark.parametrize("part", ADDRESSES, ids=range(len(ADDRESSES)))
def test_an_address_of_no_page_is_told_and_does_nothing(browser, address, part):
    browser.size(1240, 900)
    browser.open(address)
    before = browser.run("document.querySelectorAll('*').length")
    browser.run("location.hash = %r" % part)
    wait_until(lambda: browser.run("document.body.dataset.fault"))
    assert browser.run("document.getElementById('fault').childElementCount") == 0
    assert not browser.run(OPEN) and browser.run("document.querySelectorAll('*').length") <= before + 20
    assert browser.run("typeof hacked") == "undefined"
    assert browser.run("document.documentElement.scrollWidth") <= 1240


def test_a_report_is_whole_though_its_address_leads_nowhere(browser, address):
    browser.call("Page.navigate", url="about:blank")
    browser.call("Page.navigate", url=address + "#page=0123456789abcdef")
    wait_until(lambda: browser.run("document.body?.dataset.ready && document.querySelector('#groups-pager span')"
                                   "?.textContent"))
    assert "there is no page of the hash 0123456789abcdef" in browser.run("document.body.dataset.fault") or (
        address.startswith("http"))
    assert browser.run("!document.getElementById('view-pages').hidden && !document.getElementById('fault').hidden")


@pytest.mark.parametrize("name", [*HOSTILE, "x" * 251 + ".nap", "\u202e" * 80])
def test_no_name_acts_in_a_player(browser, naplps, tmp_path, name):
    path = os.path.join(tree(str(tmp_path), {name.replace("/", "\u2215"): words("PAGE")}), name.replace("/", "\u2215"))
    result, address = play(naplps, path, os.path.join(str(tmp_path), "player.html"))
    assert result.returncode == 0, result.stderr
    for width in (390, 1240):
        browser.size(width, 900)
        browser.open(address)
        browser.until("document.documentElement.scrollWidth <= %d" % width)
        require_harmless(browser)
