"""The page naplps.html in a browser: files that are dropped in, one page, pages that are made, hostile files."""
import csv
import io
import os
import re
import subprocess
import sys

import pytest

from browser_page import MODULE, cards, choose, clicked, needs_module, opened, saved, unpacked
from canonical_trial import asked
from command import TOP
from folders import write_files
from gallery import pages
from samples import OUTSIDE, POINT, SPELLED, needs_chromium
from sites import Silent, served
from stream_writer import StreamWriter

pytestmark = [needs_chromium, needs_module]
HOSTILE = "<img src=x onerror=alert(1)>.nap"


@pytest.fixture(scope="module")
def folder(tmp_path_factory):
    """A folder with the page."""
    folder = tmp_path_factory.mktemp("page")
    subprocess.run([sys.executable, "-m", "dev.browser", "--page", str(folder / "naplps.html"), "--module", MODULE],
                   check=True, cwd=TOP)
    return folder


@pytest.fixture(scope="module")
def address(folder):
    """The address of the page as a file of a disk."""
    return (folder / "naplps.html").as_uri()


def drop(browser, paths, count):
    """Drops files and folders into the page, as people do, and waits until so many files are read."""
    before = int(browser.run("document.body.dataset.read || 0"))
    data = {"items": [], "files": list(map(str, paths)), "dragOperationsMask": 1}
    for kind in ("dragEnter", "dragOver", "drop"):
        browser.call("Input.dispatchDragEvent", type=kind, x=300, y=300, data=data)
    browser.until(f"Number(document.body.dataset.read || 0) === {before + count}")


def test_files_are_answered_and_drawn(address, browser, tmp_path):
    browser.open(address)
    some = {name: data for name, data in pages().items() if "skyline" in name or name in ("weather.nap", "ferry.nap")}
    choose(browser, write_files(tmp_path / "files", {**some, HOSTILE: OUTSIDE, "a.gif": b"GIF89a..\xff",
                                                   "letter.txt": "Un \u00e9t\u00e9 en ville.\n".encode("latin-1")}))
    texts = "\n".join(cards(browser))
    assert texts.count("accepted ") == 4 and "refused 10 Outside at 3" in texts and "It looks like GIF." in texts
    assert "It looks like text in Latin-1." in texts
    assert HOSTILE in texts and texts.count("The same as skyline") == 2
    assert browser.run("document.getElementById('counted').textContent") == (
        "7 files: 4 accepted, 3 not; 3 different pages, 1 of them more than once")
    browser.until("[...document.querySelectorAll('.card img')].filter((each) => each.naturalWidth).length >= 4")
    assert browser.errors == [] and [each for each in browser.requests if each.startswith("http")] == []


NAMES = "[...document.querySelectorAll('.card h2')].map((each) => each.textContent)"


@pytest.fixture(params=["a disk", "a web server"])
def where(request, folder, address, browser):
    """Where the page is that is opened."""
    with served(folder, Silent) as top:
        browser.open(address if request.param == "a disk" else top + "naplps.html")
        yield request.param


def test_files_and_folders_are_dropped(browser, tmp_path, where):
    """A file, an empty folder, a folder with a folder in it, and one of more files than a browser gives at once."""
    [file] = write_files(tmp_path, {"single.nap": POINT})
    box, many = tmp_path / "box", tmp_path / "many"
    write_files(box, {"b.nap": SPELLED})
    write_files(box / "inner", {HOSTILE: OUTSIDE, "empty": b"", ".hidden": POINT})
    write_files(many, {f"{number:03}.nap": b"\x07" * number for number in range(250)})
    (tmp_path / "nothing").mkdir()
    # (a name that Windows can't have: Chromium gives it to a page of a web server alone)
    strange = [] if where == "a disk" else [f"box/inner/{HOSTILE}"]
    names = ["box/b.nap", "box/inner/.hidden", *strange, "box/inner/empty", "single.nap"]
    drop(browser, [file, box, tmp_path / "nothing"], len(names))
    assert browser.run(NAMES) == names
    assert browser.run("document.getElementById('note').hidden") is (where == "a web server")
    told = [re.search("accepted 1|accepted 0|refused 10", text)[0] for text in cards(browser)]
    assert told == ["accepted 1", "accepted 1", *["refused 10" for _ in strange], "accepted 0", "accepted 1"]
    drop(browser, [many], 250)
    assert browser.run(NAMES)[len(names):] == [f"many/{number:03}.nap" for number in range(250)]
    assert all(f"accepted {number} entries" in text for number, text in enumerate(cards(browser)[len(names):]))
    # (the window stays at the page, and opens no file)
    assert browser.run("location.href").endswith("naplps.html") and browser.errors == []


def test_of_too_many_files_the_first_are_read(document, browser, tmp_path):
    assert document.count("MOST_FILES = 20000") == 1
    paths = write_files(tmp_path / "files", {f"{number}.nap": POINT for number in range(5)})
    browser.call("Page.setBypassCSP", enabled=True)  # (the script isn't that of the policy any more)
    try:
        for some in ([tmp_path / "files"], paths):
            opened(browser, tmp_path, document.replace("MOST_FILES = 20000", "MOST_FILES = 3"))
            drop(browser, some, 3)
            assert browser.run("document.getElementById('fault').textContent") == (
                "Only the first 3 files of those are read.")
            assert not browser.run("document.getElementById('fault').hidden")
            assert len(cards(browser)) == 3 and browser.errors == []
    finally:
        browser.call("Page.setBypassCSP", enabled=False)


@pytest.mark.skipif(os.geteuid() == 0, reason="root reads every file")
def test_what_cant_be_read_is_named(address, browser, tmp_path):
    browser.open(address)
    files = write_files(tmp_path / "box", {"a.nap": POINT, "closed.nap": POINT})
    files[1].chmod(0)
    drop(browser, [tmp_path / "box"], 2)
    assert "accepted 1 entries" in cards(browser)[0] and "not read: " in cards(browser)[1] and browser.errors == []


def test_a_place_of_the_picture_marks_what_drew_it(address, browser, tmp_path):
    """The player's rows: a click into the picture marks that of the bytes, and says the line of what is there."""
    browser.open(address)
    made = StreamWriter().clear().domain().rectangle(0.1, 0.1, 0.3, 0.3).rectangle(0.6, 0.4, 0.3, 0.3).made()
    choose(browser, write_files(tmp_path / "files", {"two.nap": made}))
    browser.run(clicked("Details"))
    browser.until("document.querySelector('#detail canvas')")
    for x, y, row, entry in ((0.2, 0.2, 1, 2), (0.7, 0.5, 2, 3)):
        place = browser.run("""((it) => [it.left + it.width * %f, it.bottom - it.width * %f])(
          document.querySelector('#detail canvas').getBoundingClientRect())""" % (x, y))
        browser.click(*place)
        assert browser.run("document.querySelector('.code[aria-selected=true]').dataset.row") == str(row)
        about = browser.run("document.querySelector('.about').textContent")
        line = browser.run("document.querySelector('#detail pre').textContent").split("\n")[entry - 1]
        assert line.startswith("RECT-FILLED ") and line in about
    browser.run("document.querySelectorAll('.code')[0].click()")
    assert "CLEAR pen=start" in browser.run("document.querySelector('.about').textContent")
    assert browser.errors == []


def test_what_is_saved(address, browser, tmp_path, naplps):
    browser.open(address)
    files = write_files(tmp_path / "files", {"a.nap": POINT, "b.nap": SPELLED, "=c.nap": OUTSIDE})
    choose(browser, files)
    [answer] = asked(naplps, [POINT])
    assert saved(browser, clicked("Save canonical")) == answer.canonical
    browser.until("[...document.querySelectorAll('.card img')].every((each) => each.naturalWidth)")
    svg = saved(browser, clicked("Save SVG")).decode("utf-8")
    assert svg.startswith("<svg xmlns=") and "<title>a.nap</title>" in svg
    rows = list(csv.reader(io.StringIO(saved(browser, "document.getElementById('table').click()").decode("utf-8"))))
    assert rows[0] == ["name", "bytes", "status", "entries", "number", "fault", "place", "same"]
    accepted = ["5", "accepted", "1", "", "", "", "1"]
    refused = ["'=c.nap", "5", "refused", "", "10", "Outside", "3", ""]
    assert rows[1:] == [["a.nap", *accepted], ["b.nap", *accepted], refused]
    found = unpacked(saved(browser, "document.getElementById('zip').click()"))
    assert found == {"a.nap": answer.canonical, "b.nap": answer.canonical}


def test_one_page(address, browser, tmp_path):
    browser.open(address)
    files = {"weather.nap": pages()["weather.nap"], "bad.nap": POINT + OUTSIDE[1:]}
    choose(browser, write_files(tmp_path / "files", files))
    browser.run(clicked("Details"))
    browser.until("document.querySelector('#detail canvas') && !document.getElementById('detail').hidden")
    assert browser.run("document.querySelector('#detail pre').textContent").startswith("CLEAR pen=start\n")
    assert browser.run("document.activeElement.textContent") == "Close"
    browser.press("Escape")
    browser.until("document.getElementById('detail').hidden")
    browser.run(clicked("Details", 1))
    browser.until("document.querySelector('#detail').innerText.includes('What it means')")
    assert browser.run("document.querySelector('#detail pre').textContent").startswith("POINT 4194304,4194304 ")
    assert browser.errors == []


def test_pages_are_made_as_they_are_typed(address, browser, naplps):
    browser.open(address)
    browser.run("document.getElementById('making').open = true")
    browser.until("document.getElementById('made').textContent === 'accepted 3 entries'")
    type_ = "(() => { const it = document.getElementById('lines'); it.value = %r; it.oninput(); })()"
    browser.run(type_ % "BELL\nPOINT 1,1")
    wrong = subprocess.run([naplps, "make"], input=b"BELL\nPOINT 1,1\n", capture_output=True).stderr.decode("ascii")
    browser.until(f"document.getElementById('made').textContent === {wrong.strip()!r}")
    assert browser.run("document.getElementById('keep').disabled") is True
    browser.run(type_ % "BELL\n")
    browser.until("document.getElementById('made').textContent === 'accepted 1 entries'")
    assert saved(browser, "document.getElementById('keep').click()") == b"\x0e\x21\x5f\x07" and browser.errors == []


@pytest.mark.parametrize("wide, dark", [(390, False), (390, True), (1240, True)])
def test_it_fits(address, browser, tmp_path, wide, dark):
    browser.open(address)
    browser.size(wide, 900)
    browser.look(dark=dark)
    choose(browser, write_files(tmp_path / "files", {"a" * 200 + ".nap": POINT, "weather.nap": pages()["weather.nap"]}))
    browser.run(clicked("Details", 1))
    browser.until("document.querySelector('#detail canvas')")
    assert browser.run("document.documentElement.scrollWidth") <= wide
    browser.size(1240, 900)
    browser.look()
