"""The page naplps.html with files that take all they can: it answers meanwhile and after."""

from boxes import box
from browser_page import cards, choose, clicked, needs_module, opened
from canonical_trial import asked
from folders import write_files
from samples import POINT, needs_chromium

from module_hostile import pages

pytestmark = [needs_chromium, needs_module]
# The longest that the page may answer nothing, in milliseconds: less than one file may take.
LONGEST = 8000
WATCH = """(() => {
  let last = performance.now();
  window.longest = 0;
  setInterval(() => {
    window.longest = Math.max(window.longest, performance.now() - last);
    last = performance.now();
  }, 10);
})()"""
ASKED = "self.onmessage = ({ data }) => {"
SLOW = ASKED + " if (data.ask !== 'make' && data.bytes && data.bytes[0] === 0x5a) for (;;);"


def watched(browser, folder, text):
    """Opens the page from a file of a folder, and watches how long it answers nothing."""
    opened(browser, folder, text)
    browser.run(WATCH)


def is_usable(browser):
    """The page reads another file, and a page is made."""
    browser.run("document.getElementById('making').open = true")
    browser.until("document.getElementById('made').textContent === 'accepted 3 entries'")
    assert browser.errors == [] and browser.run("longest") < LONGEST


def test_hostile_pages_leave_the_page_usable(document, browser, tmp_path):
    watched(browser, tmp_path, document)
    files = {f"{number} {name}.nap": data for number, (name, data) in enumerate(pages().items())}
    choose(browser, write_files(tmp_path / "files", {**files, "point.nap": POINT}))
    texts = cards(browser)
    assert len(texts) == len(files) + 1 == 24 and "accepted 1 entries" in texts[-1]
    assert all("accepted " in text or "refused " in text or "not read: it takes more" in text for text in texts)
    is_usable(browser)
    for number, text in enumerate(texts):
        if "Details" in text:
            browser.run(clicked("Details", number))
            title = "[...document.querySelectorAll('.card h2')][%d].textContent" % number
            browser.until("document.querySelector('#detail h2')?.textContent === " + title)
    is_usable(browser)


def test_a_box_of_files_is_read_while_the_page_answers(document, browser, tmp_path, naplps):
    """And it asks no network for anything. (python3 -m dev.measure_box has 2,000 files, and tells the times.)"""
    watched(browser, tmp_path, document)
    files = box(200, 1)
    choose(browser, write_files(tmp_path / "files", files))
    texts, answers = cards(browser), asked(naplps, [*files.values()])
    accepted = [each.lines is not None for each in answers]
    assert len(texts) == 200 and ["accepted " in text for text in texts] == accepted and 100 < sum(accepted) < 200
    assert sum("It looks like " in text for text in texts) >= 10
    browser.run("scrollTo(0, document.body.scrollHeight)")
    browser.until("[...document.querySelectorAll('.card img')].slice(-1).every((each) => each.naturalWidth)")
    is_usable(browser)
    assert {each.split(":")[0] for each in browser.requests} <= {"file", "blob"}


def test_a_page_that_takes_ten_seconds_is_left(document, browser, tmp_path):
    assert document.count(ASKED) == 1
    watched(browser, tmp_path, document.replace(ASKED, SLOW))
    choose(browser, write_files(tmp_path / "files", {"slow.nap": b"Z", "point.nap": POINT}))
    slow, point = cards(browser)
    assert "not read: it takes more than ten seconds" in slow and "accepted 1 entries" in point
    assert "Details" not in slow and "Details" in point
    is_usable(browser)
