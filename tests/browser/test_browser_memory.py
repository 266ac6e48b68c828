"""How much memory naplps.html takes for one page, for all files together, and for those that wait; and the zip of files
that have one name."""
import base64
import csv
import hashlib
import io
import os

import pytest

from browser_page import LONG, MAX_MEMORY, MODULE, cards, choose, clicked, needs_module, opened, saved, unpacked
from canonical_trial import asked
from folders import write_files
from node import ask_node
from samples import OUTSIDE, POINT, SPELLED, needs_chromium, needs_node

pytestmark = needs_module
# Refused after so many entries that their lines have some 65 MB.
REFUSED = b"A" * (1 << 20) + OUTSIDE
NOT_MADE = ("Its canonical stream isn't made: that takes more than the 64 MiB of memory that a page has here. So it "
            "isn't compared with other files.")
NOT_KEPT = "Its canonical stream isn't kept: with those of the other files it has more than 128 MiB."
KEPT = "MOST_KEPT = 1 << 27"
COUNTED = "document.getElementById('counted').textContent"


def text_of(data):
    """Bytes as JSON has them here."""
    return base64.b64encode(data).decode("ascii")


def by_worker(*questions):
    """What the worker answers, and the most memory of its module."""
    result = ask_node("worker_answers.mjs", questions, MODULE)
    return result["answers"], result["memory"]


@needs_node
def test_a_page_has_64_mebibytes_of_memory():
    assert len(LONG.page) == 1024 and LONG.text > 170_000_000
    pages = (LONG.page, POINT, LONG.page, SPELLED)
    answers, memory = by_worker(*({"ask": "check", "bytes": text_of(data)} for data in pages))
    assert memory <= MAX_MEMORY
    assert [each["told"] for each in answers] == [f"accepted {LONG.entries} entries", "accepted 1 entries"] * 2
    assert [each["canonical"] is None for each in answers] == [True, False, True, False]
    assert [each["key"] for each in answers[::2]] == ["", ""] and answers[1]["key"] == answers[3]["key"] != ""


@needs_node
def test_letters_of_16_mebibytes_have_a_stream():
    [answer], memory = by_worker({"ask": "check", "bytes": text_of(b"A" * (1 << 24))})
    assert answer["canonical"] >= 1 << 24 and answer["key"].startswith(f"{answer['canonical']} ")
    assert memory <= MAX_MEMORY


@needs_node
def test_lines_that_need_more_memory_are_too_long():
    questions = [{"ask": ask, "words": "", "bytes": text_of(REFUSED)} for ask in ("check", "svg", "open")]
    (check, *others), memory = by_worker(*questions)
    assert check["told"] == f"refused 10 Outside at {len(REFUSED) - 2}" and memory <= MAX_MEMORY
    assert all(each["tooLong"] and "svg" not in each and "lines" not in each for each in others)


@needs_node
def test_a_file_that_is_read_again_is_as_it_was():
    own = hashlib.sha256(POINT).hexdigest()
    question = {"ask": "svg", "words": "a", "own": own}
    (first, other, [*_]), _ = by_worker({**question, "file": text_of(POINT)}, {**question, "file": text_of(SPELLED)},
                                        {"ask": "check", "bytes": text_of(POINT)})
    assert first["svg"].startswith("<svg ") and other["fault"] == "not read: the file has changed"


@needs_node
def test_checksums():
    lengths = [*range(200), 4095, 4096, 1_000_003]
    counting = bytes(range(256)) * 4000
    assert ask_node("sha256_answers.mjs", lengths) == [hashlib.sha256(counting[:each]).hexdigest() for each in lengths]


@needs_node
@pytest.mark.parametrize("names", [
    ["page.nap"] * 20_000, [f"page.nap {number}" for number in range(2, 10_000)] + ["page.nap"] * 10_000,
    [f"page.nap{' 2' * (number % 7)}" for number in range(20_000)]])
def test_equal_names_of_a_zip_take_few_steps(names):
    result = ask_node("zip_steps.mjs", names)
    assert result["steps"] <= 4 * len(names)
    found = unpacked(base64.b64decode(result["zip"]))
    assert len(found) == len(names)


@needs_node
def test_the_names_of_a_zip():
    names = ["a", "a", "a 2", "a", "b/../a", "a 2", "a 2 2", "", "/", "constructor", "__proto__", "__proto__"]
    found = unpacked(base64.b64decode(ask_node("zip_steps.mjs", names)["zip"]))
    assert [*found] == ["a", "a 2", "a 2 2", "a 3", "b/a", "a 2 3", "a 2 2 2", "page", "page 2", "constructor",
                        "__proto__", "__proto__ 2"]


@pytest.fixture(scope="module")
def browser(browser):
    """A browser that takes scripts which aren't those of the policy."""
    browser.call("Page.setBypassCSP", enabled=True)
    return browser


@needs_chromium
def test_a_page_whose_stream_needs_more_memory_is_accepted(document, browser, tmp_path, naplps):
    opened(browser, tmp_path, document)
    files = {"a.nap": LONG.page, "b.nap": LONG.page, "c.nap": POINT, "d.nap": SPELLED, "e.nap": OUTSIDE}
    choose(browser, write_files(tmp_path / "files", files))
    texts = cards(browser)
    assert all(f"accepted {LONG.entries} entries{NOT_MADE}" in text for text in texts[:2])
    assert all("Save canonical" not in text and "The same as" not in text for text in texts[:2])
    assert not any("canonical stream isn't" in text for text in texts[2:]) and "The same as c.nap" in texts[3]
    assert browser.run("[...document.querySelectorAll('.card .accepted')].length") == 4
    assert browser.run(COUNTED) == ("5 files: 4 accepted, 1 not; 1 different page, 1 of them more than once; "
                                    "2 accepted pages have no canonical stream here")
    rows = list(csv.reader(io.StringIO(saved(browser, "document.getElementById('table').click()").decode("utf-8"))))
    long = ["1024", "accepted", str(LONG.entries), "", "", "", ""]
    assert rows[1:3] == [["a.nap", *long], ["b.nap", *long]]
    [point] = asked(naplps, [POINT])
    found = unpacked(saved(browser, "document.getElementById('zip').click()"))
    assert found == {"c.nap": point.canonical, "d.nap": point.canonical}
    assert browser.errors == []


@needs_chromium
def test_streams_and_files_that_are_kept_have_a_limit(document, browser, tmp_path, naplps):
    """Of a file that isn't kept, the picture and the details come from the disk; once it has changed it has none."""
    length, large = len(asked(naplps, [POINT])[0].canonical), POINT + b"\0" * 100
    assert document.count(KEPT) == 1 and 10 <= 2 * length < 100
    opened(browser, tmp_path, document.replace(KEPT, f"MOST_KEPT = {2 * length}"))
    paths = write_files(tmp_path / "files", {"a.nap": POINT, "b.nap": SPELLED, "c.nap": large})
    choose(browser, paths)
    texts = cards(browser)
    assert [NOT_KEPT in text for text in texts] == [False, False, True]
    assert ["Save canonical" in text for text in texts] == [True, True, False]
    assert "accepted 1 entries" in texts[2] and "The same as a.nap, b.nap" in texts[2]
    assert browser.run(COUNTED) == ("3 files: 3 accepted, 0 not; 1 different page, 1 of them more than once; "
                                    "1 accepted page has no canonical stream here")
    assert [*unpacked(saved(browser, "document.getElementById('zip').click()"))] == ["a.nap", "b.nap"]
    browser.until("[...document.querySelectorAll('.card img')].every((each) => each.naturalWidth)")
    browser.run(clicked("Details", 2))
    browser.until("document.querySelector('#detail pre')?.textContent.startsWith('POINT 4194304,4194304 ')")
    browser.until("document.querySelector('#detail canvas')")
    for path in paths:
        path.write_bytes(OUTSIDE * 2)
    browser.run(clicked("Details", 2))
    browser.until("document.getElementById('detail').textContent.includes('not read: ')")
    browser.run(clicked("Details", 0))
    browser.until("document.querySelector('#detail h2').textContent === 'a.nap'")
    assert "not read: " not in browser.run("document.getElementById('detail').textContent") and browser.errors == []


AHEAD = """(() => {
  let size = 0;
  window.most = 0;
  const read = File.prototype.arrayBuffer, post = Worker.prototype.postMessage;
  File.prototype.arrayBuffer = function () {
    size += this.size;
    window.most = Math.max(window.most, size);
    return read.call(this);
  };
  Worker.prototype.postMessage = function (data) {
    if (data.ask === "check") size -= data.bytes.length;
    return post.call(this, data);
  };
})()"""


@needs_chromium
def test_files_that_wait_have_32_mebibytes(document, browser, tmp_path):
    opened(browser, tmp_path, document)
    browser.run(AHEAD)
    paths = write_files(tmp_path / "files", {**{f"{number}.nap": OUTSIDE for number in range(4)}, "small.nap": POINT})
    for path in paths[:4]:
        os.truncate(path, 12 << 20)
    choose(browser, paths)
    texts = cards(browser)
    assert all("refused 10 Outside at 3" in text for text in texts[:4]) and "accepted 1 entries" in texts[4]
    assert 0 < browser.run("most") <= 1 << 25 and browser.errors == []


IMAGE = "document.querySelectorAll('.card img')[%d]"


@needs_chromium
def test_pictures_are_those_of_cards_in_view(document, browser, tmp_path):
    opened(browser, tmp_path, document)
    files = {f"{number:02}.nap": POINT + b"\7" * number for number in range(60)}
    choose(browser, write_files(tmp_path / "files", files))
    first, last = (IMAGE % number for number in (0, 59))
    for place, seen, hidden in (("document.body.scrollHeight", last, first), ("0", first, last)):
        browser.run(f"scrollTo(0, {place})")
        browser.until(f"{seen}.naturalWidth && !{hidden}.hasAttribute('src')")
        assert browser.run(f"{hidden}.naturalWidth") == 0
        heights = browser.run("[...document.querySelectorAll('.card')].map((each) => each.clientHeight > 300)")
        assert all(heights)
    assert browser.run("[...document.querySelectorAll('.card img')].filter((each) => each.src).length") < 30
    assert browser.errors == []
