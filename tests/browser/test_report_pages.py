"""How pages of a report are found, by words and by treatments, and how they stand beside each other; in a browser."""
from random import Random

import pytest

from old_files import midst
from pictures import picture
from report_page import LEAVES, OPEN, choose, open_page, part_of
from reports import scanned, shown_report, words
from samples import OUTSIDE, POINT, SPELLED, needs_chromium, with_parity
from stream_writer import StreamWriter

pytestmark = needs_chromium
LINES = StreamWriter().clear().domain().at(0.1, 0.2, "SCORES", "normal").at(0.1, 0.6, "ICE HOCKEY", "normal").made()
FILES = {"accents.nap": b"\x0fMontr\x19\x42eal est belle", "can.nap": midst(picture(Random(5), 1), b"\x18"),
         "one.nap": POINT, "out.nap": OUTSIDE, "parity.nap": with_parity(words("NEWS")), "sub/lines.nap": LINES,
         "two.nap": SPELLED}


@pytest.fixture(scope="module", params=["file", "served"])
def address(request, naplps, tmp_path_factory):
    """The address of the report: of a file, and of a server."""
    store = scanned(naplps, str(tmp_path_factory.mktemp("found")), FILES)
    with shown_report(naplps, store, request.param) as found:
        yield found


@pytest.fixture
def wall(browser, address):
    """The wall, opened anew."""
    browser.size(1240, 900)
    browser.open(address)
    browser.until(LEAVES + ".length === %d" % len(FILES))
    yield browser
    assert browser.errors == [] and browser.run("document.body.dataset.fault") is None


def shows(wall, *names):
    """Waits until the wall has these pages alone."""
    wall.until("%s.join('/') === %r" % (LEAVES, "/".join(names)))


@pytest.mark.parametrize("typed, names", [
    ("montreal", ["accents.nap"]), ("MONTR\u00c9AL", ["accents.nap"]), ("Montre\u0301al bel", ["accents.nap"]),
    ("hock scores", ["lines.nap"]), ('"ice hockey"', ["lines.nap"]), ('"hockey ice"', []), ("ockey ice", []),
    ("news", ["parity.nap"]), ("sub/l", ["lines.nap"]), ("Group 1", ["one.nap", "two.nap"])])
def test_pages_are_found_by_their_words(wall, typed, names):
    wall.run("((it) => {it.value = %r; it.oninput()})(document.getElementById('text'))" % typed)
    shows(wall, *names)


@pytest.mark.parametrize("cure, names", [
    ("can (within, a guess)", ["can.nap"]), ("parity (around)", ["parity.nap"]), ("none", ["out.nap"])])
def test_pages_of_a_treatment(wall, cure, names):
    choose(wall, "cure", cure)
    shows(wall, *names)
    choose(wall, "cure", "")
    wall.until(LEAVES + ".length === %d" % len(FILES))


def test_first_words_stand_beside_each_name(wall):
    wall.run("location.hash = '#list'")
    wall.until("!document.getElementById('view-list').hidden")
    texts = wall.run("Object.fromEntries([...document.querySelectorAll('#files tr')].map((row) => [row.querySelector("
                     "'button.name').textContent, row.querySelector('.says')?.textContent || '']))")
    assert {**texts, "can.nap": ""} == {
        "accents.nap": "Montr\u00e9al est belle", "can.nap": "", "one.nap": "", "out.nap": "", "parity.nap": "NEWS",
        "sub/lines.nap": "ICE HOCKEY SCORES", "two.nap": ""} and texts["can.nap"]


def test_spellings_and_held_pages_stand_side_by_side(wall, address):
    for beside, pictures in ((None, ".equal .thumb"), (LINES, ".pictures figure"),
                             (FILES["accents.nap"], ".pictures figure")):
        wall.open(address + part_of(POINT, beside))
        wall.until(OPEN + " && document.querySelectorAll('#details %s img').length === 2" % pictures)
        one, two = wall.run("[...document.querySelectorAll('#details %s')].map((each) => {const box = "
                            "each.getBoundingClientRect(); return [box.left, box.right, box.top]})" % pictures)
        assert one[1] <= two[0] and one[2] == two[2]
    open_page(wall, address, POINT)
    assert wall.run("[...document.querySelectorAll('#details .equal h4')].map((each) => each.textContent)") == [
        "Spelling A, 5 bytes", "Spelling B, 5 bytes"]


def test_what_is_closed_plays_no_more(wall, address):
    told = "document.querySelector('.told').textContent"
    later = "new Promise((done) => setTimeout(() => done(%s), 400))" % told
    open_page(wall, address, LINES)
    wall.run("document.getElementById('as-played').click()")
    wall.until("document.querySelector('.player canvas')")
    wall.run("document.querySelector('.player').focus()")
    wall.press("1")
    wall.press(" ")
    wall.until("!%s.startsWith('Byte 0 ')" % told)
    wall.run("document.getElementById('as-sketch').click()")
    assert wall.run(told) == wall.run(later)
    wall.run("document.getElementById('as-played').click()")
    assert wall.run(told) == wall.run(later)
    wall.run("document.querySelector('.player').focus()")
    wall.press(" ")
    wall.press("Escape")
    wall.until("!" + OPEN)
    assert wall.run(told) == wall.run(later)


@pytest.mark.parametrize("gone", ["", "folder"])
def test_in_a_narrow_window_what_a_tile_says_is_shown_whole(wall, gone):
    wall.size(390, 900)
    wall.run("document.getElementById(%r)?.closest('.field').remove()" % gone)
    wall.until("document.querySelectorAll('#wall .badge').length >= 3")
    badges = wall.run("[...document.querySelectorAll('#wall .badge')].map((each) => [each.scrollWidth - "
                      "each.clientWidth, each.getBoundingClientRect().top - "
                      "each.closest('li').getBoundingClientRect().top])")
    assert all(more <= 0 and top >= 0 for more, top in badges)
    right = "document.getElementById(%r).getBoundingClientRect().right"
    assert abs(wall.run(right % "wall-told") - wall.run(right % "wall")) < 1
