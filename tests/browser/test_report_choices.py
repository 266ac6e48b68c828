"""What can be chosen on a wall, and what a report says where it finds, draws or plays nothing; in a browser."""
import pytest

from naplps_pages.report import making
from naplps_pages.report.drawing import Drawing
from report_page import CLICK, LEAVES, OPEN, TOLD, WALL_TOLD, choose, open_page
from reports import report_address, scanned, shown_report, words
from samples import OUTSIDE, POINT, SPELLED, needs_chromium, with_parity

pytestmark = needs_chromium
FILES = {"a page.nap": words("MENU"), "blank.nap": b"", "gif.nap": b"GIF89a\x81" * 9, "one.nap": POINT,
         "out.nap": OUTSIDE, "parity.nap": with_parity(words("NEWS")), "two.nap": SPELLED,
         "long " * 40 + "/text.nap": b"\x0fhello"}
NONE = "document.getElementById('%s-none').innerText"
SHOWN = "document.getElementById('details-body').innerText.replace(/\\s+/g, ' ')"


@pytest.fixture(scope="module")
def store(naplps, tmp_path_factory):
    """The store of a few files of all kinds."""
    return scanned(naplps, str(tmp_path_factory.mktemp("kinds")), FILES)


@pytest.fixture(scope="module", params=["file", "served"])
def address(request, naplps, store):
    """The address of the report: of a file, and of a server."""
    with shown_report(naplps, store, request.param) as found:
        yield found


@pytest.fixture
def wall(browser, address):
    """The wall, opened anew."""
    browser.size(1240, 900)
    browser.open(address)
    yield browser
    assert browser.errors == [] and browser.run("document.body.dataset.fault") is None


@pytest.mark.parametrize("kind, wanted", [
    ("page", ["a page.nap", "one.nap", "two.nap"]), ("text", ["text.nap"]), ("blank", ["blank.nap"]),
    ("looks like GIF", ["gif.nap"])])
def test_pages_of_a_kind(wall, kind, wanted):
    assert wall.run("[...document.getElementById('kind').options].map((each) => each.value)") == [
        "", "page", "blank", "looks like GIF", "text"]
    choose(wall, "kind", kind)
    number = len(wanted)
    wall.until("%s === '1 to %d of %d page%s'" % (WALL_TOLD, number, number, "" if number == 1 else "s"))
    wall.until("%s.join('/') === %r" % (LEAVES, "/".join(wanted)))
    choose(wall, "answer", "10 Outside")
    wall.until(WALL_TOLD + " === 'no pages'")


def test_what_is_no_page_is_hidden_until_it_is_asked_for_and_is_a_tile_with_its_kind(wall):
    wall.until("%s.join('/') === 'a page.nap/one.nap/out.nap/parity.nap/two.nap'" % LEAVES)
    assert "(3)" in wall.run("document.getElementById('others').parentElement.textContent")
    wall.run("document.getElementById('others').click()")
    wall.until(LEAVES + ".length === 8")
    assert wall.run(LEAVES) == ["a page.nap", "gif.nap", "one.nap", "out.nap", "parity.nap", "two.nap", "text.nap",
                                "blank.nap"]
    tiles = ("[...document.querySelectorAll('#wall .tile')].map((each) => "
             "each.querySelector('.none')?.textContent || '')")
    wall.until("document.querySelectorAll('#wall img').length === 5")
    assert wall.run(tiles) == ["", "GIF", "", "", "", "", "text", "blank"]


def test_each_page_is_shown_once(wall):
    wall.run("document.getElementById('once').click()")
    wall.until("%s.join('/') === 'a page.nap/one.nap/out.nap/parity.nap'" % LEAVES)
    assert wall.run(WALL_TOLD) == "1 to 4 of 4 pages"
    wall.run("document.getElementById('once').click()")
    wall.until(LEAVES + ".length === 5")


def test_names_have_their_folders_in_small_print_and_what_is_told_in_words(wall):
    wall.run("document.getElementById('others').click()")
    wall.until(LEAVES + ".length === 8")
    told = ("[...document.querySelectorAll('#wall .tile')].map((each) => ['.leaf', '.folder', '.badge'].map("
            "(part) => each.querySelector(part)?.textContent || ''))")
    found = {leaf: more for leaf, *more in wall.run(told)}
    assert found["text.nap"] == ["long " * 40 + "/", ""] and found["one.nap"] == ["", ""]
    assert found["out.nap"] == ["", "refused: outside"] and found["parity.nap"] == ["", "readable by parity"]


def test_on_a_phone_the_filters_are_behind_one_button(wall):
    seen = ("[...document.querySelectorAll('#bar select, #bar [type=checkbox], #filters')]"
            ".filter((each) => each.offsetParent).map((each) => each.id)")
    every = wall.run(seen)
    assert "filters" not in every and {"kind", "answer", "cure", "folder", "order", "once", "others"} <= set(every)
    wall.size(390, 844)
    assert wall.run(seen) == ["filters"]
    wall.run("document.getElementById('filters').click()")
    assert set(wall.run(seen)) == {*every, "filters"}
    assert wall.run("document.getElementById('filters').getAttribute('aria-expanded')") == "true"
    choose(wall, "kind", "page")
    wall.until("document.getElementById('filters').textContent === 'Filters (1)'")


@pytest.mark.parametrize("kind", ["file", "served"])
def test_a_readable_copy_says_which_page_draws_the_same(browser, naplps, tmp_path, kind):
    files = {"plain.nap": words("ONE"), "old/parity.nap": with_parity(words("ONE")), "other.nap": words("TWO")}
    with shown_report(naplps, scanned(naplps, str(tmp_path), files), kind) as address:
        browser.open(address)
        browser.until("document.querySelector('#groups li')")
        sentence = browser.run("document.querySelector('#groups').innerText")
        assert "2 files, 2 spellings" in sentence and "1 readable copy" in sentence and "readable by parity" in sentence
        assert sentence.index("plain.nap") < sentence.index("readable by parity") < sentence.index("old/parity.nap")
        browser.run(CLICK % ("#files button.name", "old/parity.nap"))
        browser.until(OPEN + " && %s.includes('draws what plain.nap draws')" % SHOWN)
        browser.run(CLICK % (".reasons button.name", "plain.nap"))
        browser.until("document.getElementById('details-title').textContent === 'plain.nap'")
        assert "readable by parity" in browser.run(SHOWN)
        browser.run("document.getElementById('close').click(); document.getElementById('once').click()")
        browser.until("%s.join('/') === 'other.nap/plain.nap'" % LEAVES)


@pytest.mark.parametrize("view, what, name", [("pages", "pages", "wall"), ("list", "files", "files")])
def test_where_nothing_is_found_there_is_a_way_back(wall, view, what, name):
    wall.run("location.hash = %r" % ("#" + view))
    wall.until("!document.getElementById('view-%s').hidden" % view)
    assert wall.run(NONE % name) == ""
    choose(wall, "kind", "text")
    choose(wall, "answer", "10 Outside")
    wall.until("%s === 'There are no such %s. Show all %s'" % (NONE % name, what, what))
    wall.run(CLICK % ("#%s-none button" % name, "Show all " + what))
    wall.until("%s === '' && %s === '1 to 8 of 8 files'" % (NONE % name, TOLD % "files"))
    assert wall.run("document.getElementById('kind').value + document.getElementById('answer').value") == ""


def test_a_page_without_a_sketch_says_how_to_see_it(browser, naplps, store):
    address = report_address(naplps, store, "none.html", "--max-pictures", "0")
    open_page(browser, address, FILES["a page.nap"])
    sentence = ("This report has no sketch of it. To see it: naplps-pages show 'a page.nap' -o page.svg or "
                "naplps-pages report STORE --serve")
    told = browser.run(SHOWN)
    assert sentence in told and "Text begins MENU" in told


def test_a_page_that_is_not_played_says_how_to_play_it(browser, naplps, store):
    address = report_address(naplps, store, "played.html")
    open_page(browser, address, FILES["two.nap"])
    browser.run("document.getElementById('as-played').click()")
    sentence = ("This report can play 7 pages, and not this one. To play it: naplps-pages show two.nap -o page.html or "
                "naplps-pages report STORE --serve")
    browser.until("%s.includes(%r)" % (SHOWN, sentence))


@pytest.mark.parametrize("kind", ["file", "served"])
def test_a_capture_is_named_and_says_what_cuts_it(browser, naplps, tmp_path, kind):
    files = {"a tape": words("ONE") + b"\x18" + words("TWO"), "one": words("ONE")}
    with shown_report(naplps, scanned(naplps, str(tmp_path), files), kind) as address:
        browser.open(address)
        browser.until("document.querySelector('#wall')?.innerText.includes('capture')")
        assert browser.run("document.querySelector('#wall').innerText.match(/capture/g).length") == 1
        browser.run(CLICK % ("#files button.name", "a tape"))
        browser.until(OPEN + " && %s.includes('Kind capture')" % SHOWN)
        assert "Kind capture: several pages, of which this shows the first; naplps-pages fix 'a tape' -o fixed " \
            "cuts it into them Bytes" in browser.run(SHOWN)
        browser.run("document.getElementById('behind').click()")
        browser.until(SHOWN + ".includes('Kind page Bytes')")


def test_the_top_says_how_many_pages_can_be_played():
    some = [(0, Drawing(played="{}")), (1, Drawing()), (2, Drawing(played="{}"))]
    assert making._held_sentence(some, 5000) == (
        "3 of 5,000 sketches are in this file; 2 of these pages can be played. "
        "naplps-pages report --serve shows the others too.")
    assert making._held_sentence(some, 3) == "3 of 3 sketches are in this file; 2 of these pages can be played."
    assert making._held_sentence(some[:1], 1) == "1 of 1 sketches are in this file."


@pytest.mark.parametrize("width", [390, 700, 1240])
def test_the_fields_of_the_form_are_as_wide_as_there_is_room(wall, width):
    wall.size(width, 900)
    if width <= 700:
        wall.run("document.getElementById('filters').click()")
    boxes = wall.run("[...document.querySelectorAll('#bar [type=search], #bar select')].map((each) => {const box = "
                     "each.getBoundingClientRect(); return [box.left, box.right, box.top, box.bottom]})")
    assert all(0 <= left < right <= width for left, right, _, _ in boxes)
    assert all(one[1] <= two[0] or two[1] <= one[0] or one[3] <= two[2] or two[3] <= one[2]
               for at, one in enumerate(boxes) for two in boxes[:at])
    tops = sorted(top for _, _, top, _ in boxes)
    lines = 1 + sum(below - top > 10 for top, below in zip(tops, tops[1:]))
    assert lines <= (4 if width <= 700 else 2) and len(boxes) == 6
