"""The picture in JavaScript beside the sketch, and the element <naplps-page> in a browser, under a strict policy."""
import json
import os
import re
import subprocess

import pytest

from browser_page import MODULE, needs_module
from canonical_trial import asked, framed
from canonical_vectors import vectors
from command import LIB
from element_page import make_element, make_page
from gallery import pages
from naplps.dots import raster
from naplps.drawing.walk import drawn
from naplps.entry import read_line
from samples import needs_chromium, needs_node
from sites import served


@needs_node
def test_pictures_are_the_sketches(naplps):
    found = [(stream, lines) for stream, lines in vectors() if len(lines) < 3_000]
    answers = [each for each in asked(naplps, list(pages().values())) if each.canonical]
    found += [(each.canonical, each.lines.decode("ascii").splitlines()) for each in answers]
    pictures = subprocess.run(["node", os.path.join(LIB, "picture_answers.mjs")], capture_output=True, check=True,
                              input=framed(stream for stream, _ in found)).stdout.splitlines()
    compared = 0
    for (stream, lines), line in zip(found, pictures):
        mine, paper = json.loads(line), drawn(lines, prefix="n").paper
        assert mine.startswith("<svg xmlns=") and mine.count("<title>A &lt;page&gt; &amp; \"more\"</title>") == 1
        if "url(#" in mine:
            continue  # (names of patterns have an address here, and a colour there)
        wanted = (f"<defs>{''.join(paper.definitions)}</defs>" if paper.definitions else "", "".join(paper.page))
        assert all(part in mine for part in wanted), stream[:200].hex()
        compared += 1
    assert compared > 2_000


@pytest.fixture(scope="module")
def site(tmp_path_factory, naplps):
    """The address of a site with the element and pages."""
    folder = tmp_path_factory.mktemp("site")
    make_element(folder / "naplps-page.js")
    names = ("weather.nap", "ferry.nap", "glyphs.nap")
    for name, answer in zip(names, asked(naplps, [pages()[name] for name in names])):
        (folder / name).write_bytes(answer.canonical)
    (folder / "relative.nap").write_bytes(pages()["skyline, relative.nap"])
    elements = ('<naplps-page id="a" src="weather.nap" alt="A &lt;b&gt;map&lt;/b&gt;"></naplps-page>'
                '<naplps-page id="b" src="glyphs.nap"></naplps-page>'
                '<naplps-page id="c" src="relative.nap" alt="&lt;img src=x onerror=alert(1)&gt;"></naplps-page>'
                '<naplps-page id="d" src="nowhere.nap" alt="nothing"></naplps-page>')
    dots = ('<naplps-page id="f" src="weather.nap" alt="A &lt;b&gt;map&lt;/b&gt;" view="dots"></naplps-page>'
            '<naplps-page id="g" src="glyphs.nap" view="dots"></naplps-page>'
            '<naplps-page id="h" src="relative.nap" view="dots"></naplps-page>')
    full = '<naplps-page id="e" src="relative.nap" alt="a skyline" reader="full"></naplps-page>'
    for name, some in {"index.html": elements, "dots.html": dots, "full.html": full}.items():
        make_page(folder, name, some)
    (folder / "naplps.wasm").symlink_to(MODULE)
    with served(folder) as address:
        yield address


def inside(browser, name, part):
    return browser.run(f"document.getElementById('{name}').shadowRoot.{part}")


@needs_chromium
def test_the_element_shows_canonical_pages(site, browser):
    browser.open(site + "index.html")
    told = {name: (event, message) for name, event, message in browser.run("told")}
    assert (told["a"], told["b"]) == (("load", ""), ("load", "")) and told["c"][0] == told["d"][0] == "error"
    assert inside(browser, "a", "querySelector('svg').getAttribute('aria-label')") == "A <b>map</b>"
    assert inside(browser, "a", "querySelectorAll('path, rect, text').length") > 40
    assert inside(browser, "a", "querySelector('svg').getBoundingClientRect().width") > 300
    assert inside(browser, "b", "querySelector('svg').getAttribute('aria-hidden')") == "true"
    assert inside(browser, "b", "querySelectorAll('use').length") > 0
    # (the browser reports that nowhere.nap isn't there; nothing else)
    assert len([each for each in browser.errors if "404" not in each]) == 0
    assert not [each for each in browser.requests if not each.startswith((site, "about:"))]


PELS = """(() => {
  const canvas = document.getElementById('%s').shadowRoot.querySelector('canvas');
  return Array.from(canvas.getContext('2d').getImageData(0, 0, canvas.width, canvas.height).data);
})()"""


def painted(answer):
    """The pels of a page, from the uppermost row down, by the raster in Python."""
    made = raster([read_line(line) for line in answer.lines.decode("ascii").splitlines()])
    colours = made.colours()
    shown = (colours[ink] for row in made.rows() for ink in row)
    return [part for colour in shown for part in (colour >> 16, colour >> 8 & 255, colour & 255, 255)]


@needs_chromium
def test_the_element_shows_the_dots_of_pages(site, browser, naplps):
    browser.open(site + "dots.html")
    told = {name: (event, message) for name, event, message in browser.run("told")}
    assert (told["f"], told["g"], told["h"][0]) == (("load", ""), ("load", ""), "error")
    for name, page in (("f", "weather.nap"), ("g", "glyphs.nap")):
        [answer] = asked(naplps, [pages()[page]])
        assert browser.run(PELS % name) == painted(answer), page
    assert inside(browser, "f", "querySelector('canvas').getAttribute('aria-label')") == "A <b>map</b>"
    assert inside(browser, "f", "querySelector('canvas').getAttribute('role')") == "img"
    assert inside(browser, "f", "querySelector('canvas').getBoundingClientRect().width") > 300
    assert inside(browser, "g", "querySelector('canvas').getAttribute('aria-hidden')") == "true"
    assert "the page isn't shown" in inside(browser, "h", "textContent") and browser.errors == []
    browser.run("document.getElementById('f').removeAttribute('view')")
    browser.until("document.getElementById('f').shadowRoot.querySelector('svg') !== null")
    assert inside(browser, "f", "querySelectorAll('canvas').length") == 0


@needs_chromium
def test_a_page_that_is_not_shown_says_why(site, browser):
    browser.open(site + "index.html")
    assert inside(browser, "c", "textContent") == ("<img src=x onerror=alert(1)>: the page isn't shown. "
                                                   "refused BadHeader at 0")
    assert inside(browser, "d", "textContent") == "nothing: the page isn't shown. it can't be fetched: 404"
    assert inside(browser, "c", "querySelectorAll('img').length") == 0


@needs_chromium
def test_another_page_takes_its_place(site, browser):
    browser.open(site + "index.html")
    before = inside(browser, "a", "innerHTML.length")
    browser.run("document.getElementById('a').src = 1, document.getElementById('a').setAttribute('src', 'ferry.nap')")
    browser.until(f"document.getElementById('a').shadowRoot.innerHTML.length !== {before}")
    assert "HARBOUR" in inside(browser, "a", "textContent")


@needs_chromium
@needs_module
def test_any_page_by_the_module(site, browser):
    browser.open(site + "full.html")
    assert browser.run("told") == [["e", "load", ""]] and browser.errors == []
    assert inside(browser, "e", "querySelectorAll('polygon, path, rect').length") > 5


def test_its_script_can_stand_in_a_page(tmp_path):
    make_element(tmp_path / "naplps-page.js")
    text = (tmp_path / "naplps-page.js").read_text("utf-8")
    assert "</script" not in text and not re.search(r"^(import|export) ", text, re.MULTILINE) and len(text) < 150_000
