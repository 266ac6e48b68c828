"""Reports in a browser, from a file and served: what is shown, which keys reach it, and that nothing else acts."""
import hashlib
import os
import pathlib
import re

import pytest

from command import TOP
from contrasts import FAINT
from report_page import CLICK, LEAVES, OPEN, TITLE, TOLD, WALL_TOLD, choose, open_page, part_of
from reports import HOSTILE, MARKUP, collection, run_tool, shown_report, words
from samples import OUTSIDE, POINT, SPELLED, needs_chromium
from scans import wait_until

pytestmark = needs_chromium
NAMES = "[...document.querySelectorAll('#files td:first-child button')].map((each) => each.textContent)"
DETAILS = "document.getElementById('details').innerText"
COLUMNS = "new Set([...document.querySelectorAll('#wall > li')].map((each) => each.style.left)).size"


@pytest.fixture(scope="module")
def archive(naplps, tmp_path_factory):
    """A collection, its store, and how many files it has."""
    folder = str(tmp_path_factory.mktemp("archive"))
    _, number = collection(os.path.join(folder, "archive"))
    run_tool(naplps, folder, "scan", "archive", "-o", "pages.db")
    return os.path.join(folder, "pages.db"), number


@pytest.fixture(scope="module", params=["file", "served"])
def address(request, archive, naplps):
    """The address of the report: of a file, and of a server."""
    with shown_report(naplps, archive[0], request.param) as found:
        yield found


@pytest.fixture
def page(browser, address):
    """The list of the report, opened anew."""
    yield from opened(browser, address, "#list")


@pytest.fixture
def wall(browser, address):
    """The wall of the report, opened anew."""
    yield from opened(browser, address, "")


def opened(browser, address, part):
    """Opens a part; after the test it has reported no fault, asked for nothing else, and nothing has acted."""
    browser.size(1240, 900)
    browser.look()
    browser.open(address + part)
    browser.until(TOLD % "groups")
    yield browser
    browser.until("[...document.images].every((each) => each.complete && each.naturalWidth > 0)")
    assert browser.errors == [] and browser.run("document.body.dataset.fault") is None
    assert browser.run("typeof hacked") == "undefined"
    ways = r"((files|find|groups|details|drawing|thumbnail|played)\?[A-Za-z0-9=&%+*._~-]*)?"
    ways = ways if address.startswith("http") else ""
    own = re.compile(re.escape(address) + ways + "|blob:.*")
    assert [each for each in browser.requests if not own.fullmatch(each)] == [] == browser.referers


def search(page, text):
    """Types into the field for names, and waits for what is found."""
    before = page.run(TOLD % "files")
    page.run("(() => {const field = document.getElementById('text'); field.focus(); field.value = ''})()")
    page.call("Input.insertText", text=text)
    page.until("%s !== %r" % (TOLD % "files", before))


def details(page, name):
    """Opens the details of a file of this name; their text."""
    page.run(CLICK % ("button.name", name))
    page.until(OPEN + " && document.getElementById('details-title').textContent === %r" % name)
    return page.run(DETAILS)


def test_counts_and_the_first_parts(page, archive):
    assert page.run(TOLD % "files") == "1 to 100 of %d files" % archive[1]
    counts = page.run("Object.fromEntries([...document.querySelectorAll('.counts > div')].map((each) => "
                      "[each.querySelector('dt').textContent, each.querySelector('dd').textContent]))")
    assert counts["files"] == str(archive[1]) and counts["refused"] == "3" and counts["not read"] == "1"
    assert counts["groups of equal pages that are spelled differently"] == counts["groups of copies alone"] == "1"
    title = page.run("document.title")
    assert title == page.run("document.querySelector('h1').textContent") == "NAPLPS pages of archive"
    assert page.run(TOLD % "groups") == "1 to 1 of 1 group"


def test_a_very_long_text_is_looked_for_as_far_as_it_can_be_asked(page):
    search(page, "\u6f22" * 5000)
    assert page.run("document.getElementById('text').value.length") == 1000
    assert page.run(TOLD % "files") == "no files"


def test_no_pager_leads_anywhere_before_its_first_part(page):
    assert page.run(
        "(() => {const it = new Pager('groups', 1, 'group'), all = [it.back, it.next, it.told]; "
        "all.forEach((each) => each.remove()); return all.map((each) => each.disabled)})()") == [True, True, None]


def test_paging(page, archive):
    first = page.run(NAMES)
    assert page.run("document.querySelector('#files-pager button').disabled")
    page.run("document.querySelector('#files-pager button:last-child').click()")
    page.until(TOLD % "files" + ".startsWith('101 ')")
    behind = page.run(NAMES)
    assert len(first) == 100 and len(behind) == archive[1] - 100 and not set(first) & set(behind)
    assert page.run("document.querySelector('#files-pager button:last-child').disabled")
    page.run("document.querySelector('#files-pager button').click()")
    page.until(TOLD % "files" + ".startsWith('1 to')")
    assert page.run(NAMES) == first


def test_reasons(page):
    page.run("location.hash = '#summary'")
    page.until("!document.getElementById('view-summary').hidden")
    rows = page.run("[...document.querySelectorAll('.chart tbody tr')].map((row) => [...row.cells].map((each) => "
                    "each.innerText))")
    assert [row[0] for row in rows] == ["6 LeftOut CAN", "10 Outside", "19 Cut"]
    assert [row[2] for row in rows] == ["1"] * 3
    assert rows[0][4] == "The byte 18, cancel. It stops the macros that are being played."
    page.run(CLICK % (".chart button", "10 Outside"))
    page.until(TOLD % "files" + " === '1 to 1 of 1 file'")
    text = details(page, "refused/outside.nap")
    assert "A point of the picture code isn't on the unit screen" in text and "Place of the refusal\n3" in text
    assert "What to do" in text and page.run("document.activeElement.id") == "details-title"


def test_groups(page):
    page.run("location.hash = '#equal'")
    page.until("!document.getElementById('view-equal').hidden")
    card = page.run("document.querySelector('#groups > li').innerText")
    assert re.sub(r"\s+", " ", card).startswith("Group 1 3 files, 2 spellings, 1 entry ")
    assert card.count("Spelling A, 5 bytes") == card.count("Spelling B, 5 bytes") == 1
    page.run("document.getElementById('copies').click()")
    page.until(TOLD % "groups" + " === '1 to 2 of 2 groups'")
    assert page.run("document.querySelectorAll('#groups img')[1].alt") == "Sketch of Group 2, with the text: COPIED"
    page.run("document.querySelector('#groups > li:last-child .sketch').click()")
    page.until(OPEN)
    assert "Equal pages: group 2, 2 files, 1 spelling" in page.run(DETAILS)


def test_details(page):
    search(page, "page 01")
    text = details(page, "many/page 017.nap")
    assert "Answer\naccepted" in text and "\nText\nPAGE 17\nList: 8 entries" in text.replace("\n\n", "\n")
    assert "    1  CLEAR" in text
    page.run("document.getElementById('behind').click()")
    page.until("document.getElementById('details-title').textContent === 'many/page 018.nap'")
    page.press("ArrowRight")
    page.until("document.getElementById('details-title').textContent === 'many/page 019.nap'")
    assert page.run("document.getElementById('behind').disabled")


def test_what_is_no_page(page):
    text = details(page, "link.nap")
    assert "not a file: a symbolic link" in text and "There is no answer to draw" in text


def test_hostile_names_do_nothing(page):
    search(page, "hostile/")
    shown = page.run(NAMES)
    assert len(shown) == len(HOSTILE) + 2
    assert {"hostile/<img src=x onerror=hacked=1>.nap", "hostile/a\\u202egnp.nap", "hostile/line\\nend.nap",
            "hostile/\\xff\\xfe.nap", "hostile/@DATA@ @SCRIPT@ @HELD@.nap", "hostile/&lt;b&gt;.nap"} <= set(shown)
    elements = page.run("document.querySelectorAll('script, style, iframe, object, link').length")
    for name in shown:
        assert details(page, name).startswith(name)
        page.run("document.getElementById('close').click()")
    assert page.run("document.querySelectorAll('script, style, iframe, object, link').length") == elements


def test_hostile_texts_do_nothing(page):
    search(page, "hostile/text")
    assert MARKUP in re.sub(r"\n", "", details(page, "hostile/text.nap"))
    assert page.run("document.querySelector('#details img').alt") == (
        "Sketch of hostile/text.nap, with the text: " + page.run("document.querySelector('#details pre').textContent")
        .replace("\n", " "))


def test_a_keyboard_alone_reaches_everything(page):
    for view in ("#list", "#equal", "#summary", "#pages"):
        page.run("location.hash = %r" % view)
        page.until("!document.getElementById('view-%s').hidden" % view[1:])
        page.run("document.activeElement.blur()")
        for _ in range(400):
            page.press("Tab")
            if page.run("document.activeElement === document.body || (document.activeElement.reached = true, false)"):
                break
    missed = page.run("[...document.querySelectorAll('button, input, select, a')].filter((each) => !each.disabled && "
                      "each.tabIndex >= 0 && !each.closest('dialog') && !each.reached && "
                      "getComputedStyle(each).display !== 'none').map((each) => each.outerHTML)")
    assert missed == [] and page.run("document.querySelector('.sketch').reached")
    assert page.run("document.querySelectorAll('#wall .tile[tabindex=\"0\"]').length") == 1


def test_a_keyboard_alone_opens_and_closes(page):
    page.run("document.querySelector('#files button').focus()")
    page.press("Enter")
    page.until(OPEN)
    page.press("Tab")
    assert page.run("document.activeElement.closest('dialog') !== null")
    page.press("Escape")
    page.until("!" + OPEN)
    assert page.run("document.activeElement === document.querySelector('#files button')")


@pytest.mark.parametrize("opened", [False, True])
def test_all_pictures_and_controls_have_names(page, opened):
    if opened:
        details(page, "many/page 001.nap")
    nodes = page.call("Accessibility.getFullAXTree")["nodes"]
    roles = ("image", "img", "button", "textbox", "searchbox", "combobox", "checkbox", "link", "dialog", "region",
             "heading")
    found = [(each["role"]["value"], each.get("name", {}).get("value", "")) for each in nodes
             if not each.get("ignored") and each.get("role", {}).get("value") in roles]
    assert [each for each in found if not each[1]] == []
    assert {"button", "heading"} | ({"image", "dialog", "region"} if opened else {"link", "searchbox"}) <= {
        role.replace("img", "image") for role, _ in found}


@pytest.mark.parametrize("width", [360, 768, 1600])
@pytest.mark.parametrize("media, dark", [("", False), ("", True), ("print", True)])
def test_nothing_is_wider_than_the_page(page, width, media, dark):
    page.size(width, 900)
    page.look(media, dark)
    assert page.run("document.documentElement.scrollWidth") <= width
    light = page.run("getComputedStyle(document.body).backgroundColor") in ("rgb(255, 255, 255)", "rgb(245, 247, 249)")
    assert light == (media == "print" or not dark)
    shown = "none" if media else "grid" if width <= 700 else "flex"
    assert page.run("getComputedStyle(document.getElementById('bar')).display") == shown
    if not media:
        details(page, "equal/one.nap")
        assert page.run("((it) => it.scrollWidth <= it.clientWidth)(document.getElementById('details'))")


@pytest.mark.parametrize("dark", [False, True])
def test_all_texts_can_be_read(page, address, dark):
    """In the parts of a report, in a refused page, and in a player whose first code is chosen."""
    page.look(dark=dark)
    for part in ("pages", "list", "equal", "summary"):
        page.run("location.hash = %r" % part)
        page.until("!document.getElementById('view-%s').hidden" % part)
        assert page.run(FAINT) == []
    heads = "new Set([...document.querySelectorAll('.chart thead th')].map((each) => getComputedStyle(each).color))"
    assert page.run(heads + ".size") == 1
    for data in (OUTSIDE, POINT):
        open_page(page, address, data)
        assert page.run(FAINT) == []
    page.run("document.getElementById('as-played').click()")
    page.until("document.querySelector('.player .code')")
    page.run("document.querySelector('.player .code').click()")
    page.until("document.querySelector('.player .code[aria-selected=true]')")
    assert page.run(FAINT) == []


def test_the_wall(wall, archive):
    """All pages in the order of their names, without what is no page; pictures without the strip below."""
    assert wall.run("!document.getElementById('view-pages').hidden && document.getElementById('view-list').hidden")
    wall.until("document.querySelectorAll('#wall img').length > 10")
    some = wall.run(LEAVES)
    assert some[:5] == ["a.nap", "b.nap", "copy of one.nap", "one.nap", "two.nap"]
    assert wall.run(WALL_TOLD).endswith(" of %d pages" % (archive[1] - 1))
    # (pictures come in any order, so the first one may be another a moment later)
    wall.until("document.querySelector('#wall img').naturalHeight === 800")
    wall.until("document.querySelectorAll('#wall .says')[0].textContent === 'COPIED'")


WORDS = "{text: '', kind: '', answer: '', cure: '', folder: '', order: '', pages: true, from: 0, count: 60}"
KEYS = "(async () => (await (await SOURCE.open()).files(%s)).files.map((each) => each.key))()" % WORDS
SEEN = ("[...document.querySelectorAll('#wall > li')].filter("
        "(each) => each.getBoundingClientRect().top < innerHeight)")
DRAWN = "%s.every((each) => each.querySelector('img, .none'))" % SEEN


def asked_for(wall):
    """The keys of the thumbnails that were asked for, in their order."""
    return [each.split("key=")[1] for each in wall.requests if "/thumbnail?" in each]


def test_what_is_seen_of_the_wall_is_drawn_first_and_held(wall, address):
    if not address.startswith("http"):
        pytest.skip("a file asks nobody")
    wall.until(DRAWN)
    count, keys = wall.run(SEEN + ".length"), wall.run(KEYS)
    wall.until("document.querySelectorAll('#wall > li img, #wall > li .none').length > %d" % count)
    assert set(asked_for(wall)[:count]) == set(keys[:count])
    before, asked = wall.run("scrollY"), len(asked_for(wall))
    wall.run("scrollTo(0, document.documentElement.scrollHeight)")
    wall.until("!document.querySelector('#wall > li[data-at=\"0\"]')")
    wall.until(DRAWN)
    wall.run("scrollTo(0, %d)" % before)
    wall.until("document.querySelector('#wall > li[data-at=\"0\"]')")
    wall.until(DRAWN)
    assert len(asked_for(wall)) > asked and not set(asked_for(wall)[asked:]) & set(keys[:count])


def test_the_wall_has_elements_only_where_it_is_seen(wall, archive):
    number = archive[1] - 1
    few = wall.run("document.querySelectorAll('#wall > li').length")
    wall.run("document.querySelector('#wall .tile').focus()")
    wall.press("End")
    wall.until("document.activeElement.closest('li')?.dataset.at === '%d'" % (number - 1))
    wall.until("document.activeElement.querySelector('img')")
    label = wall.run("document.activeElement.getAttribute('aria-label')")
    assert label.startswith("refused/outside.nap, refused: outside")
    assert wall.run("document.querySelectorAll('#wall > li').length") <= few + 30 < number
    wall.press("Home")
    wall.until("document.activeElement.closest('li')?.dataset.at === '0'")
    for key, at in (("ArrowRight", 1), ("ArrowDown", 1 + wall.run(COLUMNS))):
        wall.press(key)
        assert wall.run("document.activeElement.closest('li').dataset.at") == str(at)


def test_a_page_of_the_wall_and_those_beside_it(wall):
    wall.until("document.querySelectorAll('#wall .leaf').length > 5")
    wall.run("document.querySelectorAll('#wall .tile')[2].focus()")
    wall.press("Enter")
    wall.until(OPEN + " && %s === 'equal/copy of one.nap'" % TITLE)
    wall.press("ArrowRight")
    wall.until(TITLE + " === 'equal/one.nap'")
    wall.press("Escape")
    wall.until("!" + OPEN)
    wall.until("document.activeElement.closest('li')?.dataset.at === '3'")
    wall.until("location.hash === '#pages'")


def test_each_page_has_an_address(wall, address):
    open_page(wall, address, SPELLED)
    assert wall.run(TITLE) == "equal/two.nap" and wall.run("location.hash") == part_of(SPELLED)
    wall.run("document.getElementById('before').click()")
    wall.until(TITLE + " === 'equal/one.nap'")
    assert wall.run("location.hash") == part_of(POINT)
    wall.run("document.getElementById('close').click()")
    wall.until("!" + OPEN + " && location.hash === '#pages'")
    wall.run("document.querySelectorAll('#wall .tile')[0].click()")
    wall.until(OPEN)
    wall.run("history.back()")
    wall.until("!" + OPEN)
    wall.open("%s#page=%s" % (address, hashlib.sha256(SPELLED).hexdigest()))
    wall.until(OPEN + " && %s === 'equal/two.nap'" % TITLE)


def test_two_pages_stand_side_by_side(wall, address):
    open_page(wall, address, words("PAGE 1"))
    wall.run("document.getElementById('hold').click()")
    wall.run("document.getElementById('behind').click()")
    wall.until(TITLE + " === 'many/page 002.nap'")
    shown = "[...document.querySelectorAll('.pictures img')].map((each) => each.alt)"
    both = ["Sketch of many/page 001.nap, with the text: PAGE 1", "Sketch of many/page 002.nap, with the text: PAGE 2"]
    part = part_of(words("PAGE 2"), beside=words("PAGE 1"))
    assert wall.run(shown) == both and wall.run("location.hash") == part
    wall.open(address + part)
    wall.until("document.querySelectorAll('.pictures img').length === 2")
    assert wall.run(shown) == both
    wall.run("document.getElementById('release').click()")
    assert wall.run(shown) == both[1:]


def test_a_sketch_is_saved(wall, address, tmp_path):
    wall.call("Browser.setDownloadBehavior", behavior="allow", downloadPath=str(tmp_path))
    open_page(wall, address, words("PAGE 1"))
    wall.run("document.getElementById('save').click()")
    path = os.path.join(str(tmp_path), "page 001.nap.svg")
    wait_until(lambda: os.path.exists(path) and pathlib.Path(path).read_text("utf-8").endswith("</svg>\n"))
    text = pathlib.Path(path).read_text("utf-8")
    assert text.startswith("<svg ") and ">PAGE 1</text>" in text


def test_a_page_is_played_beside_its_sketch(wall, address):
    open_page(wall, address, POINT)
    assert wall.run("document.querySelector('.tabs [aria-pressed=true]').textContent") == "Sketch"
    wall.run("document.getElementById('as-played').click()")
    wall.until("document.querySelector('.player canvas')")
    assert wall.run("document.querySelector('.pictures').hidden && document.querySelector('.player').clientWidth > 0")
    wall.until("document.querySelector('.told').textContent.startsWith('Byte 5 of 5, entry 1 of 1')")
    assert wall.run("[...document.querySelectorAll('.code .bytes')].map((each) => each.textContent)") == [
        "0e", "26 52 40 40"]
    title = wall.run(TITLE)
    wall.run("document.querySelector('.player').focus()")
    wall.press("ArrowLeft")
    wall.until("document.querySelector('.told').textContent.startsWith('Byte 0 of 5, entry 0 of 1')")
    assert wall.run(TITLE) == title
    wall.run("document.getElementById('as-sketch').click()")
    assert wall.run("document.querySelector('.player').clientWidth") == 0
    assert not wall.run("document.querySelector('.pictures').hidden")


def test_a_sketch_of_another_spelling_isnt_played_in_its_place(wall, address):
    found = []
    for name in ("equal/one.nap", "equal/two.nap"):
        wall.run("(async () => {const source = await SOURCE.open(), found = await source.files({text: %r, answer: '', "
                 "kind: '', cure: '', folder: '', order: '', pages: false, from: 0, count: 1}); window.answered = "
                 "await source.played(found.files[0].key)})()" % name)
        found.append(wall.run("window.answered.page && atob(window.answered.page.bytes).charCodeAt(1)"))
    assert found == ([0x26, 0x27] if address.startswith("http") else [0x26, None])


@pytest.mark.parametrize("width", [390, 1240])
def test_the_way_past_the_head_is_seen_as_a_whole_where_the_focus_is(wall, width):
    wall.size(width, 900)
    wall.call("Emulation.setFocusEmulationEnabled", enabled=True)  # (a test before may have left the page by Tab)
    wall.run("document.querySelector('.skip').focus()")
    left, top, right, bottom, head = wall.run(
        "((box, head) => [box.left, box.top, box.right, box.bottom, head.top])"
        "(...['.skip', 'h1'].map((each) => document.querySelector(each).getBoundingClientRect()))")
    wall.call("Emulation.setFocusEmulationEnabled", enabled=False)
    around = 5  # (of its outline)
    assert around <= left < right <= width - around and around <= top < bottom <= head - around


def test_pages_that_blink_are_marked_on_the_wall(browser):
    browser.size(1240, 3000)
    browser.open(pathlib.Path(TOP, "examples", "gallery.html").as_uri())
    browser.until("document.querySelectorAll('#wall img').length > 12")
    browser.until("document.querySelectorAll('#wall .blinks').length > 1")
    marked = "[...document.querySelectorAll('#wall .blinks')].map((each) => each.closest('button').%s)"
    assert browser.run(marked % "querySelector('.leaf').textContent") == ["ferry.nap", "palette.nap"]
    assert all(label.endswith(", blinks") for label in browser.run(marked % "getAttribute('aria-label')"))
    assert browser.run(marked % "querySelectorAll('.blinks').length") == [1, 1] and browser.errors == []


def test_filters_of_the_wall(wall):
    choose(wall, "folder", "refused")
    wall.until(WALL_TOLD + " === '1 to 3 of 3 pages'")
    wall.until(LEAVES + ".length === 3")
    assert wall.run(LEAVES) == ["cancelled.nap", "cut.nap", "outside.nap"]
    choose(wall, "answer", "19 Cut")
    wall.until(WALL_TOLD + " === '1 to 1 of 1 page'")
    wall.until("document.querySelector('#wall .badge')?.textContent === 'refused: cut'")
    choose(wall, "folder", "")
    choose(wall, "answer", "")
    choose(wall, "order", "group")
    wall.until("document.querySelector('#wall .badge')?.textContent === 'group 1'")
    wall.until(LEAVES + ".length > 5")
    assert set(wall.run(LEAVES)[:3]) == {"copy of one.nap", "one.nap", "two.nap"}
    assert wall.run(LEAVES)[3:5] == ["a.nap", "b.nap"]


@pytest.mark.parametrize("width", [390, 768, 1600])
@pytest.mark.parametrize("media, dark", [("", False), ("", True), ("print", True)])
def test_the_wall_is_as_wide_as_the_window(wall, width, media, dark):
    wall.size(width, 900)
    wall.look(media, dark)
    wall.until("document.querySelectorAll('#wall img').length > 3")
    if not media:
        wall.until("%s === %d" % (COLUMNS, {390: 2, 768: 3, 1600: 7}[width]))
    wall.until("document.documentElement.scrollWidth <= %d" % width)
    assert wall.run("getComputedStyle(document.querySelector('nav')).display") == ("none" if media else "flex")


def test_what_gets_into_the_page_all_the_same_does_nothing(browser, address):
    browser.open(address)
    browser.run("document.body.insertAdjacentHTML('beforeend', '<img src=x onerror=hacked=1>"
                "<p style=color:red onclick=hacked=1><iframe src=data:text/html,x></iframe>')")
    browser.run("document.querySelector('p[onclick]').click()")
    browser.run("document.body.append(Object.assign(document.createElement('script'), {textContent: 'hacked=1'}))")
    assert browser.run("fetch('http://127.0.0.1:9/x').then(() => 'asked', () => 'not asked')") == "not asked"
    assert browser.run("new Promise((done) => setTimeout(() => done(typeof hacked), 200))") == "undefined"
    browser.tells_error("Content Security Policy", 4)
