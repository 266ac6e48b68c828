"""Players: that they show what a sketch shows, when it came, and that what is hostile in a page does nothing."""
import json
import os
import re

import pytest

import gallery
import naplps as nap
from command import TOP, file
from naplps import drawing
from naplps.answers import Refusal
from naplps.client import Client
from naplps.drawing.walk import MOST_DRAWN
from naplps.entry import ONE, placed
from naplps_pages.listing import listed
from naplps_pages.player import played
from naplps_pages.source import Page
from players import COMPARED, drawn_of, how_like, like, play
from samples import POINT, needs_chromium, needs_node
from sketches import bomb
from stream_writer import StreamWriter

pytestmark = needs_chromium
FOLDER = os.path.join(TOP, "examples", "gallery")
PAGES = gallery.NAMES
# Shapes are told by the entries that they came with; a run of letters is one.
STEPS = "player.screen.table.steps.map((step, at) => step.draw ? at : -1).filter((at) => at >= 0)"
# What a picture without one step is to the wanted one, and to that with it.
WITHOUT = """
(() => {
  const table = player.screen.table, whole = table.steps, view = player.screen.views.smooth;
  const pels = () => player.screen.context.getImageData(0, 0, 1024, 800).data;
  const before = pels();
  table.steps = whole.map((step, at) => at === @STEP@ ? {...step, draw: {name: "g", attributes: {}}} : step);
  view.at = -1;
  player.showNow(player.line.whole);
  const after = pels(), told = {isSeen: after.some((each, at) => each !== before[at]), how: @HOW@};
  table.steps = whole;
  view.at = -1;
  player.showNow(player.line.whole);
  return told;
})()
""".replace("@HOW@", COMPARED)


@pytest.fixture(scope="module")
def program(naplps):
    """The program."""
    it = Client(naplps)
    yield it
    it.close()


@pytest.fixture
def shown(browser, naplps, tmp_path):
    """Shows the player of a page, given by its bytes or name; at the end it has reported and requested nothing."""
    addresses = []

    def shows(page, bypass=False, words=()):
        browser.call("Page.setBypassCSP", enabled=bypass)
        path = page if isinstance(page, str) else file(tmp_path, "page.nap", page)
        result, address = play(naplps, path, os.path.join(str(tmp_path), "player.html"), *words)
        assert result.returncode in (0, 1), result.stderr
        browser.size(1240, 900)
        browser.look()
        browser.open(address)
        addresses.append(address)
        return browser
    yield shows
    assert browser.errors == [] and browser.run("document.body.dataset.fault") is None
    assert [each for each in browser.requests if not each.startswith("data:")] == addresses[-1:]
    assert browser.run("typeof hacked") == "undefined"


def still(browser):
    """Without blinking."""
    browser.run("player.blinking.checked = false; player.setBlinks()")


@pytest.mark.parametrize("name", PAGES)
def test_the_end_is_the_sketch_and_without_any_shape_it_is_not(shown, name):
    page = shown(os.path.join(FOLDER, name), bypass=True)
    still(page)
    page.run("player.showNow(player.line.whole)")
    with open(os.path.join(FOLDER, name + ".svg"), encoding="utf-8") as svg:
        how = how_like(page, svg.read())
    assert like(how) and how["all"] > 100_000, how
    without = [page.run(WITHOUT.replace("@STEP@", str(step))) for step in page.run(STEPS)]
    seen = [told["how"] for told in without if told["isSeen"]]  # (some lie below others)
    assert len(seen) >= 5 and not any(map(like, seen)), [how for how in seen if like(how)]


@pytest.mark.parametrize("name", PAGES)
def test_at_each_moment_what_has_come_is_shown(shown, program, name):
    path = os.path.join(FOLDER, name)
    with open(path, "rb") as data:
        rows = [*placed(program.ask("places", data.read()).body)]
    page = shown(path, bypass=True)
    still(page)
    length = page.run("player.line.length")
    for part in range(10):
        come = length * part // 10
        lines = [line for place, line in rows if place < come]
        page.run("player.showNow(player.line.ofBytes(%d))" % come)
        assert page.run("player.moment") == {"done": len(lines), "bytes": come}
        # (an accent appears with its letter)
        is_accent = bool(lines) and re.match("CHAR supplementary 4[1-9a-f]", lines[-1])
        how = how_like(page, drawing.draw(lines[:-1] if is_accent else lines).svg)
        assert like(how), (come, how)


def test_a_wait_is_kept_and_a_byte_takes_its_time(shown):
    page = shown(StreamWriter().clear().domain().rectangle(0.1, 0.1, 0.2, 0.2).code(0x3D, b"\x54")
                 .rectangle(0.5, 0.5, 0.2, 0.2).made())
    places, lines = page.run("player.data.places"), page.run("player.data.lines")
    assert lines[2] == "WAIT 20"
    times, length = page.run("player.line.times"), page.run("player.line.length")
    for entry, place in enumerate(places):
        waited = 2.0 if entry > 2 else 0.0
        assert times[entry] == pytest.approx(min(place + 1, length) * 10 / 1200 + waited)
    page.run("player.setSpeed(300)")
    assert page.run("player.line.end") == pytest.approx(length * 10 / 300 + 2.0)
    middle = (places[2] + 1) * 10 / 300 + 1.0
    assert page.run("player.line.at(%f)" % middle) == {"done": 3, "bytes": places[2] + 1}


def test_the_map_is_live_and_a_blink_changes_what_stands(shown):
    writer = StreamWriter().clear().domain().select(5).rectangle(0.1, 0.1, 0.5, 0.5)
    blink = b"\x7c" + bytes((0x45, 0x45, 0x40))
    page = shown(writer.code(0x3C, writer.colour(0, 1, 0)).code(0x3F, blink).made())
    lines = page.run("player.data.lines")
    assert [line.split(" ")[0] for line in lines] == ["CLEAR", "RECT-FILLED", "MAP", "BLINK"], lines
    pel = "[...player.screen.context.getImageData(300, 500, 1, 1).data].slice(0, 3)"
    shown_at = {}
    for view in ("smooth", "raster"):
        page.run("player.setView('%s'); player.blinking.checked = true; player.setBlinks()" % view)
        for done, clock in ((2, 0), (3, 0), (4, 0.2), (4, 0.7)):
            # (in one go: the clock stands still only as long as no other frame is shown)
            shown_at[view, done, clock] = page.run(
                "player.screen.colours.begin(); player.screen.colours.clock = 0; player.showNow(player.line."
                "ofEntries(%d)); player.screen.colours.clock = %f; player.showNow(player.moment); %s" % (
                    done, clock, pel))
        assert shown_at[view, 2, 0] == [0xb6] * 3 and shown_at[view, 3, 0] == [0, 0xff, 0]
        assert shown_at[view, 4, 0.2] != [0, 0xff, 0] and shown_at[view, 4, 0.7] == [0, 0xff, 0]


def flashing(number):
    """A page of areas as large as the screen, dark and light in turn."""
    page = StreamWriter().clear().domain()
    for at in range(number):
        page.rgb(*[at % 2] * 3).rectangle(0, 0, 0.999, 0.78)
    return page.made()


def blinking():
    """A page whose one area, as large as the screen, blinks five times in a second."""
    page = StreamWriter().clear().domain().select(5).rectangle(0, 0, 0.999, 0.78)
    return page.code(0x3C, page.colour(0, 1, 0)).code(0x3F, b"\x7c" + bytes((0x41, 0x41, 0x40))).made()


@pytest.mark.parametrize("wanted", [False, True])
@pytest.mark.parametrize("made", [flashing(150), blinking()], ids=["areas", "a blink"])
def test_nothing_flashes_above_three_a_second_unless_that_is_wanted(shown, made, wanted):
    page = shown(made)
    # (the frames of two and a half seconds, whatever time they take here)
    changes = page.run("""(() => {
      const found = [];
      let last = null;
      performance.now = () => 0;
      player.flashing.checked = %s;
      player.setSpeed(2400);
      player.seek(0);
      player.setPlaying(true);
      for (let now = 1000; now < 3500; now += 40) {
        player.onFrame(now);
        const levels = [...player.screen.context.getImageData(500, 400, 1, 1).data];
        if (last?.some((each, at) => Math.abs(each - levels[at]) > 25)) found.push(now);
        last = levels;
      }
      player.setPlaying(false);
      return found;
    })()""" % json.dumps(wanted))
    most = max((sum(start <= each < start + 1000 for each in changes) for start in changes), default=0)
    assert most > 6 if wanted else 1 <= most <= 6, (most, len(changes))


def test_a_guard_counts_flashes_of_any_colour(shown):
    page = shown(StreamWriter().clear().made())
    taken = page.run("""(() => {
      const of = (levels, number) => {
        const guard = new FlashGuard(), taken = [];
        for (let at = 0; at < number; at++) if (guard.takes(levels(at), at * 0.05)) taken.push(String(levels(at)));
        return taken.filter((each, at) => at && each !== taken[at - 1]).length;
      };
      const all = (value) => new Uint8Array(2400).fill(value);
      const red = (value) => all(100).map((each, at) => at % 3 === 0 ? value : each);
      const few = (value) => all(0).map((each, at) => at < 30 ? value : each);
      return [of((at) => all(at % 2 * 255), 20), of((at) => red(at % 2 * 255), 20), of((at) => all(at % 2 * 20), 20),
        of((at) => few(at % 2 * 255), 20), of((at) => all(at * 12), 20), of((at) => all(at % 2 * 255), 80)];
    })()""")
    # (a flash is two changes; a second has twenty pictures, and after it there is room again)
    assert taken[:5] == [6, 6, 19, 19, 19] and 6 * 3 < taken[5] <= 6 * 4


def click(page, across, down):
    """Clicks at a place of the picture, of 1024 by 800."""
    page.click(*page.run("(() => {const box = player.canvas.getBoundingClientRect(); const scale = box.width / 1024;"
                         "return [box.left + %d * scale, box.top + %d * scale]})()" % (across, down)))


def test_a_click_leads_from_shapes_to_bytes_and_back(shown):
    page = shown(os.path.join(FOLDER, "weather.nap"))
    click(page, 154, 320)
    entry = page.run("[...player.marked][0]")
    kind, start, end = page.run("player.data.lines[%d]" % entry).split(" ")[:3]
    assert kind == "ARC-FILLED" and int(start.split(",")[0]) < 154 * ONE // 1024 < int(end.split(",")[0])
    row = page.run("player.row")
    assert page.run("player.data.codes.names[player.data.codes.name[%d]]" % row) == "call of macro 53"
    assert page.run("document.querySelector('[aria-selected=true] .bytes').textContent") == "19 53"
    page.run("document.querySelector('[data-row=\"%d\"]').click()" % row)
    assert page.run("player.marked.size") == 9 and page.run("[...player.marked].includes(%d)" % entry)
    assert page.run("document.querySelectorAll('.about li').length") == 9


def test_a_click_finds_one_mosaic_of_a_row_and_marks_it(shown):
    page = shown(os.path.join(FOLDER, "mosaics.nap"))
    bare = page.run("player.screen.context.getImageData(556, 405, 1, 1).data.join()")
    click(page, 600, 400)
    [entry] = page.run("[...player.marked]")
    lines = page.run("player.data.lines.slice(0, %d)" % (entry + 1))
    # (its row begins at the left, with cells of 51.2 units; what is around it, 563.2 to 614.4, isn't of its colour)
    first = max(at for at, line in enumerate(lines) if " pen=0," in line)
    assert lines[entry].startswith("CHAR mosaic ") and entry - first == 600 * 10 // 512
    # (a busy machine draws the mark in a later frame)
    page.until("player.screen.context.getImageData(562, 405, 1, 1).data.join() !== '%s'" % bare)


def test_keys(shown):
    page = shown(os.path.join(FOLDER, "weather.nap"))
    moment = "[player.moment.done, player.moment.bytes]"
    assert page.run("player.codes.box.scrollTop") > 0
    page.press("Home")
    assert page.run(moment) == [0, 0] and page.run("player.codes.box.scrollTop") == 0
    page.press("ArrowRight")
    assert page.run(moment)[0] == 1
    page.press("ArrowRight", shift=True)
    one = page.run(moment)
    page.press("ArrowRight")
    page.press("ArrowLeft")
    assert one[1] == 2 and page.run(moment)[0] == 1
    page.run("player.slider.focus()")  # (whose own steps are a thousandth of a second)
    page.press("ArrowRight")
    assert page.run(moment)[0] == 2
    page.press("End")
    assert page.run(moment) == [108, 678]
    for key, speed in (("1", 300), ("5", 9600)):
        page.press(key)
        assert page.run("[player.speed.value, player.line.second * 10]") == [str(speed), speed]
    page.press("v")
    assert page.run("player.view.value") == "raster" and page.run("player.screen.view.constructor.name") == "RasterView"
    page.press("b")
    assert page.run("player.blinking.checked") is False
    page.run("player.advance = () => undefined")  # (or it might have been played to its end before it is looked at)
    page.press(" ")
    assert page.run("player.isPlaying") and page.run("player.moment.done") < 108
    page.press(" ")
    assert not page.run("player.isPlaying")
    page.run("player.codes.box.focus()")
    page.press("ArrowDown")
    chosen = page.run("player.row")
    page.press("ArrowDown")
    assert page.run("player.row") == chosen + 1
    page.press("Escape")
    assert page.run("player.row") == -1 and page.run("player.marked.size") == 0


def test_a_keyboard_alone_reaches_each_control(shown):
    page = shown(os.path.join(FOLDER, "logo.nap"))
    page.run("document.body.focus()")
    for _ in range(40):
        page.press("Tab")
        page.run("document.activeElement.reached = true; undefined")
    assert page.run("[...document.querySelectorAll('button, input, select, summary, .codes')]"
                    ".filter((each) => !each.reached).length") == 0
    assert page.run("[...document.querySelectorAll('button, input, select')].every((each) => each.ariaLabel || "
                    "each.closest('label'))")


def test_what_earlier_pages_drew_is_there_at_the_start(shown, program, tmp_path):
    first = StreamWriter().clear().domain().select(5).rectangle(0.1, 0.1, 0.3, 0.3).code(0x3D, b"\x54").made()
    last = StreamWriter().domain().rectangle(0.6, 0.5, 0.3, 0.2).made()
    path = file(tmp_path, "menu.nap", first)
    page = shown(last, bypass=True, words=["--previous", path])
    assert "It comes after menu.nap: " in page.run("document.querySelector('header').textContent")
    whole, before = (program.ask("list", data).body.decode("ascii").splitlines() for data in (first + last, first))
    still(page)
    for moment, lines in (("player.line.start", before), ("player.line.ofBytes(0)", before),
                          ("player.line.whole", whole)):
        page.run("player.showNow(%s)" % moment)
        how = how_like(page, drawing.draw(lines).svg)
        assert like(how) and how["all"] > 10_000, (moment, how)
    told = "document.querySelector('.told').textContent"
    own = len(whole) - len(before)
    assert page.run(told).startswith("Byte %d of %d, entry %d of %d, " % (len(last), len(last), own, own))
    # (a wait of an earlier page is over)
    assert page.run("player.line.end") == pytest.approx(len(last) * 10 / 1200)
    page.run("player.box.focus()")
    for key in ("Home", "ArrowLeft"):
        page.press(key)
        assert page.run(told).startswith("Byte 0 of %d, entry 0 of %d, " % (len(last), own))
    page.run("player.chooseEntry(player.screen.entryAt(200, 500, player.moment.done))")
    assert page.run("document.querySelector('.about li').textContent").endswith(" of a page before it")


@pytest.mark.parametrize("view", ["smooth", "raster"])
@pytest.mark.parametrize("name", ["index.nap", "logo.nap"])
def test_it_plays_to_its_end(shown, name, view):
    page = shown(os.path.join(FOLDER, name))
    still(page)
    came, is_shown = page.run("""(() => {
      const pels = () => player.screen.context.getImageData(0, 0, 1024, 800).data;
      const came = [];
      player.setView("%s");
      player.flashing.checked = true;
      player.setSpeed(9600);
      player.toggle();
      let now = 1000;
      for (; player.isPlaying && came.length < 1000; now += 16) {
        player.onFrame(now);
        came.push(player.moment.done);
      }
      for (; player.isDue; now += 16) player.onFrame(now);
      const shown = pels();
      player.showNow(player.line.whole);
      return [came, pels().every((each, at) => each === shown[at])];
    })()""" % view)
    number = page.run("player.line.number")
    assert came == sorted(came) and came[0] == 0 and any(0 < done < number for done in came) and came[-1] == number
    assert page.run("player.moment.bytes === player.line.length") and not page.run("player.isPlaying")
    assert is_shown


def test_reduced_motion_is_followed(browser, shown):
    browser.call("Emulation.setEmulatedMedia", features=[{"name": "prefers-reduced-motion", "value": "reduce"}])
    try:
        page = shown(os.path.join(FOLDER, "palette.nap"))
        browser.call("Emulation.setEmulatedMedia", features=[{"name": "prefers-reduced-motion", "value": "reduce"}])
        browser.reload()
        assert page.run("player.isCalm") and not page.run("player.blinking.checked")
        assert not page.run("player.isPlaying")
    finally:
        browser.look()
        browser.requests = browser.requests[:1]


@pytest.mark.parametrize("width", [390, 1240])
def test_nothing_is_wider_than_the_window(shown, width):
    page = shown(os.path.join(FOLDER, "weather.nap"))
    page.size(width, 800)
    assert page.run("document.documentElement.scrollWidth") <= width


def test_the_page_stands_in_words_beside_the_picture(shown):
    page = shown(StreamWriter().clear().domain().at(0.0, 0.5, "A <b>").code(0x3D, b"\x45").made())
    words = page.run("[...document.querySelectorAll('#player-words li')].map((each) => each.textContent)")
    assert words == ["left: A <b>", "the page waits once, 0.5 seconds in all"]
    assert page.run("player.canvas.getAttribute('aria-describedby')") == "player-words"


@needs_node
def test_what_is_held_of_the_words_is_bounded(weather):
    assert len(json.loads(weather()[0])["described"]) > 5
    held = json.loads(weather(MOST_DESCRIBED=2, A_DESCRIBED=9)[0])
    assert held["described"] == ["top left: ..", "left: -9", " .."]


def test_what_a_page_says_is_never_markup(shown):
    text = "</script><img src=x onerror=hacked=1>"
    page = shown(StreamWriter().clear().at(0.0, 0.5, text).made())
    assert page.run("document.querySelectorAll('img, iframe, object, link').length") == 0
    page.run("player.chooseRow(player.codes.starts.length - 1); player.chooseRow(3)")
    assert page.run("document.scripts.length") == 2


def test_the_name_of_a_file_is_never_markup(shown, tmp_path):
    name = "<img src=x onerror=hacked=1> @DATA@.nap"
    page = shown(file(tmp_path, name, StreamWriter().clear().made()))
    assert page.run("document.querySelector('h1').textContent").endswith(name + ", as it came down the line")


def hostile():
    """Pages that would cost much, each with a word that says of what."""
    letters = StreamWriter(3).clear().at(0.0, 0.5, "A").raw(*[0x41] * 30_000).made()
    clears = StreamWriter(3).domain().rgb(1, 1, 1)
    for _ in range(9000):
        clears.rectangle(0, 0, 0.5, 0.5).raw(0x0F, 0x0C, 0x0E)
    return {"glyph": bomb("glyph", 400), "mask": bomb("mask", 400), "letters": letters, "clears": clears.made()}


@pytest.mark.parametrize("kind", ["glyph", "mask", "letters", "clears"])
def test_a_hostile_page_is_bounded_as_a_sketch_is(shown, program, kind):
    data = hostile()[kind]
    lines = program.ask("list", data).body.decode("ascii").splitlines()
    sketch = drawing.draw(lines)
    page = shown(data)
    assert page.run("player.line.number") == sketch.drawn <= MOST_DRAWN
    result = page.run("player.box.textContent")
    assert (sketch.drawn < len(lines)) == ("The picture ends before entry" in result)
    size = page.run("document.documentElement.outerHTML.length")
    assert size < 3 << 20, size
    page.run("player.showNow(player.line.ofEntries(Math.floor(player.line.number / 2)))")


def test_a_row_of_bytes_says_what_it_has_no_room_for(shown):
    page = shown(StreamWriter().clear().domain().at(0.1, 0.1, "caf").accent("acute", "e").made())
    titles = page.run("[...document.querySelectorAll('.code')].map((each) => each.title)")
    assert [each.split(": ")[1] for each in titles if "supplementary" in each] == ["supplementary character 42, CHAR"]


@pytest.fixture
def weather(program):
    """What a player holds of a page under small limits: makes the JSON of it."""
    with open(os.path.join(FOLDER, "weather.nap"), "rb") as data:
        page = data.read()
    told = listed(program, Page("weather", page))

    def made(**small):
        with pytest.MonkeyPatch.context() as patched:
            for name, value in small.items():
                patched.setattr(f"naplps_pages.player.{name}", value)
            return played(page, told), len(page)
    return made


@needs_node
def test_what_is_held_of_bytes_is_bounded_and_told(weather):
    made, length = weather(MOST_BYTES=300, MOST_CODES=40)
    held, [shown] = json.loads(made), drawn_of(made)
    assert len(held["bytes"]) == 400 and len(held["codes"]["start"]) <= 40 and held["length"] == length
    assert len(shown["lines"]) == 108 == shown["drawn"] and shown["codes"] == held["codes"]
    assert shown["notes"] == [f"Bytes are shown up to byte {held['codes']['end'][-1]} of {length}."]


@needs_node
def test_what_is_held_of_the_list_is_bounded_and_told(weather):
    whole, length = weather()
    made, _ = weather(MOST_LINES=4000)
    lines, held, [shown] = json.loads(whole)["lines"], json.loads(made), drawn_of(made)
    number = len(held["lines"])
    assert sum(map(len, lines[:number])) <= 4000 < sum(map(len, lines[:number + 1])) and held["entries"] == 108
    assert held["lines"] == shown["lines"] == lines[:number]
    assert held["length"] == shown["length"] == held["places"][-1] + 1 < length
    assert shown["notes"] == [f"The picture ends before entry {number + 1}: with what follows it would be more than a "
                              "picture may be."]


@needs_node
def test_of_what_is_more_than_a_picture_may_be_the_bytes_and_codes_before_it_are_shown():
    ink = "pel=0,0 colour=own-start texture=0/none"
    polygon = f"POLY-FILLED {' '.join(['0,0', '9,9'] * 1000)} {ink}"
    # (2,000 points of 200,000 each: 100 of them are drawn)
    codes = {"start": [*range(0, 1040, 10)], "end": [*range(10, 1050, 10)], "name": [0] * 104, "names": ["POLY"],
             "entry": [*range(104)]}
    held = {"length": 1040, "before": 1, "entries": 104, "places": [-1, *range(19, 1040, 10)],
            "lines": [polygon] * 104, "codes": codes, "isCut": False, "bytes": "", "notes": ["A note."]}
    [shown] = drawn_of(json.dumps(held))
    assert (shown["drawn"], shown["before"], shown["length"]) == (100, 1, 1000)
    assert shown["codes"]["end"][-1] == 1000 and shown["codes"]["entry"] == [*range(100)]
    assert len(shown["places"]) == len(shown["lines"]) == 100 and shown["lines"][0] == f"{polygon[:1999]} .."
    assert shown["notes"] == ["A note.", "The picture ends before entry 100: with what follows it would be more than a "
                              "picture may be.", "Some lines of the list are shown in part."]


@needs_node
@pytest.mark.parametrize("end", [b"\x18", b"\x1b\x42", b"\x26\x28\x7f", b"\x3a\x52\x40", b"\x1b"])
def test_of_a_refused_page_all_bytes_up_to_the_refusal_are_shown(program, end):
    page = POINT + end
    told = listed(program, Page("page", page))
    assert isinstance(told.answer, Refusal)
    made = played(page, told)
    [shown] = drawn_of(made)
    assert shown["notes"] == [] and shown["length"] == min(len(page), told.answer.place + 1)
    assert shown["codes"] == json.loads(made)["codes"]


def test_a_refused_page_is_played_up_to_its_refusal(naplps, tmp_path, shown):
    page = shown(os.path.join(FOLDER, "signature.nap"))
    assert "refused 6 LeftOut" in page.run("document.querySelector('header').textContent")
    result, _ = play(naplps, os.path.join(FOLDER, "signature.nap"), os.path.join(str(tmp_path), "other.html"))
    assert result.returncode == 1 and b"the player shows what comes before" in result.stderr


# The colour of each dot, and whether the squares of all have one colour each.
RASTER = """((wide, high, size) => {
  const shown = new Uint32Array(player.screen.context.getImageData(0, 0, wide, high).data.buffer), dots = [];
  let areEven = true;
  for (let top = 0; top < high; top += size) {
    for (let left = 0; left < wide; left += size) {
      const first = shown[top * wide + left];
      dots.push([first & 255, first >> 8 & 255, first >> 16 & 255].reduce((all, part) => all * 256 + part));
      for (let at = 0; at < size * size; at++) {
        areEven &&= shown[(top + Math.floor(at / size)) * wide + left + at % size] === first;
      }
    }
  }
  return {dots, areEven};
})(1024, 800, 4)
"""


@pytest.mark.parametrize("name", [name for name in PAGES if name != "signature.nap"])
def test_the_raster_has_the_dots_of_the_page(shown, name):
    path = os.path.join(FOLDER, name)
    with open(path, "rb") as file:
        it = nap.raster(list(nap.entries(file.read())))
    page = shown(path)
    still(page)
    assert page.run("player.view.options[1].textContent") == "raster of 256 by 200"
    page.run("player.setView('raster'); player.showNow(player.line.whole)")
    colours, how = it.colours(), page.run(RASTER)
    assert how["areEven"] and how["dots"] == [colours[ink] for row in it.rows() for ink in row]
    # (back at the start nothing is there, and then the same again)
    page.run("player.showNow(player.line.start)")
    assert set(page.run(RASTER)["dots"]) == {0}
    page.run("player.showNow(player.line.whole)")
    assert page.run(RASTER) == how


def test_the_raster_ends_where_screens_do(shown):
    page = shown(StreamWriter().clear().domain().rectangle(0.1, 0.5, 0.2, 0.45).made())
    page.run("player.setView('raster'); player.showNow(player.line.whole)")
    assert page.run("[player.canvas.width, player.canvas.height]") == [1024, 1024]
    assert page.run("[500, 300, 220, 100].map((y) => player.screen.context.getImageData(200, y, 1, 1).data[0])") == [
        255, 255, 0, 0]


def test_each_button_does_what_it_says(shown):
    page = shown(os.path.join(FOLDER, "weather.nap"))
    assert page.run("document.querySelectorAll('canvas').length") == 1
    assert page.run("[...player.speed.options].map((each) => each.textContent)") == [
        "%d baud" % speed for speed in (300, 1200, 2400, 4800, 9600)]
    places, length = page.run("[player.data.places, player.line.length]")
    at = [place + 1 for place in places]
    moments = [("to the start", 0), ("one byte on", 1), ("one entry on", at[1]), ("one byte on", at[1] + 1),
               ("one byte on", at[1] + 2), ("one byte back", at[1] + 1), ("one entry on", at[2]),
               ("one entry back", at[1]), ("to the end", length), ("one byte on", length), ("one entry back", at[-2])]
    for label, come in moments:
        page.run("document.querySelector('[aria-label=\"%s\"]').click()" % label)
        assert page.run("player.moment") == {"done": sum(each <= come for each in at), "bytes": come}, label
    page.run("player.advance = () => undefined")
    for label, plays in (("play", True), ("stop", False)):
        page.run("document.querySelector('[aria-label=%s]').click()" % label)
        assert page.run("player.isPlaying") is plays
