"""What stands after a refusal, drawn by guess: which codes are passed over, and that it is always told as a guess."""
import os
import re

import pytest
from hypothesis import HealthCheck, given, settings
from hypothesis import strategies as st

from command import file
from naplps import drawing
from naplps.client import Client
from naplps_pages import commands
from naplps_pages.guessing import MOST_CODES, Guesser
from naplps_pages.listing import listed
from naplps_pages.source import Page
from sketches import SVG, elements, harmless, parsed
from strategies import pages

# A point in the middle, and one that comes after what is refused; where their rectangles are in the drawing.
POINT, BEHIND = bytes.fromhex("0E 26 52 40 40"), bytes.fromhex("0E 26 49 40 40")
FIRST, SECOND = ("510", "286"), ("254", "542")
HATCHED = "Hatched is a guess: what stands behind, read on without the "


@pytest.fixture(scope="module")
def asked(naplps):
    program = Client(naplps)
    yield program
    program.close()


def drawn(asked, data):
    """The sketch of a page with its guess, without the command, and the answer to the page."""
    told = listed(asked, Page("", data))
    made = Guesser(asked, data).guess(told)
    assert made is not None, told
    svg = drawing.draw(made.lines, f"then {told.answer.line}", drawing.Guess(made.start, made.sentences())).svg
    harmless(svg)
    return svg, told.answer


def rects(of):
    """The corners of the rectangles in an element."""
    return [(each.attrib["x"], each.attrib["y"]) for each in of.iter(SVG + "rect") if "x" in each.attrib]


def parts(svg):
    """The corners of what is drawn for sure, and of the guess."""
    top = parsed(svg)
    guesses = [each for each in top.iter(SVG + "g") if "mask" in each.attrib]
    guessed = [corner for each in guesses for corner in rects(each)]
    mine = [(each.attrib["x"], each.attrib["y"]) for each in top if each.tag == SVG + "rect" and "x" in each.attrib]
    return mine, guessed


def texts(svg):
    """The lines below a drawing."""
    return [each.text for each in elements(svg, "text") if each.attrib.get("x") == "8"]


def test_a_guess_is_hatched_and_told_as_one(run):
    said = run(["show", "-", "--guess"], POINT + b"\x18" + BEHIND)
    svg = said.stdout.decode()
    harmless(svg)
    assert parts(svg) == ([FIRST], [SECOND])
    caption = "Sketch of 1 entry; then refused 6 LeftOut CAN at 5; then a guess of 1 entry"
    assert texts(svg) == [caption, HATCHED + "code at 5."]
    assert elements(svg, "title")[0].text == caption
    assert elements(svg, "desc")[0].text == "1 smaller shape or line; " + HATCHED + "code at 5."
    group, = [each for each in elements(svg, "g") if "mask" in each.attrib]
    assert group.attrib["aria-label"] == "a guess"
    assert said.returncode == 1 and said.stderr.decode() == (
        "naplps-pages: -: refused 6 LeftOut CAN at 5; the sketch shows what comes before, and hatched a guess of what "
        "stands behind\n")


def test_without_the_option_nothing_is_guessed(run):
    data = POINT + b"\x18" + BEHIND
    svg = run(["show", "-"], data).stdout.decode()
    assert "mask" not in svg and rects(parsed(svg)) == [FIRST]
    assert run(["list", "-"], data).stdout == b"" and run(["canon", "-"], data).stdout == b""


@pytest.mark.parametrize("command", sorted({*commands.MODULES} - {"show"}))
def test_no_other_command_guesses(run, command):
    words = ["-o", "x"] if command in ("box", "scan", "report") else []
    said = run([command, "a", *(["b"] if command in ("find", "diff") else []), *words, "--guess"])
    assert said.returncode == 2 and b"unrecognized arguments: --guess\n" in said.stderr and said.stdout == b""


def test_a_guess_changes_no_answer_of_a_store(run, tmp_path):
    page, store = file(tmp_path, "page", POINT + b"\x18" + BEHIND), os.path.join(str(tmp_path), "pages.db")
    file(tmp_path, "other", POINT + BEHIND)
    run(["show", page, "--guess", "-o", str(tmp_path / "to.svg")])
    assert run(["scan", page, str(tmp_path / "other"), "-o", store]).returncode == 0
    assert run(["equal", store, "--skip", "copies"]).stdout == b""
    assert b"page: refused 6 LeftOut CAN at 5, capture of 2 pages\n" in run(["files", store, "--kind", "any"]).stdout


def test_an_accepted_page_has_no_guess(run):
    assert run(["show", "-", "--guess"], POINT).stdout == run(["show", "-"], POINT).stdout


@pytest.mark.parametrize("refused, name", [
    ("FF", "EighthBit"), ("1B 22 46", "BadEscape"), ("1B 30", "BadEscape"), ("1B 1B 48", "BadEscape"),
    ("19 00", "ShiftAlone"), ("1B 2B 57 1D 41", "ShiftedCode"), ("1B 46 20", "BadArgument"),
    ("1B 40 20 1B 45 1B 46 80", "EighthBit"),
    ("18", "CAN"), ("1A", "SDC"), ("1F", "NSR"), ("1F 41 42", "NSR"), ("1B 51", "EDC1"), ("1B 5F", "UNPROTECT"),
    ("1B 42 41 26 63 1B 45", "DEFT"), ("39 52 52", "INCREMENTAL-POINT"), ("3A 52 52 52", "INCREMENTAL-LINE"),
    ("3B 52", "INCREMENTAL-POLY"), ("21 60", "ThreeD"), ("28", "Missing"), ("3C 52 40 40 52", "ManyColours"),
    ("24 60 40 40", "Outside"), ("0F 41 0E 29 52", "PenUnknown"), ("20 44 3C 52", "NoAddress"),
    ("1B 46 41", "NothingToRepeat"), ("07 52 52 52", "Stray"), ("26" + " 52" * 16385, "LongRun")])
def test_what_is_refused_is_passed_over(asked, refused, name):
    svg, answer = drawn(asked, POINT + bytes.fromhex(refused) + BEHIND)
    assert name in answer.line
    mine, guessed = parts(svg)
    assert mine[0] == FIRST and guessed == [SECOND] and len(texts(svg)) == 2


def test_several_codes_are_passed_over(asked):
    svg, _ = drawn(asked, POINT + b"\x18" + BEHIND + b"\x1f\x18\x1a" + POINT)
    assert parts(svg) == ([FIRST], [SECOND, FIRST]) and texts(svg)[1] == HATCHED + "codes at 5, 11, 12 and 1 more."


def test_a_macro_that_is_refused_in_its_midst_is_passed_over(asked):
    macro = bytes.fromhex("1B 40 41") + b"\x0e\x26\x52\x40\x40\x18\x26\x52\x40\x40" + bytes.fromhex("1B 45 1B 2A 7A")
    svg, _ = drawn(asked, macro + b"\x19\x41" + BEHIND)
    assert parts(svg) == ([FIRST], [SECOND])


def test_the_end_of_a_guess_is_told(asked):
    svg, _ = drawn(asked, POINT + b"\x18" + BEHIND + b"\x1b")
    assert texts(svg)[1:] == [HATCHED + "code at 5.", "The guess ends where the page is refused 19 Cut at 12."]
    svg, _ = drawn(asked, POINT + b"\xff\x07" * (MOST_CODES + 5))
    assert "The guess ends where the page is refused 1 EighthBit at %d." % (5 + 2 * MOST_CODES) == texts(svg)[2]


@pytest.mark.parametrize("data", [b"", b"\x18", POINT + b"\x18", POINT + b"\x1b", b"\x1b\x40", b"\x0e\x3a\x52\x52"])
def test_nothing_is_behind(asked, data):
    assert Guesser(asked, data).guess(listed(asked, Page("", data))) is None


def test_it_is_told_that_nothing_is_behind(run):
    said = run(["show", "-", "--guess"], b"\x18")
    assert said.stderr.endswith(b"; what stands behind can't be read on\n") and b"mask" not in said.stdout


def test_a_guess_may_clear_what_is_sure(asked):
    svg, _ = drawn(asked, POINT + b"\x18\x0c" + BEHIND)
    assert parts(svg) == ([], [SECOND])


def test_a_guess_doesnt_change_the_colours_of_what_is_sure(asked):
    first = bytes.fromhex("0E 3E 44 26 52 40 40")
    svg, _ = drawn(asked, first + b"\x18" + bytes.fromhex("0E 3E 44 3C 6D 26 49 40 40"))
    fills = {each.attrib["x"]: each.attrib["fill"] for each in elements(svg, "rect") if "x" in each.attrib}
    plain = elements(drawing.draw(listed(asked, Page("", first)).lines).svg, "rect")
    assert fills["510"] == plain[1].attrib["fill"] != fills["254"]


def test_a_page_after_others_has_its_own_offsets(run, tmp_path):
    before, page = file(tmp_path, "before", POINT), file(tmp_path, "page", b"\x18" + BEHIND)
    said = run(["show", page, "--guess", "--previous", before])
    svg = said.stdout.decode()
    assert parts(svg) == ([FIRST], [SECOND]) and texts(svg)[1] == HATCHED + "code at 0."


def test_a_guess_into_a_folder(run, tmp_path):
    page = file(tmp_path, "page", POINT + b"\x18" + BEHIND)
    assert run(["show", page, "--guess", "-o", str(tmp_path / "to") + "/"]).returncode == 1
    assert parts((tmp_path / "to" / "page.svg").read_text("utf-8")) == ([FIRST], [SECOND])


@settings(max_examples=120, deadline=None, suppress_health_check=list(HealthCheck))
@given(data=st.one_of(st.binary(max_size=80), st.builds(
    lambda page, some, at: page[:at] + some + page[at:], pages(), st.binary(min_size=1, max_size=4),
    st.integers(0, 99))))
def test_any_page_is_read_on_within_bounds(asked, data):
    told = listed(asked, Page("", data))
    guesser = Guesser(asked, data)
    made = guesser.guess(told)
    assert len(guesser.data) == len(data)
    if made is not None:
        assert made.lines[:made.start] == told.lines and len(made.passed) <= MOST_CODES
        svg = drawing.draw(made.lines, "", drawing.Guess(made.start, made.sentences())).svg
        harmless(svg)
        assert re.search(r"then a guess of ", texts(svg)[0])
