"""What the module naplps makes of pages beside their answers: sketches, texts, treatments; and pages that it writes."""
import os

import pytest
from hypothesis import given, settings

import naplps as nap
from command import TOP, file
from naplps.entry import members_of, read_line
from naplps.limits import MOST_LISTED
from naplps.writer import blocks, star
from samples import BOMB, OUTSIDE, POINT, with_parity
from spelled import logo
from strategies import pages
from stream_writer import StreamWriter

GALLERY = os.path.join(TOP, "examples", "gallery")


def test_sketches_are_those_of_show(kind):
    for name in sorted(os.listdir(GALLERY)):
        if name.endswith(".nap") and name != "signature.nap":
            with open(os.path.join(GALLERY, name), "rb") as page, open(
                    os.path.join(GALLERY, name + ".svg"), encoding="utf-8") as picture:
                assert nap.svg(page.read()) == picture.read(), name


def test_a_page_with_too_many_entries_has_a_sketch_that_says_so(kind):
    count = nap.check(BOMB)
    assert count > MOST_LISTED and f"No sketch: the page has {count} entries" in nap.svg(BOMB)


def test_texts_are_those_of_the_command(kind, run, tmp_path):
    for page in (b"", POINT, logo(), StreamWriter().domain().at(0.1, 0.5, "ONE").at(0.1, 0.4, "TWO").made()):
        said = run(["show", "--format", "text", file(tmp_path, "page", page)]).stdout.decode("utf-8")
        text = nap.text(page)
        assert said == (text + "\n" if text else "")
    assert nap.text(StreamWriter().accent("acute", "e").text("st").made()) == "ést"


def test_refused_pages_have_no_sketch_and_no_text(kind):
    for call in (nap.svg, nap.text):
        with pytest.raises(nap.Refused, match="^refused 10 Outside at 3$"):
            call(OUTSIDE)


def test_treatments(kind):
    assert nap.treatments(POINT) is None and nap.treatments(OUTSIDE) is None
    for page, name in ((POINT + b"\x1a", "tail"), (with_parity(logo()), "parity")):
        cure = nap.treatments(page)
        assert [each.treatment for each in cure.changes] == [name]
        assert cure.data == (POINT if name == "tail" else logo()) and cure.entries == nap.check(cure.data)
    change, = nap.treatments(bytearray(POINT + b"\x1a\x1a")).changes
    assert [(edit.offset, edit.length) for edit in change.edits] == [(len(POINT), 2)]


def test_each_takes_what_other_functions_take(kind):
    for call in (nap.svg, nap.text, nap.treatments):
        with pytest.raises(TypeError, match="^a page is bytes, bytearray or memoryview, not str$"):
            call("0e26")
        with pytest.raises(ValueError, match="^a budget is from 0 to 67108864, not -1$"):
            call(POINT, -1)


@settings(max_examples=60)
@given(pages())
def test_entries_say_what_their_lines_say(kind, page):
    for line, entry in zip(nap.lines(page), nap.entries(page)):
        assert entry.kind == line.split(" ")[0] and entry == read_line(line)
        members = members_of(entry, None)
        assert members["kind"] == entry.kind and list(members)[:2] == ["kind", "place"]


def test_written_pages_draw_what_they_were_told(kind):
    page = StreamWriter(words=4).clear().domain().rgb(1, 0, 0).polygon(star(0.5, 0.4, 0.2)).made()
    clear, shape = nap.entries(page)
    assert isinstance(clear, nap.Clear) and isinstance(shape, nap.Poly) and shape.filled
    assert shape.colour.kind == "direct" and [part >> 8 for part in shape.colour.parts] == [0, 255, 0]
    assert len(shape.points) == 10
    x, y = shape.points[0]
    assert (x / nap.ONE, y / nap.ONE) == pytest.approx((0.5, 0.6), abs=2 ** -11)
    signs = nap.entries(StreamWriter().mosaic(blocks(["##", "..", ".#"])[0]).made())
    assert [(each.set, each.code) for each in signs] == [("mosaic", 0x20 | 1 | 2 | 64)]
