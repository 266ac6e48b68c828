"""Letters that are drawn together: the same drawing as letter by letter, with the same bounds."""
import pytest
from hypothesis import given, settings
from hypothesis import strategies as st

from naplps import drawing
from naplps.drawing import paper
from naplps.drawing.walk import Guess
from naplps.drawing.writing import Writing, letters_behind
from timelines import timeline

LOOK, OTHER = "colour=own-start text=0,0/normal/----", "colour=front:1048576 text=0,0/double/----"
SIZES = ["normal", "small", "double", "0,5", "-200000,300000", "9000000,100000"]
LOOKS = st.builds("colour={} text={},0/{}/{}".format, st.sampled_from(["own-start", "pair:1048576,2097152"]),
                  st.sampled_from([0, 0, 0, 1, 4, 16]), st.sampled_from(SIZES),
                  st.sampled_from(["----", "----", "-u--", "r---", "--w-", "---s"]))
PENS = st.sampled_from(["after"] * 6 + ["start", "4194304,4194304", "8000000,100000"])
CODES = st.sampled_from(["41", "62", "20", "7e", "7f", "42", "c1"])


def characters(look):
    """Lines of one look, as many as leave a line and a screen."""
    some = st.lists(st.builds(("CHAR {} {} pen={} %s" % look).format, st.sampled_from(
        ["primary"] * 20 + ["supplementary", "mosaic", "drcs"]), CODES, PENS), max_size=12)
    long = st.builds(lambda count: ["CHAR primary 41 pen=after " + look] * count, st.integers(1, 90))
    more = st.sampled_from([["MOVE APD pen=after " + look], ["TO-EOL pen=after " + look], ["CLEAR pen=after"], ["BELL"],
                            ["FIELD 0,0 2000000,2000000 pen=after"], ["GLYPH 41", "CHAR primary 42 pen=after " + look,
                                                                      "CHAR primary 42 pen=after " + look, "END"]])
    return st.lists(st.one_of(some, long, more), max_size=4).map(lambda parts: sum(parts, []))


LINES = st.lists(LOOKS.flatmap(characters), max_size=4).map(lambda parts: sum(parts, []))


def both(lines, guess, bound):
    """A sketch and a player's drawing, of a page that may have a number of points."""
    with pytest.MonkeyPatch.context() as patched:
        patched.setattr(paper, "MOST_WEIGHT", bound)
        return drawing.draw(lines, guess=guess), timeline(lines)


@settings(max_examples=150, deadline=None)
@given(LINES, st.one_of(st.none(), st.integers(0, 60)), st.sampled_from([500_000, 500_000, 4000, 1000]))
def test_it_is_the_drawing_of_each_letter_by_itself(lines, start, bound):
    guess = Guess(start, ("a guess",)) if start is not None and start < len(lines) else None
    together = both(lines, guess, bound)
    with pytest.MonkeyPatch.context() as patched:
        patched.setattr(Writing, "go_on", lambda *_: 0)
        assert both(lines, guess, bound) == together


def line(code="41", pen="after", look=LOOK, name="primary"):
    return "CHAR %s %s pen=%s %s" % (name, code, pen, look)


@pytest.mark.parametrize("first, more, signs", [
    (line(pen="1,2"), [line("42"), line("20"), line("7e")], "B ~"), (line(name="supplementary"), [line("42")], "B"),
    (line(), [line("42", "1,2")], ""), (line(), [line("42", look=OTHER)], ""), (line(), ["BELL", line()], ""),
    (line(), [line("42"), line("42", name="mosaic"), line("42")], "B"), (line(), [line("7f")], ""),
    (line(), [line("4"), line("42")], ""), (line(), [line("+4")], ""), (line(), [], "")])
def test_which_letters_go_on(first, more, signs):
    assert "".join(letters_behind([first, *more], 1, len(more) + 1)) == signs


def test_letters_go_on_up_to_the_end_that_is_given_and_are_taken_together(monkeypatch):
    assert letters_behind([line()] * 9, 4, 6) == ["A", "A"]
    drawn = []
    monkeypatch.setattr(Writing, "character", lambda self, entry, real=Writing.character: (
        drawn.append(entry), real(self, entry)))
    drawing.draw([line(pen="0,4194304"), *[line("42")] * 30])
    assert len(drawn) == 1
