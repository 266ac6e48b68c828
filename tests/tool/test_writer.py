"""The writer prints lines, and makes its page through the program."""
import pytest

import naplps as nap
from naplps import backends
from naplps.backends import ProgramBackend
from naplps.writer import PageWriter, blocks, star


@pytest.fixture(autouse=True)
def asked(naplps):
    """The module asks the program."""
    before, backends._found = backends._found, ProgramBackend(naplps)
    yield
    backends._found.close()
    backends._found = before


def lines_of(page):
    """The lines that a writer prints, which are those of its page."""
    assert nap.lines(page.made()) == page.lines()
    return page.lines()


def test_shapes():
    page = PageWriter().rgb(1, 0, 0.5).pel(0.25, 0.5).texture(1, 2, True).points((0, 0), (0.5, 0.5))
    page.line((0, 0), (0.5, 0), (1, 1)).rectangle(0.25, 0.25, 0.5, 0.5, filled=False)
    page.texture().polygon([(0, 0), (0.5, 0), (0, 0.5)]).circle(0.5, 0.5, 0.25).arc([(0, 0), (0.5, 0.5), (1, 0)])
    ink = "pel=2097152,4194304 colour=direct:0,65535,32768"
    assert lines_of(page) == [
        f"POINT 0,0 {ink}", f"POINT 4194304,4194304 {ink}", f"LINE 0,0 4194304,0 {ink} texture=21/none",
        f"LINE 4194304,0 8388607,8388607 {ink} texture=21/none",
        f"RECT-OUTLINED 2097152,2097152 6291456,6291456 {ink} texture=21/none",
        f"POLY-FILLED 0,0 4194304,0 0,4194304 {ink} texture=0/none",
        f"ARC-FILLED 2097152,4194304 6291456,4194304 2097152,4194304 {ink} texture=0/none",
        f"ARC-OUTLINED 0,0 4194304,4194304 8388607,0 {ink} texture=0/none"]


def test_steps():
    page = PageWriter(256).points((0.5, 0.251), (1, 0)).pel(0.003, -0.003).points((0, 0))
    assert lines_of(page) == [
        "POINT 4194304,2097152 pel=0,0 colour=own-start", "POINT 8388607,0 pel=0,0 colour=own-start",
        "POINT 0,0 pel=32768,-32768 colour=own-start"]


def test_text():
    page = PageWriter().at(0.25, 0.5, "é", "double").flags(underline=True).text("½").move("APD").size("small")
    page.to(0.5, 0.5).character("mosaic", 0x21, 0x22).move("APS", 0x41, 0x42).clear().flags().text("A")
    hand, under = "colour=own-start text=0,0/double/----", "colour=own-start text=0,0/double/-u--"
    small = "colour=own-start text=0,0/small/-u--"
    assert lines_of(page) == [
        f"CHAR supplementary 42 pen=2097152,4194304 {hand}", f"CHAR primary 65 pen=after {hand}",
        f"CHAR supplementary 3d pen=after {under}", f"MOVE APD pen=after {under}",
        f"CHAR mosaic 21 pen=4194304,4194304 {small}", f"CHAR mosaic 22 pen=after {small}",
        f"MOVE APS 41 42 pen=after {small}", "CLEAR pen=after",
        "CHAR primary 41 pen=after colour=own-start text=0,0/small/----"]
    with pytest.raises(ValueError, match="no set of characters has 'Ж'"):
        page.text("Ж")


def test_colours_of_the_map():
    page = PageWriter().map(1, 1, 1, 1).map(1, 1, 1, 1).select(1).points((0, 0)).select(2, 1).points((0, 0))
    page.blink(3, 1, 2, 3).map(1, 0, 0, 0)
    assert lines_of(page) == [
        "MAP 1048576 65535,65535,65535", "POINT 0,0 pel=0,0 colour=front:1048576",
        "POINT 0,0 pel=0,0 colour=pair:2097152,1048576", "BLINK 3145728 1,2,3 colour=pair:2097152,1048576",
        "MAP 1048576 0,0,0"]


def test_definitions_and_the_rest():
    page = PageWriter().bell().wait(70).rgb(0, 0, 0)
    with page.glyph(0x41):
        page.points((0, 0))
    with page.mask("B") as inside:
        inside.add(nap.Cursor("off"))
    assert lines_of(page.add(nap.BlinkMark(True, nap.Colour("own-start")))) == [
        "BELL", "WAIT 63", "WAIT 7", "GLYPH 41", "POINT 0,0 pel=0,0 colour=direct:0,0,0", "END", "MASK B", "CURSOR off",
        "END", "BLINK-START colour=own-start"]


def test_what_can_not_come_is_for_the_program_to_say():
    with pytest.raises(nap.NotMade, match="line 2: can't come here"):
        PageWriter().bell().add(nap.DefEnd()).made()


def test_helpers():
    assert len(star(0.5, 0.5, 0.1, 6)) == 12 and blocks(["##", "#.", ".."]) == [[0x27]]
