"""The text of pages."""
from command import file
from naplps.entry import read
from naplps.screen_text import text_lines
from samples import OUTSIDE
from stream_writer import StreamWriter

HAND = "colour=own-start text=0,0/normal/----"


def lines(*rows):
    return text_lines(read(row + " " + HAND for row in rows))


def test_lines_are_those_of_the_screen_from_top_to_bottom(run, tmp_path):
    page = StreamWriter().domain().at(0.1, 0.4, "THREE").raw(0x0D, 0x0A).text("FOUR")
    page.at(0.5, 0.5, "TWO").at(0.1, 0.5, "ONE")
    said = run(["show", "--format", "text", file(tmp_path, "page", page.made())])
    assert said.stdout.decode() == "ONE  TWO\nTHREE\nFOUR\n"


def test_what_isnt_a_letter_is_left_out_or_named():
    assert lines("CHAR primary 41 pen=0,0", "CHAR mosaic 7f pen=after", "CHAR mosaic 7f pen=after",
                 "CHAR primary 42 pen=after", "CHAR drcs 21 pen=after", "CHAR primary 7f pen=after",
                 "CHAR supplementary 42 pen=after", "CHAR primary 65 pen=after") == ["A B[glyph 21] é"]


def test_text_inside_a_glyph_isnt_text():
    rows = ["GLYPH 21", "CHAR primary 41 pen=start " + HAND, "END", "CHAR primary 42 pen=start " + HAND]
    assert text_lines(read(rows)) == ["B"]


def test_of_a_refused_page_the_text_before(run, tmp_path):
    path = file(tmp_path, "page", b"HELLO" + OUTSIDE)
    said = run(["show", "--format", "text", path])
    assert (said.stdout, said.returncode) == (b"HELLO\n", 1)
    assert said.stderr.endswith(b"page: refused 10 Outside at 8; the text is what comes before\n")
