"""The text of pages as lines of the screen: by places, with accents, and whole words."""
import pytest

from naplps.screen_text import lines_of
from naplps_pages.page_words import NoWords, first_words, lines_with, match_of, parse_query

LOOK = "colour=own-start text=0,0/%s/----"


def letters(text, pen="after", size="normal"):
    """The lines of a list that write a text."""
    return "".join("CHAR primary %02x pen=%s %s\n" % (ord(letter), "after" if at else pen, LOOK % size)
                   for at, letter in enumerate(text))


def at(x, y, text, size="normal"):
    """The same at a place, in 40ths of the side, which are as wide as letters."""
    return letters(text, "%d,%d" % (x * (1 << 23) // 40, y * (1 << 23) // 40), size)


def test_lines_go_from_top_to_bottom_whatever_was_drawn_first():
    page = at(1, 5, "THREE") + at(1, 20, "ONE") + at(10, 10, "B") + at(2, 10, "A")
    assert lines_of(page) == ["ONE", "A  B", "THREE"]


def test_pieces_that_touch_are_one_word():
    assert lines_of(at(4, 9, "TREAL") + at(1, 9, "MON")) == ["MONTREAL"]
    assert lines_of(at(1, 9, "MON") + at(5, 9, "TREAL")) == ["MON TREAL"]
    assert lines_of(letters("MON", "0,0") + letters("TREAL").replace("own-start", "front:0")) == ["MONTREAL"]


def test_accents_are_on_their_letters():
    accent = "CHAR supplementary 42 pen=after %s\n" % (LOOK % "normal")
    assert lines_of(at(1, 9, "Montr") + accent + letters("eal")) == ["Montr\u00e9al"]
    assert lines_of("CHAR supplementary 42 pen=0,0 %s\n" % (LOOK % "normal") + letters("etoile")) == ["\u00e9toile"]


def test_proportional_spacing():
    # (an i is 4/6 of a cell wide, and 40 cells are a line)
    look = LOOK.replace("text=0,0", "text=48,0")
    page = letters("Will it", "0,0").replace(LOOK % "normal", look % "normal")
    accent = "CHAR supplementary 42 pen=after %s\n" % (look % "normal")
    assert lines_of(page + accent + letters("es").replace(LOOK % "normal", look % "normal")) == ["Will it\u00e9s"]
    line = letters("i" * 58 + " Ill", "0,400000").replace(LOOK % "normal", look % "normal")
    assert lines_of(line) == ["i" * 58, "Ill"]
    line = letters("i" * 39 + " iii", "0,400000")
    assert lines_of(line) == ["i" * 39, "iii"]
    assert lines_of(line.replace("text=0,0", "text=48,0")) == ["i" * 39 + " iii"]


def test_what_is_drawn_twice_at_a_place_counts_once():
    assert lines_of(at(1, 9, "NEWS") + at(1.2, 9.1, "NEWS")) == ["NEWS"]
    assert lines_of(at(1, 9, "NEWS") + at(9, 9, "NEWS")) == ["NEWS  NEWS"]


def test_each_screen_has_its_lines():
    page = at(1, 9, "LAST LINE") + "CLEAR pen=start\n" + at(1, 20, "NEXT") + "RESET 16 0 pen=start\n" + at(1, 9, "END")
    assert lines_of(page) == ["LAST LINE", "NEXT", "END"]


def test_a_word_at_the_right_edge_is_whole():
    assert lines_of(at(36, 20, "WEATHER NEWS")) == ["WEATHER", "NEWS"]
    assert lines_of(at(30, 20, "WEATHER NEWS")) == ["WEATHER NEWS"]
    field = "FIELD 0,0 %d,4194304 pen=start\n" % ((1 << 23) * 10 // 40)
    assert lines_of(field + letters("ONE TWO THREE FOUR")) == ["ONE TWO THREE", "FOUR"]


def test_glyphs_and_mosaics_are_no_text():
    glyph = "GLYPH 21\n" + letters("X", "0,0") + "END\n"
    some = letters("A", "0,0") + "".join("CHAR %s 7f pen=after %s\n" % (of, LOOK % "normal") for of in (
        "mosaic", "mosaic", "drcs"))
    assert lines_of(glyph + some + letters("B")) == ["A  B"]


def test_places_make_no_difference():
    page = at(1, 9, "NEWS") + "BELL\n" + at(1, 20, "TODAY")
    placed = "".join("%d %s\n" % (place, line) for place, line in enumerate(page.splitlines()))
    assert lines_of(placed) == lines_of(page) == ["TODAY", "NEWS"]
    assert lines_of("") == []


@pytest.mark.parametrize("text, asked, found", [
    ("Montr\u00e9al\nQu\u00e9bec", "montreal", ["Montr\u00e9al"]), ("MONTREAL", "Montr\u00e9al", ["MONTREAL"]),
    ("Montr\u00e9al", "Montre\u0301al", ["Montr\u00e9al"]), ("Montre\u0301al", "Montr\u00e9al", ["Montre\u0301al"]),
    ("ICE HOCKEY\nSCORES", "hock", ["ICE HOCKEY"]), ("ICE HOCKEY", '"hock"', None), ("ICE HOCKEY", "ockey", None),
    ("ICE HOCKEY", '"ice hockey"', ["ICE HOCKEY"]), ("HOCKEY ICE", '"ice hockey"', None),
    ("ON ICE\nHOCKEY", '"ice hockey"', ["ON ICE"]), ("A B\nC", "c a", ["A B", "C"]), ("A B", "a z", None),
    ("X-RAY 4", "x-ray 4", ["X-RAY 4"])])
def test_words_are_found(text, asked, found):
    assert lines_with(text, parse_query(asked)) == found


@pytest.mark.parametrize("asked", ["", " ", "\"", "-", "* ( ) : ^ \"\" '", "\u0301", "x " * 33, "x" * 401, "\0"])
def test_what_is_no_word_is_not_looked_for(asked):
    with pytest.raises(NoWords):
        parse_query(asked)


@pytest.mark.parametrize("asked, match", [
    ("a OR b", '"a" * AND "or" * AND "b" *'), ('"a b" c', '"a b" AND "c" *'), ('a"b', '"a" * AND "b"'),
    ("text:NEAR(x, 2)", '"text near x" * AND "2" *'), ("^a*", '"a" *'), ("-a {b}", '"a" * AND "b" *')])
def test_nothing_that_is_typed_acts(asked, match):
    assert match_of(parse_query(asked)) == match


def test_first_words():
    assert first_words("  ONE\n\n TWO  THREE ") == "ONE TWO THREE"
    assert len(first_words("x" * 1000)) == 60
