"""Pages as people write them: what each line makes, by docs/MAKING.md and docs/PROFILE.md, and what is wrong."""
import unicodedata
from random import Random

import pytest
from hypothesis import given
from hypothesis import strategies as st

import authored
import entries
from lines import line_of
from naplps import letters
from naplps.entry import read
from naplps.screen_text import text_lines
from naplps_pages.authoring.translating import MOST_MISTAKES, misfit, translate

HAND, INK = "pen=start colour=own-start text=0,0/normal/----", "pel=0,0 colour=own-start texture=0/none"
CHANCE = st.randoms(use_true_random=False)


def made(source):
    """The lines that a source makes."""
    translation = translate(source)
    assert translation.mistakes == []
    return bytes(translation.text).decode("ascii").splitlines()


def wrong(source):
    """The first mistake of a source: line, column and message."""
    return tuple(translate(source).mistakes[0])


@pytest.mark.parametrize("source, line", [
    ("POINT 0.5,0.25", "POINT 4194304,2097152 pel=0,0 colour=own-start"),
    ("LINE 0,0 1,1", f"LINE 0,0 1,1 {INK}"), ("LINE 1.0,0.0 .5,0", f"LINE 8388607,0 4194304,0 {INK}"),
    ("ARC-FILLED 0,0 1,1 0,0", f"ARC-FILLED 0,0 1,1 0,0 {INK}"),
    ("ARC-OUTLINED 0,0 1,1 2,2 3,3", f"ARC-OUTLINED 0,0 1,1 2,2 3,3 {INK}"),
    ("POLY-FILLED 0,0 1,1", f"POLY-FILLED 0,0 1,1 {INK}"),
    ("POLY-OUTLINED 0,0 1,1 2,0", f"POLY-OUTLINED 0,0 1,1 2,0 {INK}"),
    ("RECT-FILLED 0,0 1,1", f"RECT-FILLED 0,0 1,1 {INK}"), ("RECT-OUTLINED 0,0 1,1", f"RECT-OUTLINED 0,0 1,1 {INK}"),
    ("CHAR supplementary 7B", f"CHAR supplementary 7b {HAND}"), ("MOVE APH", f"MOVE APH {HAND}"),
    ("MOVE APS 2a 2B", f"MOVE APS 2a 2b {HAND}"), ("TO-EOL", f"TO-EOL {HAND}"),
    ("MAP 1 red", "MAP 1 0,65535,0"), ("MAP 3/4 1,2,3", "MAP 12582912 1,2,3"), ("MAP 0/1 #000001", "MAP 0 0,0,257"),
    ("BLINK 5/16 1,2,3", "BLINK 5242880 1,2,3 colour=own-start"), ("BLINK-END", "BLINK-END colour=own-start"),
    ("BLINK-START", "BLINK-START colour=own-start"), ("BLINK-STOP", "BLINK-STOP colour=own-start"),
    ("WAIT 63", "WAIT 63"), ("BELL", "BELL"), ("CURSOR steady", "CURSOR steady"),
    ("FIELD whole", "FIELD whole pen=start"), ("FIELD 0,0 .5,.5", "FIELD 0,0 4194304,4194304 pen=start"),
    ("RESET 1 63", "RESET 1 63 pen=start"), ("CLEAR", "CLEAR pen=start"), ("GLYPH 7f", "GLYPH 7f"),
    ("MASK D", "MASK D"), ("END", "END")])
def test_each_kind_of_line(source, line):
    assert made(source) == [line]
    assert made(line) == [line]


@pytest.mark.parametrize("written, line", [
    ("colour=red", "direct:0,65535,0"), ("colour=green", "direct:65535,0,0"), ("colour=yellow", "direct:65535,65535,0"),
    ("colour=gray", "direct:32896,32896,32896"), ("colour=#1b4F72", "direct:20303,6939,29298"),
    ("colour=direct:1,2,3", "direct:1,2,3"), ("colour=front:1/16", "front:1048576"), ("colour=front:7", "front:7"),
    ("colour=pair:1/2,16777215", "pair:8388608,16777215"), ("colour=own-reset", "own-reset"),
    ("colour=reset-2", "reset-2"), ("colour=reset-3", "reset-3"), ("colour=own-start", "own-start")])
def test_colours(written, line):
    assert made(f"BLINK-END {written}") == [f"BLINK-END colour={line}"]


@pytest.mark.parametrize("written, line", [
    ("0.0", 0), ("0.5", 4194304), ("1.0", 8388607), ("0.9999999999", 8388607), ("0.00000006", 1), ("0.00000005", 0),
    ("0.000000059604644775390625", 1), ("-1.0", -8388608), ("-0.5", -4194304), ("-0.0", 0), ("8388607", 8388607),
    ("-8388608", -8388608), ("00.50", 4194304), ("007", 7)])
def test_numbers(written, line):
    assert made(f"POINT 0,0 pel={written},0") == [f"POINT 0,0 pel={line},0 colour=own-start"]


@pytest.mark.parametrize("written, line", [
    ("text=double", "0,0/double/----"), ("text=small/r-w-", "0,0/small/r-w-"),
    ("text=0.5,-0.5", "0,0/4194304,-4194304/----"), ("text=1,63/tall/-u-s", "1,63/tall/-u-s"),
    ("text=1,2/3,4/----", "1,2/3,4/----")])
def test_looks(written, line):
    assert made(f"TO-EOL {written}") == [f"TO-EOL pen=start colour=own-start text={line}"]


def test_parts_that_are_left_out_stand():
    assert made("TO-EOL text=1,2/small/ru--\nTO-EOL text=double\nTO-EOL text=tall/----\nTO-EOL")[1:] == [
        f"TO-EOL pen=after colour=own-start text=1,2/{rest}" for rest in ("double/ru--", "tall/----", "tall/----")]
    assert made("LINE 0,0 0,0 texture=3/5,6\nLINE 0,0 0,0 texture=4") == [
        f"LINE 0,0 0,0 pel=0,0 colour=own-start texture={word}/5,6" for word in (3, 4)]
    assert made("RECT-FILLED 1,2 3,4 colour=red pel=5,6\nTEXT \"A\"\nCLEAR") == [
        "RECT-FILLED 1,2 3,4 pel=5,6 colour=direct:0,65535,0 texture=0/none",
        "CHAR primary 41 pen=3,2 colour=direct:0,65535,0 text=0,0/normal/----", "CLEAR pen=after"]


def test_what_the_page_sets_changes_nothing_that_is_left_out():
    line = "LINE 0,0 1,1 pel={} colour={} texture={}".format
    assert made("LINE 0,0 1,1 colour=blue\nMAP 1/16 red\nLINE 0,0 1,1\nMAP 1/16 red\nLINE 0,0 1,1") == [
        line("0,0", "direct:0,0,65535", "0/none"), "MAP 1048576 0,65535,0",
        *[line("0,0", "direct:0,0,65535", "0/none")] * 2]
    assert made("LINE 0,0 1,1 colour=red pel=5,6 texture=3\nRESET 63 63\nLINE 0,0 1,1") == [
        line("5,6", "direct:0,65535,0", "3/none"), "RESET 63 63 pen=1,1", line("5,6", "direct:0,65535,0", "3/none")]
    assert made("MASK A\nLINE 0,0 1,1 colour=red texture=1\nEND\nLINE 0,0 1,1")[-1] == line(
        "0,0", "direct:0,65535,0", "1/none")
    assert made('TEXT "A" text=small/-u--\nGLYPH 41\nEND\nTEXT "B"')[-1] == (
        "CHAR primary 42 pen=after colour=own-start text=0,0/small/-u--")


def test_what_a_page_cannot_have_again_is_its_own():
    ink = "LINE 0,0 1,1 pel=0,0 colour={} texture=0/none".format
    assert made("LINE 0,0 1,1\nRESET 2 0\nLINE 0,0 1,1")[-1] == ink("own-reset")
    assert made("LINE 0,0 1,1\nLINE 0,0 1,1 colour=red\nRESET 2 0\nLINE 0,0 1,1")[-1] == ink("direct:0,65535,0")
    assert made("RESET 4 0\nLINE 0,0 1,1 colour=reset-2\nMAP 1 red\nLINE 0,0 1,1")[-1] == ink("front:1")
    assert made("MASK A\nLINE 0,0 1,1 texture=1/3,4\nEND\nLINE 0,0 1,1 texture=2/none\nLINE 0,0 1,1")[-1] == (
        "LINE 0,0 1,1 pel=0,0 colour=own-start texture=2/none")


@pytest.mark.parametrize("written, word", [
    ("solid", 0), ("dotted", 1), ("dashed", 2), ("dot-dashed", 3), ("edge", 4), ("vertical", 8), ("horizontal", 16),
    ("cross", 24), ("mask-a", 32), ("mask-d", 56), ("dashed+edge+cross", 30), ("mask-b+dotted", 41)])
def test_names_of_textures(written, word):
    assert made(f"LINE 0,0 1,1 texture={written}") == [f"LINE 0,0 1,1 pel=0,0 colour=own-start texture={word}/none"]


@pytest.mark.parametrize("written, points", [
    ("CIRCLE 0.5,0.25 0.25", "2097152,2097152 6291456,2097152 2097152,2097152"), ("CIRCLE 5,1 5", "0,1 10,1 0,1"),
    ("CIRCLE 8388606,0 1", "8388605,0 8388607,0 8388605,0")])
def test_circles(written, points):
    assert made(written) == [f"ARC-OUTLINED {points} {INK}"]
    assert made(written.replace("CIRCLE", "CIRCLE-FILLED")) == [f"ARC-FILLED {points} {INK}"]


@pytest.mark.parametrize("source, column, message", [
    ("LINE 0,0 1,0.78", 10, "expected 1.0, not '1': 0.78 beside it is a fraction"),
    ("LINE 0,0 0.5,1", 14, "expected 1.0, not '1': 0.5 beside it is a fraction"),
    ("POINT 300,top", 7, "expected a fraction, not '300': top beside it is a fraction"),
    ("POINT 0,0 pel=-1,0.5", 15, "expected -1.0, not '-1': 0.5 beside it is a fraction"),
    ("POINT top,0", 7, "expected a point x,y"), ("LINE 0,0 1,1 colour=front", 21, "expected a colour (black"),
    ("LINE 0,0 1,1 colour=pair", 21, "expected a colour (black"),
    ("LINE 0,0 1,1 colour=direct", 21, "expected a colour (black"),
    ("LINE 0,0 1,1 texture=dotty", 22, "expected a texture by its names"),
    ("LINE 0,0 1,1 texture=dotted+dashed", 29, "dashed can't be joined to another of its kind"),
    ("LINE 0,0 1,1 texture=edge+edge", 27, "edge can't be joined"),
    ("LINE 0,0 1,1 texture=cross+mask-a", 28, "mask-a can't be joined"),
    (" CIRCLE 0.1,0.5 0.2", 2, "the circle leaves the unit screen"),
    ("CIRCLE 0.9,0.5 0.1", 1, "the circle leaves the unit screen"), ("CIRCLE 5,5 0", 12, "expected a radius"),
    ("CIRCLE 5,5 0.6", 12, "expected a radius"), ("CIRCLE 5,5 1,1", 12, "expected a radius")])
def test_mistakes_of_values(source, column, message):
    number, found, said = wrong(source)
    assert (number, found) == (1, column) and said.startswith(message) and found <= len(source) + 1


def test_what_is_set():
    source = """SET colour=red text=double
    TEXT "A"
    TEXT "B" colour=blue text=small/-u--
    SET text=tall
    TEXT "C"
    SET
    TEXT "D"
    SET colour=reset-2 pel=1,1 texture=2
    LINE 0,0 0,0 pel=3,3
    """
    red, blue = "direct:0,65535,0", "direct:0,0,65535"
    assert made(source) == [
        f"CHAR primary 41 pen=start colour={red} text=0,0/double/----",
        f"CHAR primary 42 pen=after colour={blue} text=0,0/small/-u--",
        f"CHAR primary 43 pen=after colour={red} text=0,0/tall/-u--",
        f"CHAR primary 44 pen=after colour={red} text=0,0/tall/-u--",
        "LINE 0,0 0,0 pel=3,3 colour=reset-2 texture=2/none"]


def test_words_in_any_order_and_comments():
    assert made("\ufeff# first\r\n\r\n\tLINE\tcolour=red  0,0 texture=1 1,1 # why\r\n#\r\nBELL") == [
        "LINE 0,0 1,1 pel=0,0 colour=direct:0,65535,0 texture=1/none", "BELL"]
    assert made("") == made("\n \n\t\n") == []


def test_colours_of_the_map_that_are_set_again_are_left_out():
    assert made("MAP 1 red\nMAP 1 red\nMAP 1 blue\nMAP 2 red\nMAP 1 #0000ff\nRESET 2 0\nMAP 2 red") == [
        "MAP 1 0,65535,0", "MAP 1 0,0,65535", "MAP 2 0,65535,0", "RESET 2 0 pen=start", "MAP 2 0,65535,0"]
    seventeen = [f"MAP {at} 0,0,0" for at in range(17)]
    assert made("\n".join([*seventeen, "MAP 1 0,0,0", "MAP 0 0,0,0"])) == [*seventeen, "MAP 0 0,0,0"]


@pytest.mark.parametrize("letters, codes", [
    ("A~", "primary 41,primary 7e"), ("é", "supplementary 42,primary 65"), ("e\u0301", "supplementary 42,primary 65"),
    ("ü", "supplementary 48,primary 75"), ("Å", "supplementary 4a,primary 41"), ("ß", "supplementary 7b"),
    ("½", "supplementary 3d"), ("Ω", "supplementary 60"), ("ǿ", "supplementary 42,supplementary 79"),
    ("´", "supplementary 42,primary 20"), ("ő", "supplementary 4d,primary 6f"), ("\\\"\\\\", "primary 22,primary 5c"),
    ("#  x=y", "primary 23,primary 20,primary 20,primary 78,primary 3d,primary 79")])
def test_letters(letters, codes):
    assert ",".join(" ".join(line.split()[1:3]) for line in made(f'TEXT "{letters}"')) == codes


def test_every_letter_is_written_and_read_again():
    signs = [chr(code) for code in range(0x20, 0x3000) if letters.codes(chr(code))]
    assert len(signs) > 350 and not letters.codes("\u25a1") and not letters.codes("e\u0301\u0301")
    for sign in signs:
        text = sign.replace("\\", "\\\\").replace('"', '\\"')
        whole = unicodedata.normalize("NFC", sign)
        assert text_lines(read(made(f'TEXT "x{text}x"'))) == [f"x{whole}x"]


@given(CHANCE, st.integers(0, 30))
def test_lists_come_out_as_they_are(chance, length):
    lines = [line_of(entry) for entry in entries.legal_list(chance, length)]
    assert made("\n".join(lines)) == lines


@given(CHANCE, st.integers(0, 30))
def test_lists_in_other_words_come_out_as_they_are(chance, length):
    whole = entries.legal_list(chance, length)
    assert made(authored.source(chance, whole)) == [line_of(entry) for entry in whole]


@pytest.mark.parametrize("source, column, said", [
    ("LIEN 0,0 1,1", 1, "as LINE, not 'LIEN'"), ("  \"A\"", 3, "expected what a line begins with"),
    ("#x", 1, "a space behind the #"), ("LINE 0,0", 9, "expected a point x,y"), ("LINE 0,0 1,1 2,2", 14, "is too much"),
    ("LINE 0,0 0.5;0.5", 10, "expected a point"), ("LINE 0,0 0.5,1.5", 14, "not '1.5'"),
    ("LINE 0,0 -1,0", 10, "not '-1'"), ("LINE 0,0 0,8388608", 12, "not '8388608'"),
    ("LINE 0,0 1,1 pel=1", 18, "expected a size x,y"), ("LINE 0,0 1,1 pel=0,-1.1", 20, "not '-1.1'"),
    ("LINE 0,0 1,1 pel=0,0 pel=0,0", 22, "stands twice"), ("LINE 0,0 1,1 pen=0,0", 14, "'pen' is no field here"),
    ("LINE 0,0 1,1 colour=rde", 21, "expected a colour"), ("LINE 0,0 1,1 colour=#fff", 21, "six hexadecimal digits"),
    ("LINE 0,0 1,1 colour=direct:1,2", 28, "green, red and blue"),
    ("LINE 0,0 1,1 colour=direct:1,2,65536", 32, "not '65536'"),
    ("LINE 0,0 1,1 colour=front:16/16", 27, "from 0 to 15"), ("LINE 0,0 1,1 colour=front:1/15", 29, "a power of two"),
    ("LINE 0,0 1,1 colour=pair:1", 26, "two addresses"), ("LINE 0,0 1,1 texture=64", 22, "from 0 to 63"),
    ("LINE 0,0 1,1 texture=1/x", 24, "expected a size"), ("POLY-FILLED 0,0", 16, "expected a point"),
    ("ARC-FILLED 0,0 0,0", 19, "expected a point"), ("ARC-FILLED" + " 0,0" * 2002, 8016, "2001 points are the most"),
    ("CHAR first 41", 6, "primary, supplementary"), ("CHAR drcs 1f", 11, "from 20 to 7f"),
    ("CHAR drcs 80", 11, "from 20 to 7f"), ("CHAR drcs 041", 11, "two hexadecimal"), ("MOVE APX", 6, "APB, APF"),
    ("MOVE APS 41", 12, "expected a code"), ("MAP 1", 6, "expected a colour"), ("MAP 16777216 red", 5, "an address"),
    ("MAP 1 red colour=red", 11, "no field"), ("BLINK 1 1,2", 9, "on,off,delay"),
    ("BLINK 1 1,64,1", 11, "from 0 to 63"), ("WAIT", 5, "from 0 to 63"), ("WAIT 64", 6, "from 0 to 63"),
    ("WAIT +5", 6, "not '+5'"), ("CURSOR on", 8, "flash, steady or off"), ("FIELD 0,0", 10, "expected a point"),
    ("FIELD whole 0,0", 13, "too much"), ("RESET 1", 8, "from 0 to 63"), ("GLYPH", 6, "a code"),
    ("MASK E", 6, "A, B, C or D"), ("BELL 1", 6, "too much"), ("BELL \"a\"", 6, "too much"), ("SET red", 5, "too much"),
    ("SET pen=0,0", 5, "no field"), ("SET \"a\"", 5, "too much"), ("TEXT", 5, "a text between quotes"),
    ("TEXT \"\"", 6, "of a letter at least"), ("TEXT \"a\" \"b\"", 10, "one text"), ("TEXT \"a", 6, "isn't ended"),
    ("TEXT \"a\\", 8, "behind a backslash"), ("TEXT \"a\\n\"", 8, "behind a backslash"), ("TEXT \"a\"b", 9, "a space"),
    ("TEXT x\"a\"", 7, "a word of its own"), ("TEXT \"a\u0416\"", 8, "not '\u0416'"),
    ("TEXT \"a\\\"e\u0301\u0301\"", 10, "with one accent at most"), ("TEXT text=big \"a\"", 11, "expected a size"),
    ("TEXT text=0,0/tall/---- \"a\" x", 29, "too much"), ("TEXT text=0,0/tall/uuuu \"a\"", 20, "four flags"),
    ("TEXT text=0,64/tall/---- \"a\"", 13, "from 0 to 63"), ("TEXT text=1/tall/---- \"a\"", 11, "two words"),
    ("TEXT text=////// \"a\"", 11, "expected a size")])
def test_mistakes(source, column, said):
    line, found, message = wrong("BELL\n" + source)
    assert (line, found) == (2, column) and said in message


def test_mistakes_of_several_lines():
    found = translate("LIEN\nBELL\nMASK E\n" + "X\n" * 50).mistakes
    assert [each.line for each in found][:3] == [1, 3, 4] and len(found) == MOST_MISTAKES


@pytest.mark.parametrize("source, why", [
    ("BELL\nEND", "GLYPH or MASK begins one"), ("GLYPH 41\nMASK A", "END has to come first"),
    ("BELL\nTO-EOL", "a character, which has to be the line before it"), ("CLEAR\nCLEAR pen=start", "pen=after does"),
    ("LINE 1,2 3,4\nCLEAR pen=after", "pen=3,4 does"), ("BLINK-END colour=red\nBLINK-END colour=own-start", "is gone"),
    ("BELL\nBLINK-END colour=reset-3", "colour=own-start does"),
    ("LINE 0,0 0,0 texture=1/2,3\nLINE 0,0 0,0 texture=1/none", "a mask has a size")])
def test_why_a_line_cannot_come(source, why):
    assert misfit(source, 1) is None and why in misfit(source, 2)


def test_a_list_of_random_lines_is_never_cut_short():
    chance = Random(73)
    for _ in range(20):
        lines = [str(entry) for entry in entries.legal_list(chance, 40)]
        for at in range(len(lines)):
            assert made("\n".join(lines[:at])) == lines[:at]
