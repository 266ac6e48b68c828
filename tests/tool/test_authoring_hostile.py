"""Sources that are made to do harm: each is answered with a line and a column, in bounded time and memory."""
import subprocess
import sys
from random import Random

import pytest
from hypothesis import given
from hypothesis import strategies as st

from command import PACKAGES, file
from naplps_pages.authoring.translating import MOST_BYTES, MOST_LINE, MOST_MISTAKES, translate

MILLION = 1_000_000
WORDS = ("LINE", "TEXT", "SET", "MAP", "0,0", "0.5,0.5", "colour=", "red", "#", "#1b4f72", '"', "\\", "=", ",", "/",
         ":", "front:1/16", "text=double", "pel=1", "-", ".", "\t", " ", "\n", "\r", "\x00", "\x1b", "é", "\u0301",
         "\ufeff", "\u202e", "\U0001f600", "9" * 50, "ARC-FILLED", "CHAR primary 41", "END", "GLYPH 41")


def places(source):
    """The places of the mistakes of a source, which lie in it."""
    found = translate(source).mistakes
    lines = source.split("\n")
    for line, column, message in found:
        assert 1 <= line <= len(lines) and 1 <= column <= min(len(lines[line - 1]), MOST_LINE) + 1
        assert message.isprintable() and len(message) < 600
    return [(line, column) for line, column, _ in found]


@pytest.mark.parametrize("value", [
    "9" * MILLION, "0" * MILLION, "0." + "3" * MILLION, "-" * MILLION, "1e" + "9" * MILLION, "1" * 60000, "." * 60000,
    "0." + "3" * 60000, "1/" + "0" * 60000, "#" * 60000, "," * 60000, "/" * 60000, "0,0/" * 15000, "\u0663" * 60000,
    "\u0663", "\u00bd", "1_000", "0x10", "nan", "inf", "1e5", "+5", "--5", "5-", "½,½"])
def test_numbers_of_any_size(value):
    for row in ("WAIT %s", "LINE 0,0 %s,0", "LINE 0,0 0,%s", "LINE 0,0 0,0 pel=%s,0", "BELL\n MAP %s red",
                "MAP 1/%s red", "MAP 1 %s", "MAP 1 1,2,%s", "RESET 1 %s", "CHAR primary %s", "BLINK 1 1,2,%s",
                "TO-EOL colour=front:%s", "TO-EOL colour=direct:%s,1,1", "TO-EOL text=%s",
                "TO-EOL text=%s,1/small/----", "TO-EOL pen=%s",
                "LINE 0,0 0,0 texture=%s", "LINE 0,0 0,0 texture=1/%s", "TO-EOL colour=%s", "%s", "%s=1", "SET %s=1"):
        assert len(places(row % value)) == 1, row


@pytest.mark.parametrize("source", [
    '"' * MILLION, 'TEXT ' + '"' * 60000, 'TEXT "' + "\\" * 60000, 'TEXT "' + '\\"' * 30000, "TEXT " + '"a" ' * 15000,
    'TEXT "' + "\u0301" * 60000 + '"', 'TEXT "e' + "\u0301" * 60000 + '"', "(" * MILLION, "LINE " + "0,0 " * 16000,
    "LINE " + "a=b " * 16000, "\t" * MILLION, " " * MILLION + "x", "X" * MILLION, "\x00" * MILLION, "A\x07", "\x7f",
    "\x1b[2J", "LINE\x0b0,0", "BELL \x85", "BELL\u2028BELL", "\ud800", "TEXT \"\ud800\"", "TEXT \"\u202e\"",
    "TEXT \"\U0010ffff\"", "POLY-FILLED" + " 0,0" * 2002])
def test_long_lines_and_deep_quotes(source):
    assert len(places(source)) == 1


def test_how_many_mistakes_there_are():
    assert places("# " + "x" * 60000 + "\n" + " " * 60000) == []
    assert len(places("X\n" * MILLION)) == len(places("\x00\n" * MILLION)) == MOST_MISTAKES


@given(st.lists(st.sampled_from(WORDS), max_size=60).map("".join), st.text(max_size=200))
def test_words_and_text_by_chance(words, text):
    places(words)
    places(text)


def test_what_is_made_has_a_bound():
    line = 'TEXT "%s"\n' % ("A" * 60000)
    made = translate(line * 40)
    assert len(made.mistakes) == 1 and f"{MOST_BYTES} bytes at most" in made.mistakes[0].message
    assert len(made.text) < MOST_BYTES + 100 and made.mistakes[0].line == 5


@pytest.mark.parametrize("data, place", [
    (b"\xff", "1:1"), (b"BELL\n\xc3\xa9 \xc3\n", "2:3"), (b"BELL\nBELL\n\x80", "3:1"), (b"\xed\xa0\x80", "1:1"),
    (b"BELL\r\n# \xc3\xa9\xe2\x82", "2:4"), (b"\xff\xfeB\0E\0L\0L\0", "1:1"), (b"B\0E\0L\0L\0", "1:2"),
    (b"\xc0\xaf", "1:1"), (b"\xf8\x88\x80\x80\x80", "1:1")])
def test_no_utf_8(run, tmp_path, data, place):
    said = run(["make", file(tmp_path, "page.txt", data)])
    told = said.stderr.decode()
    assert said.returncode == 1 and said.stdout == b"" and f"page.txt:{place}: " in told and told.count("\n") == 1


LIMITED = """
import resource, sys
resource.setrlimit(resource.RLIMIT_AS, (256 << 20, 256 << 20))
sys.path.insert(0, sys.argv[1])
from naplps_pages.authoring.translating import translate
with open(sys.argv[2], encoding="utf-8") as source:
    made = translate(source.read())
print(len(made.text), len(made.mistakes))
"""


@pytest.mark.parametrize("line", [
    "\n", "BELL\n", "# \n", "MAP 1 red\n", "SET text=double\n", "SET colour=#%06x\n", "TEXT \"é\"\n"])
def test_memory_is_bounded(tmp_path, line):
    chance, rows, size = Random(1), [], 0
    while size < 1 << 20:
        rows.append(line % chance.randrange(1 << 24) if "%" in line else line)
        size += len(rows[-1].encode())
    path = file(tmp_path, "page.txt", "".join(rows).encode()[:1 << 20])
    said = subprocess.run([sys.executable, "-B", "-c", LIMITED, PACKAGES, path], capture_output=True, text=True,
                          timeout=600)
    assert said.stderr == "" and said.returncode == 0
