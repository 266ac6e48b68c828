"""Two pages side by side: columns, marks, statuses, and the document."""
import html
import re
import time
from random import Random

import gallery
from command import file
from naplps_pages.commands.diff import MOST_LINES, MOST_WIDE, side_by_side
from samples import BOMB, OUTSIDE


def made(run, tmp_path, name, source):
    return file(tmp_path, name, run(["make", "-"], source.encode("utf-8")).stdout)


def test_columns_and_marks():
    assert list(side_by_side(["A", "B", "C", "D"], ["A", "X", "D", "E"])) == [
        "A   A\n", "B | X\n", "C <\n", "D   D\n", "  > E\n"]
    assert list(side_by_side([], [])) == [] and list(side_by_side([], ["A"])) == [" > A\n"]
    left, = side_by_side(["x" * 200], ["y" * 200])
    assert left == "x" * (MOST_WIDE - 2) + ".. | " + "y" * (MOST_WIDE - 2) + "..\n"


def test_what_differs_is_marked_and_the_status_is_1(run, tmp_path):
    one = made(run, tmp_path, "one.nap", 'CLEAR\nRECT-FILLED 0,0 .5,.5 colour=red\nTEXT pen=.1,.1 "WET"\nBELL')
    two = made(run, tmp_path, "two.nap", 'CLEAR\nRECT-FILLED 0,0 .5,.5 colour=red\nTEXT pen=.1,.1 "DRY"')
    said = run(["diff", one, two])
    assert (said.returncode, said.stderr) == (1, b"")
    left = "RECT-FILLED 0,0 0.5,0.5 colour=red"
    assert [line[len(left):].strip() for line in said.stdout.decode().splitlines()] == [
        "CLEAR", left, '| TEXT pen=0.1,0.1 "DRY"', "<"]


def test_equal_pages_in_other_spellings_differ_in_nothing(run):
    pages = [f"{gallery.FOLDER}/skyline, {how}.nap" for how in ("absolute", "relative")]
    said = run(["diff", *pages])
    assert said.returncode == 0 and not re.search(rb" [|<>] ", said.stdout)


def test_lines_that_stand_often_take_little():
    chance = Random(1)
    for kinds in (2, 30, 300):
        left, right = ([str(chance.randrange(kinds)) for _ in range(MOST_LINES)] for _ in range(2))
        began = time.process_time()
        rows = list(side_by_side(left, right))
        assert time.process_time() - began < 60
        assert [row.split()[0] for row in rows if row[0] != " "] == left


def test_the_document(run, tmp_path):
    one = made(run, tmp_path, "<b>.nap", 'BELL\nTEXT pen=.1,.1 "<script>"')
    two = made(run, tmp_path, "&.nap", "BELL\nWAIT 1\nWAIT 2")
    said = run(["diff", "--format", "html", one, two])
    text = said.stdout.decode("utf-8")
    assert run(["diff", one, two, "-o", str(tmp_path / "diff.html")]).returncode == 1
    assert (tmp_path / "diff.html").read_bytes() == said.stdout
    assert said.returncode == 1 and re.findall(r'<tr class="(\w+)">', text) == ["same", "changed", "right"]
    assert [html.unescape(cell) for cell in re.findall("<td>([^<]*)</td>", text)] == [
        "BELL", " ", "BELL", 'TEXT pen=0.1,0.1 "<script>"', "|", "WAIT 1", "", ">", "WAIT 2"]
    assert len(re.findall('<img [^>]* src="data:image/svg\\+xml;base64,', text)) == text.count("<img ") == 2
    assert not re.search("<(script|b)>", text)


def test_pages_that_cannot_be_compared(run, tmp_path):
    good = made(run, tmp_path, "good.nap", "BELL")
    bad = file(tmp_path, "refused.nap", OUTSIDE)
    for pages in ([good, bad], [bad, good], [bad, bad]):
        refused = run(["diff", *pages])
        assert (refused.returncode, refused.stdout) == (1, b"")
        assert refused.stderr.decode().splitlines() == [
            f"naplps-pages: {bad}: refused 10 Outside at 3; only an accepted page has a source"] * pages.count(bad)
    bomb = run(["diff", file(tmp_path, "bomb.nap", BOMB), good])
    assert (bomb.returncode, bomb.stdout) == (3, b"") and b"more than 200000 entries" in bomb.stderr
    long = run(["diff", good, made(run, tmp_path, "long.nap", "BELL\n" * (MOST_LINES + 1))])
    assert (long.returncode, long.stdout) == (3, b"") and b"more than 4000 lines" in long.stderr
    assert run(["diff", good]).returncode == 2 and run(["diff", good, good, good]).returncode == 2
