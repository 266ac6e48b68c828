"""What a report holds: names, sketches, reasons; how it is made, and why it isn't."""
import base64
import hashlib
import os
import re
from pathlib import Path
from types import SimpleNamespace

import pytest

from command import file
from naplps_pages import parsing
from naplps_pages.collection.store import open_to_read
from naplps_pages.report import facts, making
from naplps_pages.report import in_block
from naplps_pages.report.drawing import Drawing, DrawnPage, shortened
from naplps_pages.report.files import Roots, joined
from naplps_pages.report.making import choose
from naplps_pages.report.sketch_workers import ENDED, IS_FULL, Room
from reports import collection, held, words
from samples import OUTSIDE, POINT, SPELLED
from scans import FAKE, tree
from stream_writer import StreamWriter


WIDE = StreamWriter(1).domain().code(0x37, b"R" + b"Oy" * 1000).made()


@pytest.fixture
def made(run, tmp_path):
    """A function that scans some files, and makes a report of them; the path and what was said."""
    def makes(files, *more, program=None):
        store, html = str(tmp_path / "pages.db"), str(tmp_path / "report.html")
        assert run(["scan", tree(tmp_path / "archive", files), "-o", store], program=program).returncode == 0
        return html, run(["report", store, "-o", html, *more], program=program)
    return makes


def options_of(folder, program, sketches=200, processes=1):
    """How another report of the store in a folder is made, in this process."""
    return making.ReportOptions(
        str(folder / "pages.db"), str(folder / "again.html"), program, sketches, False, processes, 20.0)


def test_what_is_told(made):
    html, said = made({"a.nap": POINT, "b.nap": SPELLED, "c.nap": OUTSIDE})
    assert (said.stdout.decode(), said.stderr, said.returncode) == (
        "%s: 3 files, 1 group of equal pages, 2 of 2 sketches, %d bytes\n" % (html, os.path.getsize(html)), b"", 0)


def test_a_long_line_is_held_in_part(made):
    html, _ = made({"a.nap": WIDE})
    (line,) = held(html)[1][0]["lines"]
    assert line.startswith("POLY-FILLED ") and line.endswith(" ..") and 1900 < len(line) < 2010


def test_all_drawings_together_have_a_limit():
    room = Room(110)
    pages = [DrawnPage(Drawing(), characters) for characters in (25, 25, 25, 25, 25, 5)]
    assert (room.take(pages[:3]), room.take(pages[3:]), room.characters) == ({}, {1: IS_FULL}, 5)


@pytest.fixture
def again(tmp_path, naplps):
    """A function that makes another report of the store; its path."""
    def makes(program=naplps, processes=1):
        options = options_of(tmp_path, program, processes=processes)
        making.make(open_to_read(str(tmp_path / "pages.db")), options)
        return str(tmp_path / "again.html")
    return makes


def drawings_of(html):
    """The sketch, the list and the reason of each page that a report holds."""
    return [each for block in held(html)[1] for each in zip(block["sketch"], block["lines"], block["why"])]


def test_what_there_is_no_room_for_is_left_out(made, again, monkeypatch):
    html, _ = made({"%d.nap" % at: words("PAGE %d" % at) for at in range(7)})
    some = drawings_of(html)
    monkeypatch.setattr(making, "MOST_HELD", 4 * max(len("".join(each)) + 10 for each in some))
    less = drawings_of(again())
    full = [each for each in less if each == ("", "", IS_FULL)]
    assert len(less) == len(some) == 7 and 1 <= len(full) <= 6
    assert full == [each for each in less if each not in some]


@pytest.mark.parametrize("number", [1, 5, 6, 170])
def test_blocks_have_the_drawings_in_their_order(made, again, number):
    made({"%03d.nap" % at: words("PAGE %d" % at) for at in range(number)})
    _, blocks = held(again(processes=3))
    size = in_block(number)
    assert [len(each["sketch"]) for each in blocks] == [size] * (number // size) + [number % size] * (number % size > 0)
    assert [text for each in blocks for text in each["text"]] == ["PAGE %d" % at for at in range(number)]
    assert [re.search(r">(PAGE [0-9]+)<", svg)[1] for each in blocks for svg in each["sketch"]] == [
        "PAGE %d" % at for at in range(number)]


def test_blocks_grow_with_the_number_of_sketches():
    assert [in_block(number) for number in (0, 5, 160, 320, 1600, 10_000)] == [5, 5, 5, 10, 50, 50]


def test_names_are_relative_to_the_roots_and_the_rest_of_the_machine_is_not_told(made, tmp_path):
    html, _ = made({"x/a.nap": POINT, "b.nap": OUTSIDE})
    table, blocks = held(html)
    assert table["folders"] == ["", "x"] and table["columns"]["name"] == ["b.nap", "a.nap"]
    text = Path(html).read_text("utf-8") + repr(table) + repr(blocks)
    assert str(tmp_path) not in text and os.path.basename(str(tmp_path)) not in text


def test_roots():
    roots = Roots([b"/data/old", b"/data/new", b"/data/old/part", b"/more/new"])
    paths = (b"/data/old", b"/data/old/part/x", b"/data/new", b"/more/new/y", b"/data/older")
    assert [roots.relative(path) for path in paths] == ["old", "old/part/x", "new", "new (2)/y", "older"]
    assert [Roots([b"/"]).relative(path) for path in (b"/", b"/usr/lib")] == ["", "usr/lib"]
    assert Roots([b"/data"]).relative(b"/data/\xff\x1b") == "\\xff\\x1b"
    roots = Roots([b"/a", b"/b/pack.zip"])
    assert [roots.relative(path) for path in (b"/a/x/p.tar!/", b"/b/pack.zip!/")] == ["a/x/p.tar!/", "pack.zip!/"]
    assert Roots([b"/b/pack.zip"]).relative(b"/b/pack.zip!/") == "pack.zip!/"
    assert [joined("p.tar!/", name) for name in (b"x/y", b"")] == ["p.tar!x/y", "p.tar"]


def test_only_the_script_and_the_style_of_the_page_may_act(made):
    html, _ = made({"a.nap": POINT})
    text = Path(html).read_text("utf-8")
    policy = re.search(r'Content-Security-Policy" content="([^"]*)"', text)[1].replace("&#x27;", "'")
    style, script = re.search(r"<style>(.*?)</style>", text, re.DOTALL)[1], re.search(
        r"<script>(.*?)</script>", text, re.DOTALL)[1]
    hashes = [base64.b64encode(hashlib.sha256(part.encode()).digest()).decode() for part in (script, style)]
    assert policy == ("default-src 'none'; script-src 'sha256-%s'; style-src 'sha256-%s'; img-src blob:; "
                      "base-uri 'none'; form-action 'none'" % tuple(hashes))
    assert not re.search(r"(src|href|action|srcset)=\"(?!#)", text) and "http" not in text.replace("http-equiv", "")


def test_the_same_bytes_whatever_number_of_processes(run, tmp_path):
    run(["scan", collection(tmp_path / "archive")[0], "-o", str(tmp_path / "pages.db")])
    for number in ("1", "3"):
        words = ["report", str(tmp_path / "pages.db"), "-o", str(tmp_path / number), "--jobs", number]
        assert run(words).returncode == 0
    assert (tmp_path / "1").read_bytes() == (tmp_path / "3").read_bytes()


def test_what_is_held_of_pages(made):
    html, _ = made({"a.nap": words("HELLO  WORLD"), "b.nap": POINT, "c.nap": SPELLED, "d.nap": OUTSIDE,
                    "e.nap": words("A" * 100)})
    table, (block,) = held(html)
    at = table["columns"]["sketch"]
    assert at[1] == at[2] and sorted(set(at)) == [0, 1, 2, 3]
    assert block["text"][at[0]] == "HELLO  WORLD" and block["entries"][at[1]] == 1
    assert table["says"] == ["HELLO WORLD", "", "", "", "A" * 60]
    assert table["hashes"][table["columns"]["page"][1]] == hashlib.sha256(POINT).hexdigest()[:16]
    assert all(each.startswith("<svg") for each in block["sketch"])
    assert block["lines"][at[1]] == "POINT 4194304,4194304 pel=0,0 colour=own-start"
    assert table["answers"] == ["accepted", "10 Outside"] and table["numbers"] == [0, 10]
    assert table["refusals"]["10"]["means"].startswith("A point of the picture code isn't on the unit screen")
    assert [group[1:] for group in table["groups"]] == [[2, 2, 1, 12, 0]]


def test_a_long_list_is_held_in_part(made):
    rings = b"\x0f" + b"A\x07" * 300  # (no two characters stand one after the other, so each has a row)
    html, _ = made({"a.nap": rings, "b.nap": rings + OUTSIDE})
    table, (block,) = held(html)
    long, refused = table["columns"]["sketch"]
    assert block["first"][long] == 0 and block["lines"][long].count("\n") == 47
    assert block["first"][refused] + 48 == block["entries"][refused]


@pytest.mark.parametrize("more, sketches", [
    ([], 5), (["--max-pictures", "2"], 2), (["--max-pictures", "0"], 0), (["--max-pictures", "all"], 5)])
def test_how_many_sketches(made, more, sketches):
    html, said = made({"a": POINT, "b": b"", "c": POINT + b"\x0a" + POINT, "d": OUTSIDE, "e": b"\x1b"}, *more)
    assert b"%d of 5 sketches" % sketches in said.stdout and said.returncode == 0
    assert sum(len(block["sketch"]) for block in held(html)[1]) == sketches


def test_how_many_sketches_where_nothing_or_all_is_said(made, naplps, tmp_path):
    usual, all_of_them = (parsing.parser_of("report").parse_args(["s.db", "-o", "html", *some])
                          for some in ([], ["--max-pictures", "all"]))
    assert (usual.sketches, all_of_them.sketches) == (10_000, None)
    made({"a": POINT, "b": OUTSIDE, "c": b""})
    store, options = str(tmp_path / "pages.db"), options_of(tmp_path, naplps, sketches=2)
    assert making.make(open_to_read(store), options).sketches == 2
    assert making.make(open_to_read(store), options._replace(all=True, replace=True)).sketches == 3


def kinds(most, groups, refused, others):
    """What has a sketch of a table of a number of groups, refused files by their reasons, and others."""
    told = ["accepted"] * groups + [reason for reason, number in refused.items() for _ in range(number)]
    files = [SimpleNamespace(answer=int(each != "accepted"), summary=each, page=at)
             for at, each in enumerate(told + ["accepted"] * others)]
    some = choose(SimpleNamespace(groups=["group"] * groups, files=files, in_group=[
        at if at < groups else -1 for at in range(len(files))]), most)
    assert len(set(some)) == len(some)
    return ["group" if number < groups else files[number].summary for number in some]


def test_which_pages_have_a_sketch():
    many = 100, {"1": 50, "2": 1, "3": 2}, 100
    assert kinds(20, *many) == ["group"] * 12 + ["1", "2", "3", "1", "3", "1"] + ["accepted"] * 2
    assert kinds(10, 2, {"1": 1}, 100) == ["group"] * 2 + ["1"] + ["accepted"] * 7
    assert kinds(10, 100, {}, 1) == ["group"] * 6 + ["accepted"] + ["group"] * 3
    assert kinds(100, 1, {"1": 2}, 3) == ["group", "1", "1", "accepted", "accepted", "accepted"]
    assert kinds(0, *many) == []


def test_words_that_stood_there_before_are_left_out():
    lines = ["CHAR primary 41 pen=start", "POINT 1,2", "CHAR primary 42 pen=start", "CHAR primary 42 pen=after",
             "POINT 1,2"]
    assert shortened(lines) == ["CHAR primary 41 pen=start", "POINT 1,2", "CHAR  42 ", "CHAR   pen=after", "POINT "]


def test_a_page_that_changed_is_told_and_has_no_sketch(run, made, tmp_path):
    made({"a.nap": POINT, "b.nap": OUTSIDE})
    name, html = file(tmp_path / "archive", "a.nap", b""), str(tmp_path / "second.html")
    said = run(["report", str(tmp_path / "pages.db"), "-o", html])
    assert said.returncode == 1
    assert said.stderr.decode() == "naplps-pages: %s: no sketch: it isn't as it was when it was scanned\n" % name
    assert [block["why"] for block in held(html)[1]] == [["it isn't as it was when it was scanned", ""]]


def test_a_page_that_ends_the_process_that_draws_it(made, fake, tmp_path):
    program = fake(FAKE.replace("== b'kill its parent'", "== b'kill' and command != b'canon' and os.path.exists(%r)" % (
        str(tmp_path / "pages.db"))))
    html, said = made({"a": b"good", "b": b"kill", "c": b"well"}, "--jobs", "1", program=program)
    assert ENDED in said.stderr.decode() and said.returncode == 3 and os.path.exists(html)


def test_pages_beside_those_that_end_processes_have_their_own_answers(made, again, fake, tmp_path):
    pages = {"%02d" % at: b"%b %d" % (b"kill" if at in (1, 2, 4, 9) else b"good", at) for at in range(10)}
    program = fake(FAKE.replace("page == b'kill its parent'", "page[:4] == b'kill' and os.path.exists(%r)" % str(
        tmp_path / "end")).replace("b'canonical ' + page[:1]", "b'canonical ' + page"))
    made(pages, program=program)
    file(str(tmp_path), "end", b"")
    why = [each for block in held(again(program))[1] for each in block["why"]]
    assert [at for at, each in enumerate(why) if each == ENDED] == [1, 2, 4, 9] and len(set(why)) == 2


@pytest.mark.parametrize("name, reason", [("there", "is there already, and isn't written over"),
                                          ("none/report.html", "there is no such folder")])
def test_a_file_that_cannot_be_made_is_told_at_once(made, run, tmp_path, name, reason):
    made({"a": POINT})
    file(tmp_path, "there", b"something")
    html = str(tmp_path / name)
    said = run(["report", str(tmp_path / "pages.db"), "-o", html])
    assert (said.returncode, said.stderr.decode()) == (3, "naplps-pages: %s: %s\n" % (html, reason))


def test_a_report_is_replaced_where_that_is_asked(made, run, tmp_path):
    html, _ = made({"a": POINT})
    assert len(held(html)[0]["columns"]["name"]) == 1
    _, said = made({"b": OUTSIDE}, "--force")
    assert said.returncode == 0 and len(held(html)[0]["columns"]["name"]) == 2
    assert sorted(os.listdir(tmp_path)) == ["archive", "pages.db", "report.html"]


@pytest.mark.parametrize("name", ["pages.db", "archive/a", "empty", "link"])
def test_what_is_no_report_is_not_replaced(made, run, tmp_path, name):
    made({"a": POINT})
    file(tmp_path, "empty", b"")
    (tmp_path / "link").symlink_to("nothing")
    path = tmp_path / name
    said = run(["report", str(tmp_path / "pages.db"), "-o", str(path), "--force"])
    assert said.returncode == 3 and said.stderr.decode().startswith("naplps-pages: %s: " % path)
    assert path.is_symlink() or b"<html" not in path.read_bytes()


def test_a_report_is_printed(made, run, tmp_path):
    html, _ = made({"a": POINT})
    said = run(["report", str(tmp_path / "pages.db"), "-o", "-"])
    assert (said.returncode, said.stderr) == (0, b"") and said.stdout == Path(html).read_bytes()


def test_processes_that_draw_nothing_end_a_report_in_time(made, again, monkeypatch):
    monkeypatch.setattr("naplps_pages.report.sketch_workers.MOST_STILLBORN", 2)
    made({"%02d.nap" % at: words("PAGE %d" % at) for at in range(12)})
    monkeypatch.setattr("naplps_pages.interpreter.START", "import sys; sys.exit(1)")
    why = [each for block in held(again(processes=2))[1] for each in block["why"]]
    assert why == [ENDED] * 12


def test_folders_to_choose():
    some = facts._folders([("a", 1), ("a/b", 2), ("c/d.zip!/", 3), ("", 4), ("x/y/z", 5)])
    assert some == [("a", 3), ("a/b", 2), ("c", 3), ("c/d.zip!/", 3), ("x", 5), ("x/y", 5), ("x/y/z", 5)]
    many = facts._folders(("top/%04d" % at, 1) for at in range(1000))
    assert many == [("top", 1000)]
    assert len(facts._folders(("%04d" % at, 1) for at in range(1000))) == 500


@pytest.mark.parametrize("words", [["report", "none.db", "-o", "x.html"], ["report", "none.db", "--serve"]])
def test_what_is_no_store(run, tmp_path, words):
    said = run(words, cwd=str(tmp_path))
    assert (said.returncode, said.stderr) == (3, b"naplps-pages: none.db: No such file or directory\n")
    file(tmp_path, "none.db", b"text")
    said = run(words, cwd=str(tmp_path))
    assert said.returncode == 3 and said.stderr.count(b"\n") == 1


@pytest.mark.parametrize("words", [["report", "x.db"], ["report", "x.db", "-o", "y", "--max-pictures", "-1"],
                                   ["report", "x.db", "-o", "y", "--max-pictures", "few"],
                                   ["report", "x.db", "-o", "y", "--max-pictures", "50001"], ["report", "--serve"],
                                   ["report", "x.db", "--serve", "--port", "65536"],
                                   ["report", "x.db", "--serve", "-o", "y"],
                                   ["report", "x.db", "-o", "y", "--port", "1"],
                                   ["report", "x.db", "--serve", "--force"]])
def test_wrong_words(run, words):
    said = run(words)
    assert said.returncode == 2 and said.stdout == b"" and b"Traceback" not in said.stderr


def test_an_empty_collection(made, tmp_path):
    (tmp_path / "archive").mkdir()
    html, said = made({})
    assert said.returncode == 0 and b"0 files, 0 groups" in said.stdout
    assert held(html)[0]["columns"]["name"] == [] and held(html)[1] == []
