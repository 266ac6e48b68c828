"""The command make: pages, pictures, folders, mistakes and statuses."""
import os
import zipfile

import pytest

from command import TOP, file
from fake_programs import BATCH
from folders import files_in

NOTICE = b"# two shapes\nRECT-FILLED 0,0 .5,.5 colour=red\nTEXT pen=.1,.1 \"A\"\n"
LINES = (b"RECT-FILLED 0,0 4194304,4194304 pel=0,0 colour=direct:0,65535,0 texture=0/none\n"
         b"CHAR primary 41 pen=838861,838861 colour=direct:0,65535,0 text=0,0/normal/----\n")


def answering(line):
    """A program that does this for each request."""
    return BATCH + f"for command, budget, page in requests():\n    {line}\n"


def test_a_page_is_printed(run, tmp_path):
    said = run(["make", file(tmp_path, "notice.txt", NOTICE)])
    assert (said.returncode, said.stderr) == (0, b"")
    assert run(["list", "-"], said.stdout).stdout == LINES
    assert run(["canon", "-"], said.stdout).stdout == said.stdout
    assert run(["make", "-"], NOTICE).stdout == run(["make", "-"], LINES).stdout == said.stdout
    assert run(["make", "-"], b"# nothing\n").stdout == bytes.fromhex("0E215F")  # (no line is the empty page)


def test_only_a_made_page_is_written_to_a_file(run, tmp_path, to):
    path, bad = file(tmp_path, "notice.txt", NOTICE), file(tmp_path, "bad.txt", b"LIEN 0,0")
    page, picture = run(["make", path]).stdout, run(["make", path, "--format", "svg"]).stdout
    said = run(["make", path, "-o", to])
    assert (said.returncode, said.stdout, said.stderr) == (0, b"", b"")
    said = run(["make", bad, "-o", to + "2"])
    assert (said.returncode, said.stdout) == (1, b"") and not os.path.exists(to + "2")
    assert run(["make", path, "--format", "svg", "-o", to + "2"]).returncode == 0
    assert run(["make", file(tmp_path, "c.txt", b"BELL"), "-o", to]).returncode == 3
    assert (files_in(tmp_path)[b"to"], files_in(tmp_path)[b"to2"]) == (page, picture)
    assert picture.startswith(b"<svg") and picture.replace(b"notice.txt", b"to") == run(["show", to]).stdout
    assert run(["make", path, path, "-o", to]).stderr.endswith(b"/to: Not a directory\n")


def test_pages_and_pictures_are_put_into_a_folder(run, tmp_path, to):
    os.makedirs(tmp_path / "in" / "a.b")
    names = [file(tmp_path / "in", "notice.txt", NOTICE), file(tmp_path / "in" / "a.b", "other", b"BELL")]
    said = run(["make", *names, "-o", to, "--format", "svg"])
    assert (said.returncode, said.stdout, said.stderr) == (0, b"", b"")
    assert run(["make", "-", "-o", to], b"BELL").returncode == 0
    made = files_in(to)
    assert sorted(made) == [b"a.b/other.nap", b"a.b/other.nap.svg", b"notice.nap", b"notice.nap.svg", b"page.nap"]
    assert made[b"notice.nap"] == run(["make", names[0]]).stdout
    assert made[b"notice.nap.svg"] == run(["make", names[0], "--format", "svg"]).stdout
    assert made[b"page.nap"] == bytes.fromhex("0E215F07")


def test_no_file_is_overwritten(run, tmp_path):
    words = ["make", file(tmp_path, "notice.txt", NOTICE), "-o", str(tmp_path)]
    mine = file(tmp_path, "notice.nap", b"mine")
    said = run(words)
    assert said.returncode == 3 and files_in(tmp_path)[b"notice.nap"] == b"mine"
    assert said.stderr.endswith(b"notice.nap: is there already with other bytes, and isn't written over\n")
    os.unlink(mine)
    assert run(words).returncode == run(words).returncode == 0


def test_what_is_wrong_with_one_source_holds_up_no_other(run, tmp_path, to):
    names = [file(tmp_path, name, data) for name, data in (
        ("a.txt", b"BELL\nLIEN 0,0\n  MASK E"), ("b.txt", NOTICE), ("c.txt", b"BELL\n   END"), ("d.txt", b"GLYPH 41"))]
    names.insert(1, str(tmp_path / "none.txt"))
    said = run(["make", *names, "-o", to, "--format", "svg"])
    assert said.returncode == 3 and sorted(os.listdir(to)) == ["b.nap", "b.nap.svg"]
    a, none, c, d = (names[at] for at in (0, 1, 3, 4))
    assert said.stderr.decode() == (
        f"{a}:2:1: expected what a line begins with, as LINE, not 'LIEN'\n"
        f"{a}:3:8: expected A, B, C or D, not 'E'\n"
        f"naplps-pages: {none}: No such file or directory\n"
        f"{c}:2:4: can't come here: there is no definition to end: GLYPH or MASK begins one\n"
        f"{d}:1:1: expected END for the definition that begins here\n")
    assert run(["make", a]).returncode == run(["make", c]).returncode == 1 and run(["make", c]).stdout == b""


@pytest.mark.parametrize("source, told", [
    (b'CLEAR\n\nTEXT "A"\nTEXT pen=start "AB"', "4:17: can't come here: pen=start doesn't stand here, pen=after does"),
    (b"# \nTEXT \"AB\"\n MASK A\n\nTEXT \"C\"\nBELL\n", "3:2: expected END for the definition that begins here"),
    ("LINE \u202e".encode(), "1:6: expected a point x,y, each from 0 to 8388607 or a fraction from 0.0 to 1.0, not "
                             "'\\u202e'")])
def test_where_a_source_is_wrong_is_told_without_harm(run, tmp_path, source, told):
    assert run(["make", "-"], source).stderr.decode() == f"-:{told}\n"
    said = run(["make", file(tmp_path, "a\nb\x1b[2J.txt", source)])
    assert said.stderr.decode().endswith(f"/a\\nb\\x1b[2J.txt:{told}\n")


def test_many_mistakes(run):
    said = run(["make", "-"], b"X\n" * 50)
    lines = said.stderr.decode().splitlines()
    assert len(lines) == 21 and lines[-1] == "naplps-pages: -: no more than 20 mistakes are told"


def test_wrong_words(run, tmp_path):
    path = file(tmp_path, "notice.txt", NOTICE)
    assert b"several pages need -o FOLDER" in run(["make", path, path]).stderr
    for words in (["make"], ["make", "-", "-", "-o", "x"], ["make", path, "--json"]):
        assert run(words).returncode == 2


def test_a_member_of_a_pack(run, tmp_path):
    path = str(tmp_path / "pages.zip")
    with zipfile.ZipFile(path, "w") as pack:
        pack.writestr("notice.txt", NOTICE)
    assert run(["make", path + "!notice.txt"]).stdout == run(["make", "-"], NOTICE).stdout


def test_sources_that_are_too_long(run, tmp_path):
    said = run(["make", file(tmp_path, "long.txt", b"\n" * (1 << 24) + b"\n")])
    assert said.returncode == 3 and b"a source has 16 MiB at most" in said.stderr


def test_a_full_disk(run, small_disk):
    with open(os.path.join(small_disk, "filled"), "wb") as filled:
        filled.write(bytes(2000 << 10))
    many = b"TEXT \"" + b"A" * 60000 + b"\"\n"
    said = run(["make", "-", "-o", small_disk], many * 2)
    assert said.returncode == 3 and b"No space left on device" in said.stderr
    assert os.listdir(small_disk) == ["filled"]


@pytest.mark.parametrize("lines, told", [
    (answering("answer(b'line 9: can\\'t come here')"), "something that is no answer"),
    (answering("answer(b'no memory')"), "no memory"), (answering("sys.exit(4)"), "status 4"),
    (answering("answer(b'refused 1 EighthBit at 0')"), "something that is no answer"),
    (answering("answer(b'line 2: no line of a list, at column 7')"),
     "-:3:17: the program doesn't take the line that this makes, 'CHAR "),
    ("sys.stderr.write('request fault\\n')\nsys.exit(3)\n", "the program ended with status 3: request fault"),
    ("sys.stderr.write('error: no command make\\n')\nsys.exit(2)\n",
     "the program ended with status 2: error: no command make")])
def test_programs_that_fail_or_have_no_make(run, fake, lines, told):
    said = run(["make", "-"], NOTICE, fake(lines))
    assert said.returncode == (1 if told.startswith("-:") else 3)
    assert said.stdout == b"" and told in said.stderr.decode()


def test_a_page_whose_picture_has_no_answer(run, fake, to):
    lines = answering("answer(b'accepted 2 entries', b'AB') if command == 'make' else sys.exit(4)")
    said = run(["make", "-", "-o", to + "/", "--format", "svg"], NOTICE, fake(lines))
    assert said.returncode == 3 and b"status 4" in said.stderr and os.listdir(to) == ["page.nap"]


def test_lists_of_the_gallery_are_sources(run):
    folder = os.path.join(TOP, "examples", "gallery")
    for name in ("weather.nap", "skyline, relative.nap", "logo.nap"):
        page = os.path.join(folder, name)
        assert run(["make", "-"], run(["list", page]).stdout).stdout == run(["canon", page]).stdout
