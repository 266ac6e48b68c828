"""What docs/MAKING.md shows: sources, what they make or what is wrong with them, commands, git and the converter."""
import os
import re
import subprocess
import sys
from pathlib import Path

import pytest

import gallery
from command import COMMAND, PACKAGES, TOP, file
from naplps import letters
from naplps.drawing.writing import SIZES
from naplps_pages.authoring import translating, values
from samples import has

EXAMPLES = os.path.join(TOP, "examples")
BLOCK = r"```\n((?:(?!```).*\n)*)```\n"
TEXT = Path(TOP, "docs", "MAKING.md").read_text("utf-8")
NAMED = dict(re.findall(r"<!-- source: (\S+) -->\n" + BLOCK, TEXT))


@pytest.fixture
def folder(naplps, tmp_path, monkeypatch):
    """A folder with the sources that the document shows, where the tool is on the path."""
    made = tmp_path / "made"
    made.mkdir()
    os.symlink(EXAMPLES, made / "examples")
    for name, text in (("NAPLPS", naplps), ("NAPLPS_LIBRARY", ""), ("PYTHONPATH", PACKAGES),
                       ("PATH", os.path.dirname(COMMAND) + os.pathsep + os.environ["PATH"])):
        monkeypatch.setenv(name, text)
    for name, text in NAMED.items():
        file(made, name, text.encode())
    return made


def shell(folder, words, status=0):
    """What a command prints."""
    said = subprocess.run(["sh", "-c", words], cwd=folder, capture_output=True, text=True)
    assert said.returncode == status, said.stderr
    return said.stdout + said.stderr


def test_the_notice_is_that_of_the_gallery(folder):
    assert NAMED["notice.txt"] == Path(gallery.SOURCES, "notice.txt").read_text("utf-8")
    shell(folder, "naplps-pages make notice.txt > notice.nap && naplps-pages make notice.txt --format svg > notice.svg")
    for name, stored in (("notice.nap", "notice.nap"), ("notice.svg", "notice.nap.svg")):
        assert (folder / name).read_bytes() == gallery.stored(stored)


def test_the_commands(folder):
    text = re.sub(r"^```.*?^```", "", TEXT, flags=re.MULTILINE | re.DOTALL)
    shown = re.findall(r"^    ((?:naplps-pages|python3) .*)\n((?:    # .*\n)*)", text, re.MULTILINE)
    assert len(shown) == 6
    os.unlink(folder / "wrong.txt")
    os.unlink(folder / "glyph.txt")
    for words, printed in shown:
        told = shell(folder, words.replace("python3", sys.executable))
        assert not printed or told == printed.replace("    # ", "")
    assert shell(folder, "cmp pages/page.nap pages/notice.nap") == ""
    assert sorted(os.listdir(folder / "pages")) == ["notice.nap", "notice.nap.svg", "page.nap", "page.nap.svg"]
    assert shell(folder, "naplps-pages check boat.nap") == "accepted 18 entries\n"


def test_what_sources_make(folder):
    pairs = re.findall(r"<!-- makes -->\n" + BLOCK + r"\nmakes\n\n" + BLOCK, TEXT)
    assert len(pairs) == 2
    for source, lines in pairs:
        file(folder, "page.txt", source.encode())
        assert shell(folder, "naplps-pages make page.txt | naplps-pages list -") == lines


def test_what_is_wrong(folder):
    told = re.findall(r"<!-- wrong: (\S+) -->\n" + BLOCK, TEXT)
    assert [name for name, _ in told] == ["wrong.txt", "glyph.txt"]
    for name, said in told:
        assert shell(folder, f"naplps-pages make {name}", 1) == said


def test_the_picture_the_tables_and_the_letters_are_whole():
    assert re.findall(r'<img src="([^"]+)"', TEXT) == ["../examples/gallery/notice.nap.svg"]
    table = TEXT[TEXT.index("| Line | What"):TEXT.index("## Positions")]
    named = set(re.findall(r"`([A-Z-]+)", table)) | {"POLY-FILLED"}
    assert set(translating.NAMES) <= named
    for kind in translating.KINDS.values():
        row = next(row for row in table.splitlines() if re.search("`%s[ `]" % kind.form.split()[0], row))
        assert row.split("|")[-2].strip() == ", ".join(kind.fields), kind.form
    for name in set(values.NAMED) - {"gray"}:
        assert re.search(r"\b%s\b" % name, TEXT)
    signs = re.search(r"supplementary set:\n\n    (.*)\n", TEXT)[1].replace(" ", "")
    known = {sign for sign in letters.SUPPLEMENTARY.values() if not sign.isascii()}
    assert set(signs) == known - {letters.UNKNOWN}
    for name, (wide, high) in SIZES.items():
        row = re.search(rf"^\| `{name}` \| (\S+) \| (\S+) \| (\S+) \|$", TEXT, re.MULTILINE)
        assert [float(row[1]), float(row[2]), int(row[3])] == [wide, round(high, 3), round(1 / wide)]


@pytest.mark.skipif(not has("git"), reason="there is no git")
def test_pages_are_merged_by_git(folder):
    page = str(folder / "page.nap")
    lines = ["CLEAR", *(f"RECT-FILLED 0.{at},0.1 0.{at + 1},0.5 colour=#0000{at}0" for at in range(1, 8))]
    name = "-c user.name=nobody -c user.email=nobody@example.org"

    def save(rows, message):
        file(folder, "page.txt", "\n".join(rows).encode())
        shell(folder, f"naplps-pages make page.txt > {page} && git add page.nap .gitattributes && "
                      f"git {name} commit -q -m {message}")
    shell(folder, "git init -q -b ours .")
    shell(folder, re.search(r"<!-- git: merge -->\n```sh\n(.*?)```", TEXT, re.DOTALL)[1])
    save(lines, "first")
    shell(folder, "git checkout -q -b theirs")
    save([lines[0], lines[1].replace("0.5 ", "0.7 "), *lines[2:]], "theirs")
    shell(folder, "git checkout -q ours")
    save([*lines[:-1], lines[-1].replace("0.5 ", "0.6 "), 'TEXT pen=0.1,0.05 "OURS"'], "ours")
    shell(folder, f"git {name} merge -q -m both theirs")
    both = [lines[0], lines[1].replace("0.5 ", "0.7 "), *lines[2:-1], lines[-1].replace("0.5 ", "0.6 "),
            'TEXT pen=0.1,0.05 "OURS"']
    file(folder, "both.txt", "\n".join(both).encode())
    assert shell(folder, "naplps-pages make both.txt | cmp - page.nap") == ""
    shell(folder, "git checkout -q -b third HEAD~2")
    save([*lines[:-1], lines[-1].replace("0.5 ", "0.4 ")], "third")
    before = shell(folder, "naplps-pages list page.nap")
    assert "CONFLICT" in shell(folder, f"git {name} merge ours", 1)
    assert shell(folder, "naplps-pages list page.nap") == before


def test_a_page_of_svg(folder):
    svg = ('<svg xmlns="http://www.w3.org/2000/svg" viewBox="0 0 100 78"><rect x="50" y="39" width="25" height="39" '
           'fill="red"/><line x1="0" y1="78" x2="100" y2="28" stroke="#00ff00" stroke-width="0"/>'
           '<polygon points="0,78 50,78 0,28" fill="none" stroke="white" stroke-width="25"/><path d="M0 0"/></svg>')
    file(folder, "page.svg", svg.encode())
    shell(folder, f"{sys.executable} examples/svg_outline.py page.svg > page.nap")
    assert shell(folder, "naplps-pages list page.nap").splitlines() == [
        "CLEAR pen=start",
        "POLY-FILLED 4194304,3271557 6291456,3271557 6291456,0 4194304,0 pel=0,0 colour=direct:0,65535,0 "
        "texture=0/none",
        "LINE 0,0 8388607,4194304 pel=0,0 colour=direct:65535,0,0 texture=0/none",
        "POLY-OUTLINED 0,0 3145728,0 0,3145728 pel=2097152,2097152 colour=direct:65535,65535,65535 texture=0/none"]
    assert len(Path(EXAMPLES, "svg_outline.py").read_text("utf-8").splitlines()) <= 62
