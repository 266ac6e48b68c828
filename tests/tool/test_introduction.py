"""A file, a folder or a store in place of a command: what it is, and commands that come next, each of which runs."""
import os
import subprocess

import pytest

from command import COMMAND, file
from packers import pack
from samples import OUTSIDE, POINT
from scans import tree

# What is said of each, and the first of the commands that come next.
KINDS = {"page.nap": ("accepted 1 entries", "show"), "a b'.nap": ("accepted 1 entries", "show"),
         "letter.txt": ("accepted 5 entries (text)", "show"), "bad.nap": ("refused 10 Outside at 3", "check --explain"),
         "cat.gif": ("refused 1 EighthBit at ", "fix"), "pages": ("a folder", "check"), "old.zip": ("a pack", "check"),
         "pages.db": ("a store", "files"), "a box": ("a store", "files")}


@pytest.fixture
def folder(run, tmp_path, naplps, monkeypatch):
    """A folder with each, in which the command stands on the path."""
    for name, data in (("page.nap", POINT), ("a b'.nap", POINT), ("letter.txt", b"hello"), ("bad.nap", OUTSIDE),
                       ("cat.gif", b"GIF89a\x10\0\x10\0\xf7\0\0")):
        file(tmp_path, name, data)
    tree(str(tmp_path / "pages"), {"one.nap": POINT})
    pack(str(tmp_path / "old.zip"), {"one.nap": POINT})
    for words in (["scan", "pages", "-o", "pages.db"], ["box", "pages", "-o", "a box"]):
        assert run(words, cwd=str(tmp_path), keeps="words").returncode == 0
    monkeypatch.setenv("NAPLPS", naplps)
    monkeypatch.setenv("PATH", os.path.dirname(COMMAND) + os.pathsep + os.environ["PATH"])
    monkeypatch.chdir(tmp_path)


@pytest.mark.parametrize("name", KINDS)
def test_what_it_is_and_what_comes_next(folder, run, name):
    what, first = KINDS[name]
    said = run([name])
    lines = said.stdout.decode().splitlines()
    assert said.returncode == (1 if "refused" in what else 0) and said.stderr == b""
    assert lines[0].startswith(f"{name}: {what}") and lines[1].startswith(f"  naplps-pages {first} ")
    for line in lines[1:]:
        words = line.strip().partition("  ")[0].replace(" WORD ", " hello ")
        ran = subprocess.run(["sh", "-c", words], capture_output=True)
        # (a letter is no source, and no word may be found)
        assert ran.returncode in (0, 1) and b"usage:" not in ran.stderr, (words, ran.stderr)


def test_several_names_and_names_of_nothing(folder, run):
    said = run(["page.nap", "bad.nap", "pages"])
    assert said.returncode == 1 and [line.split(": ")[0] for line in said.stdout.decode().splitlines() if (
        not line.startswith("  "))] == ["page.nap", "bad.nap", "pages"]
    said = run(["none.nap"])
    assert (said.stdout, said.returncode) == (b"", 2) and b"no file, none.nap" in said.stderr
    assert run(["page.nap", "none.nap"]).returncode == 3
