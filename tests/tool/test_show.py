"""What `show` makes: each format, by its name or by the ending of the file; and what isn't put on a terminal."""
import os
import pty
import subprocess
from contextlib import suppress

import pytest

from command import COMMAND, file
from folders import files_in
from samples import OUTSIDE, POINT

PAGE = POINT + b"\x0fHI"
# What each format begins with, and the endings that stand for it.
FORMATS = {"svg": (b"<svg ", ["svg", "SVG", "none"]), "png": (b"\x89PNG\r\n\x1a\n", ["png"]),
           "apng": (b"\x89PNG\r\n\x1a\n", ["apng"]), "html": (b"<!doctype html>", ["html", "htm"]),
           "text": (b"HI\n", ["txt"]), "words": (b"middle: HI\n", [])}


@pytest.fixture
def folder(tmp_path):
    """A folder with pages, one that is refused, and a source of one."""
    for name, data in (("page", PAGE), ("point", POINT), ("bad", OUTSIDE), ("source.txt", b"BELL\n")):
        file(tmp_path, name, data)
    return str(tmp_path)


@pytest.mark.parametrize("name", FORMATS)
def test_a_format_by_its_name_and_by_the_ending_of_the_file(run, folder, name):
    start, endings = FORMATS[name]
    said = run(["show", "--format", name, "page"], cwd=folder)
    assert (said.returncode, said.stderr) == (0, b"") and said.stdout.startswith(start)
    assert (b"acTL" in said.stdout) == (name == "apng")
    assert run(["show", "--format", name, "-o", "-", "page"], cwd=folder).stdout == said.stdout
    for ending in endings:
        made = run(["show", "page", "-o", "made." + ending], cwd=folder)
        assert (made.returncode, made.stdout, made.stderr) == (0, b"", b"")
        assert files_in(folder)[b"made." + ending.encode()] == said.stdout
    if name == "svg":
        assert run(["show", "page"], cwd=folder).stdout == said.stdout


@pytest.mark.parametrize("name, ending", [
    ("svg", "svg"), ("png", "png"), ("apng", "png"), ("html", "html"), ("text", "txt"), ("words", "txt")])
def test_several_pages_are_files_of_a_folder(run, folder, to, name, ending):
    said = run(["show", "--format", name, "page", "point", "-o", to], cwd=folder)
    assert (said.returncode, said.stdout, said.stderr) == (0, b"", b"")
    assert files_in(to) == {f"{page}.{ending}".encode(): run(["show", "--format", name, page], cwd=folder).stdout
                            for page in ("page", "point")}
    one = run(["show", "--format", name, "page", "-o", to + "/one/"], cwd=folder)
    assert one.returncode == 0 and os.listdir(to + "/one") == [f"page.{ending}"]


def test_text_and_words_of_several_pages_have_their_names_in_front(run, folder):
    for name in ("text", "words"):
        said = run(["show", "--format", name, "page", "bad", "page"], cwd=folder)
        lines = [line for line in said.stdout.decode().splitlines() if not line.startswith("bad: ")]
        assert said.returncode == 1 and len(lines) % 2 == 0 and lines[0].startswith("page: ")
        assert said.stderr.startswith(b"naplps-pages: bad: refused 10 Outside at 3; ")


def on_terminal(naplps, words, folder):
    """What a command prints on a terminal, with its status and standard error."""
    mine, other = pty.openpty()
    said = subprocess.run([COMMAND, *words.split()], stdout=other, stderr=subprocess.PIPE, cwd=folder,
                          env=dict(os.environ, NAPLPS=naplps))
    os.close(other)
    printed = b""
    with os.fdopen(mine, "rb", 0) as terminal, suppress(OSError):  # (there is nothing where nothing was printed)
        printed = terminal.read(1 << 16)
    return printed, said.returncode, said.stderr


@pytest.mark.parametrize("words", [
    "show page", "show page -o -", "show page --format png", "show page --format apng", "show page --format html",
    "canon page", "canon page -o -", "make source.txt", "make source.txt --format svg",
    "diff --format html page point"])
def test_pictures_html_and_canonical_bytes_are_not_written_to_a_terminal(naplps, folder, words):
    printed, status, told = on_terminal(naplps, words, folder)
    assert (printed, status) == (b"", 2) and b" error: " in told and b"terminal" in told
    if not words.endswith(" -"):
        assert on_terminal(naplps, words + " -o made", folder) == (b"", 1 if words.startswith("diff") else 0, b"")


@pytest.mark.parametrize("words", [
    "check page", "check --explain page", "list page", "show page --format text", "show page --format words",
    "make --from page", "diff page page", "fix page"])
def test_what_people_read_is_written_to_a_terminal(run, naplps, folder, words):
    printed, status, told = on_terminal(naplps, words, folder)
    assert (status, told) == (0, b"") and printed
    assert printed.replace(b"\r\n", b"\n") == run(words.split(), cwd=folder).stdout
