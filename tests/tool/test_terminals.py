"""What a terminal gets: how far a command is, and no report. (test_show.py has what else it doesn't get.)"""
import os
import re
import subprocess

import pytest

from command import COMMAND, file
from samples import POINT
from scans import tree
from terminals import on_terminal

# The program, which takes a while for each page.
SLOWLY = """
import subprocess
real = {!r}
if sys.argv[1:] != ["batch"]:
    os.execv(real, [real, *sys.argv[1:]])
child = subprocess.Popen([real, "batch"], stdin=subprocess.PIPE)
for line in iter(sys.stdin.buffer.readline, b""):
    page = sys.stdin.buffer.read(int(line.split()[2]))
    time.sleep(0.1)
    child.stdin.write(line + page)
    child.stdin.flush()
"""
PAGES = {"%02d" % number: b"\x0f%02d" % number for number in range(12)}
MANY = (["show", "-o", "shown/"], ["show", "-o", "sheet.svg"], ["show", "--format", "text"], ["fix", "-o", "fixed"],
        ["canon", "-o", "canonical/"], ["check"])


def assert_how_far(shown, what):
    """The lines of a terminal say so, each until the next, or an answer, takes its place."""
    first, *lines, last = shown.decode().split("\r\x1b[K")
    assert (first, last) == ("", "") and any(lines)
    assert all(re.fullmatch(rf"(\d+ of 12 {what}, \d+ a second(, .* left)?)?", line) for line in lines)


@pytest.mark.parametrize("words", MANY, ids=" ".join)
def test_how_far_a_command_is_stands_on_a_terminal_alone(naplps, run, fake, tmp_path, words):
    tree(tmp_path / "pages", PAGES)
    names = [f"pages/{name}" for name in PAGES]
    program = fake(SLOWLY.format(naplps))
    said = on_terminal([COMMAND, *words, *names], "stderr", cwd=str(tmp_path), env=dict(os.environ, NAPLPS=program))
    assert said.status == 0
    assert_how_far(said.shown, "files")
    again = run([*words, *names], program=program, cwd=str(tmp_path))
    assert (again.returncode, again.stdout, again.stderr) == (0, said.printed, b"")


def test_how_far_a_report_is(naplps, run, fake, tmp_path):
    top = tree(tmp_path / "pages", PAGES)
    assert run(["scan", top, "-o", str(tmp_path / "s.db")]).returncode == 0
    words = ["report", str(tmp_path / "s.db"), "--jobs", "1", "-o", str(tmp_path / "report.html")]
    said = on_terminal([COMMAND, *words], "stderr", env=dict(os.environ, NAPLPS=fake(SLOWLY.format(naplps))))
    assert said.status == 0
    assert_how_far(said.shown, "sketches")


def test_nothing_of_that_stands_between_answers(naplps, fake, tmp_path):
    """A terminal that gets the answers isn't told how far the command is."""
    tree(tmp_path, PAGES)
    said = on_terminal([COMMAND, "check", *PAGES], "stdout", stderr=subprocess.STDOUT, cwd=str(tmp_path),
                       env=dict(os.environ, NAPLPS=fake(SLOWLY.format(naplps))))
    assert said.status == 0
    assert said.shown.decode().splitlines() == [f"{name}: accepted 2 entries (text)" for name in PAGES]


def test_a_report_is_not_written_to_a_terminal(naplps, run, tmp_path):
    page, words = file(tmp_path, "page", POINT), ["report", str(tmp_path / "s.db"), "-o", "-"]
    assert run(["scan", page, "-o", str(tmp_path / "s.db")]).returncode == 0
    said = on_terminal([COMMAND, *words], "stdout", env=dict(os.environ, NAPLPS=naplps))
    assert (said.status, said.shown) == (2, b"")
    assert said.printed.endswith(b"isn't written to a terminal: -o FILE names a file for it\n")
    assert run(words).stdout.startswith(b"<!doctype html>")
