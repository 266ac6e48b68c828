"""The words of the tool: its help and its options; and what is imported."""
import os
import re
import shutil
import subprocess
import sys

import pytest

from command import COMMAND, PACKAGES, file
from naplps_pages import commands, parsing
from samples import OUTSIDE, POINT, SPELLED
from scans import tree

NAMES = [name for group in commands.GROUPS for name in commands.in_group(group)]
# All commands, and all options.
COMMANDS = "box scan files find equal report check show fix canon list make diff"
OPTIONS = ("--baud --budget --census --csv --dask --explain --force --format --from --guess --include --jobs --json "
           "--kind --max-pictures --max-size --merge --min-entries --near --nearly --only --output --pictures --port "
           "--previous --print0 --reason --refused --rescan --scale --serve --shard --skip --timeout --verify")


def listed(text):
    """The commands that a help lists."""
    return re.findall(r"^  ([a-z]+) {2,}\S", text, re.MULTILINE)


def test_a_name_that_looks_like_an_option(run, tmp_path):
    for name in ("-a.nap", "b.nap"):
        file(tmp_path, name, POINT)
    for words in (["check", "-a.nap"], ["check", "b.nap", "-a.nap"]):
        said = run(words, cwd=str(tmp_path))
        assert (said.returncode, said.stdout) == (2, b"")
        assert said.stderr.endswith(b"; the file -a.nap is named ./-a.nap\n")
    assert run(["check", "--nope", "b.nap"], cwd=str(tmp_path)).stderr.endswith(b"unrecognized arguments: --nope\n")
    assert run(["check", "./-a.nap"], cwd=str(tmp_path)).returncode == 0


def test_the_help_has_all_commands(run):
    text = run(["help"]).stdout.decode()
    assert run(["--help"]).stdout.decode() == run(["-h"]).stdout.decode() == text
    assert listed(text) == NAMES and sorted(NAMES) == sorted(COMMANDS.split())
    assert all(len(line) <= 80 for line in text.splitlines())


# A command of its own, which stands among those that work on pages.
SIZE = """'''The command size.'''
from . import BUDGET, PAGES, PAGE_GROUP, TIMEOUT, Command, on_pages


def size(session):
    return session.each(lambda page: session.output.line(f"{session.front(page.name)}{len(page.data)} bytes"))


COMMAND = Command("print how long pages are", lambda: [PAGES, BUDGET, TIMEOUT], on_pages(size), "size ferry.nap",
                  group=PAGE_GROUP, rank=11)
"""


def test_a_module_is_a_command(naplps, tmp_path):
    for name in ("naplps", "naplps_pages"):
        shutil.copytree(os.path.join(PACKAGES, name), tmp_path / "python" / name,
                        ignore=shutil.ignore_patterns("__pycache__"))
    (tmp_path / "pages").mkdir()
    command = shutil.copy(COMMAND, tmp_path / "pages")
    (tmp_path / "python" / "naplps_pages" / "commands" / "size.py").write_text(SIZE, "ascii")

    def run(*words):
        return subprocess.run([command, *words], capture_output=True, text=True, cwd=tmp_path,
                              env={**os.environ, "NAPLPS": naplps})
    file(tmp_path, "page", POINT)
    behind = NAMES.index("check") + 1
    assert run("size", "page").stdout == f"{len(POINT)} bytes\n"
    assert listed(run("help").stdout) == [*NAMES[:behind], "size", *NAMES[behind:]]
    told = run("size", "--help").stdout
    usage = "usage: naplps-pages size [-h] [--budget N] [--timeout SECONDS] PAGE [PAGE ...]"
    assert told.startswith(f"{usage}\n\nPrint how long pages are.\n")
    assert told.endswith("example:\n  naplps-pages size ferry.nap\n")
    assert "did you mean size?" in run("sise", "page").stderr


def test_help_of_a_command_is_its_own(run):
    for name in NAMES:
        assert run(["help", name]).stdout == run([name, "--help"]).stdout != b""
    said = run(["help", "--all"])
    assert (said.returncode, said.stdout) == (2, b"")


def test_all_options():
    """Each stands in the help of the commands that take it, and in the list of all."""
    found, short = set(), set()
    for name in NAMES:
        parser = parsing.parser_of(name)
        taken = {word for action in parser._actions for word in action.option_strings}
        assert taken == set(re.findall(r"(?m)(?<!\S)(--?[a-z0-9-]+)(?=[ ,\n])", "\n".join(
            line for line in parser.format_help().split("options:")[1].splitlines() if line.startswith("  -"))))
        found |= {word for word in taken if word.startswith("--")}
        short |= taken - found
    assert found == {*OPTIONS.split(), "--help"} and short == {"-h", "-o", "-j", "-0"}


@pytest.mark.parametrize("word, near", [("shwo", "show"), ("chek", "check"), ("reprot", "report"), ("equals", "equal")])
def test_an_unknown_word_names_the_nearest(run, word, near):
    for words in ([word], ["help", word]):
        said = run(words)
        assert said.returncode == 2 and f" {word}; did you mean {near}?" in said.stderr.decode()


@pytest.mark.parametrize("command, most", [("check", 19), ("scan", 45)])
def test_few_modules_of_ours_are_imported(naplps, tmp_path, command, most):
    tree(os.path.join(str(tmp_path), "pages"), {"a.nap": POINT, "b.nap": OUTSIDE})
    lines = ("import atexit, runpy, sys\n"
             "ours = lambda: [name for name in sys.modules if name.split('.')[0] in ('naplps', 'naplps_pages')]\n"
             "atexit.register(lambda: print(len(ours()), file=sys.stderr))\n"
             "sys.argv = sys.argv[1:]\nrunpy.run_path(sys.argv[0], run_name='__main__')")
    words = ["pages/a.nap"] if command == "check" else ["pages", "-o", "s.db"]
    said = subprocess.run([sys.executable, "-BES", "-c", lines, COMMAND, command, *words], cwd=str(tmp_path),
                          env={**os.environ, "NAPLPS": naplps}, capture_output=True, text=True)
    assert said.returncode == 0 and 9 < int(said.stderr.split()[-1]) <= most, said.stderr


def test_readable_copies_stand_in_groups_of_their_own(run, tmp_path):
    pages = tree(os.path.join(str(tmp_path), "pages"), {
        "a": POINT, "b": SPELLED, "c": POINT + b"\x1a", "d": POINT + b"\x1a\x1a", "e": b"\x0fHELLO\x1a"})
    store = os.path.join(str(tmp_path), "s.db")
    assert run(["scan", pages, "-o", store], keeps="repair").returncode == 0
    said = run(["equal", store, "--skip", "copies"]).stdout.decode().replace(pages + "/", "")
    groups = [re.sub(r": canonical.*", "", part) for part in re.split(r"^(?=\d)", said, flags=re.MULTILINE) if part]
    assert sorted(re.findall(r"\d: (\w)$", groups[0], re.MULTILINE)) == ["a", "b"]
    assert groups[1].startswith("2 spellings, 2 files, 1 entry, readable copies, the same as 2 other files\n")
    assert sorted(re.findall(r"\d: (\w: .*)", groups[1])) == [
        "c: treated by tail (around)", "d: treated by tail (around)"]
    assert len(groups) == 2
    assert len(run(["equal", store, "--skip", "copies", "--json"]).stdout.splitlines()) == 1
    assert len(run(["equal", store, "--skip", "copies", "--include", "treated", "--json"]).stdout.splitlines()) == 1
