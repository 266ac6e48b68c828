"""The manual and the completions: the examples of man/naplps.1 as they are written there, its refusals, and each
command and option that the program's help shows."""
import re
import shutil
import subprocess
from pathlib import Path
from typing import List, Tuple

import pytest

from dev.judging import Answer, run
from dev.layout import TOP
from samples import need
from shells import answer, with_naplps

MANUAL = TOP / "man" / "naplps.1"
COMPLETIONS = {"bash": "completions/naplps.bash", "zsh": "completions/_naplps", "fish": "completions/naplps.fish"}
COMMANDS = ("list", "check", "canon", "make", "batch")
REFUSAL = re.compile(r"^\.It (\d+ [A-Za-z]+)$", re.MULTILINE)
REFUSAL_ROW = re.compile(r"^\| (\d+) \| ([A-Za-z]*) \|", re.MULTILINE)


def examples() -> List[Tuple[str, str]]:
    """The commands of the manual's examples, which stand behind a dollar sign, and what is printed after each."""
    text = MANUAL.read_text("utf-8").partition("\n.Sh EXAMPLES")[2].partition("\n.Sh ")[0]
    blocks = "".join(re.findall(r"^\.Bd -literal.*\n((?:.*\n)*?)\.Ed", text, re.MULTILINE))
    for spelling, character in ((r"\(aq", "'"), (r"\-", "-"), (r"\e", "\\")):
        blocks = blocks.replace(spelling, character)
    return re.findall(r"^\$ (.*)\n((?:(?!\$ ).*\n)*)", blocks, re.MULTILINE)


def test_there_are_examples() -> None:
    """The manual has examples, and each line of their blocks is read."""
    text = MANUAL.read_text("utf-8")
    assert len(examples()) == len(re.findall(r"^\$ ", text, re.MULTILINE)) > 0


@pytest.mark.parametrize("command, printed", examples(), ids=[command for command, _ in examples()])
def test_example(naplps: str, tmp_path: Path, command: str, printed: str) -> None:
    """An example prints what stands after it, in a folder with a page."""
    folder = tmp_path / "pages"
    folder.mkdir()
    shutil.copy(TOP / "examples" / "page.nap", folder)
    result = run(["sh", "-c", command], cwd=folder, env=with_naplps(naplps, tmp_path / "bin"), stderr=subprocess.STDOUT)
    assert result.out.decode("utf-8") == printed


def test_refusals() -> None:
    """The refusals of the manual are those of docs/PROFILE.md, by numbers and names."""
    profile = (TOP / "docs" / "PROFILE.md").read_text("utf-8")
    rows = REFUSAL_ROW.findall(profile.partition("\n## Refusals")[2].partition("\n## Limits")[0])
    assert rows and REFUSAL.findall(MANUAL.read_text("utf-8")) == [" ".join(row) for row in rows]


def options(program: str, command: str) -> List[str]:
    """The options that the help of a command shows."""
    text = answer(program, [command, "--help"]).out.decode("utf-8").partition("\nOptions:\n")[2].partition("\n\n")[0]
    return re.findall(r"^ *(?:-h, )*(--[a-z]+)", text, re.MULTILINE)


@pytest.mark.parametrize("name", ["man/naplps.1", *COMPLETIONS.values()])
def test_words(naplps: str, name: str) -> None:
    """The manual and each completion have each command and option that the program's help shows."""
    text = (TOP / name).read_text("utf-8")
    shown = answer(naplps, "--help").out.decode("utf-8").partition("\nCommands:\n")[2].partition("\nOptions:")[0]
    commands = re.findall(r"^  ([a-z]+) ", shown, re.MULTILINE)
    assert set(COMMANDS) <= set(commands)
    patterns = {word: rf"(?:^|[^a-z]){word}(?![a-z])" for word in commands}
    for command in COMMANDS:
        patterns.update((word, rf"(?:--|-l |Fl Fl ){word[2:]}(?![a-z])") for word in options(naplps, command))
    assert {"--help", "--hex", "--budget", "--stream"} <= set(patterns)
    missing = [word for word, pattern in patterns.items() if not re.search(pattern, text, re.MULTILINE)]
    assert missing == [], f"{name} lacks {missing}"


@pytest.mark.parametrize("command", COMMANDS)
def test_completion_by_bash(naplps: str, command: str) -> None:
    """After a command bash completes the options that its help shows, and no others."""
    need("bash")
    script = '. "$1"; COMP_WORDS=(naplps "$2" --); COMP_CWORD=2; _naplps; printf "%s\\n" "${COMPREPLY[@]}"'
    result = run(["bash", "-c", script, "bash", str(TOP / COMPLETIONS["bash"]), command])
    assert sorted(result.out.decode("utf-8").split()) == sorted(options(naplps, command)), f"{result}"


def test_form_by_mandoc() -> None:
    """mandoc warns of nothing in the manual."""
    need("mandoc")
    assert run(["mandoc", "-T", "lint", "-W", "warning", str(MANUAL)]) == Answer(0)


def test_form_by_man() -> None:
    """The man of man-db warns of nothing in the manual."""
    need("man")
    if not re.match(rb"man \d", run(["man", "--version"]).out):
        pytest.skip("man isn't that of man-db")
    assert run(["man", "--warnings", "-l", str(MANUAL)], stdin=subprocess.DEVNULL).err == b""


@pytest.mark.parametrize("shell, name", COMPLETIONS.items(), ids=COMPLETIONS)
def test_form_of_completion(shell: str, name: str) -> None:
    """A shell reads its completion without a complaint."""
    need(shell)
    assert run([shell, "-n", str(TOP / name)]) == Answer(0)
