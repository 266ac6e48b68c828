"""The ways that documents describe, gone as a newcomer does, each in a copy of what it needs.

An opcode has its parts where the steps say. The pictures of the gallery are those of its command, and a change of the
sketch changes them. A wrong body comes into the promises by its command, and lacks a verdict. A change is measured
beside the program before.
"""
import os
import re
import shlex
import shutil
from pathlib import Path
from typing import Dict, Iterator, List

import pytest

from dev.judging import Answer, run
from dev.layout import TOP
from dev.measuring.large_pages import FAMILIES
from dev.rattle.clauses import Sums
from dev.rattle.wrong_bodies import faults_of_list, faults_of_verdicts

ARCHITECTURE, MEASUREMENTS = "docs/ARCHITECTURE.md", "docs/measurements/README.md"
# Ways by their headings, with the documents that describe them.
WAYS = {"An opcode": ARCHITECTURE, "A sketch": ARCHITECTURE, "A wrong body": ARCHITECTURE,
        "Measure a change": MEASUREMENTS}
# Each opcode has this word in each part that its way names.
OPCODE = "PointAbs"
WORD_OF_OPCODE = re.compile(r"PointAbs|POINT ABS|\bpoint_abs\b|\bpoint\b", re.IGNORECASE)


def section(way: str) -> str:
    """What the document has below a heading, up to the next of its kind or above."""
    text = (TOP / WAYS[way]).read_text("utf-8")
    found = re.search(rf"^(##+) {way}\n(.*?)(?=^##+ |\Z)", text, re.MULTILINE | re.DOTALL)
    assert found, f"{WAYS[way]} has no heading '{way}'"
    return found[2]


def blocks(way: str) -> List[List[str]]:
    """The blocks of a section that are set apart, as commands are: the lines of each."""
    found: List[List[str]] = []
    before = ""
    for line in section(way).splitlines():
        margin = re.match(r" {4,}", line)
        if margin and not re.match(r"\s*(\d\.|-) ", line) and (not before.strip() or re.match(r" {4,}", before)):
            if not before.strip():
                found.append([])
            if found:
                found[-1].append(line.strip())
        before = line
    return found


def paths(way: str) -> Iterator[Path]:
    """The paths that a section names, in backquotes from the top, or by links."""
    text = section(way)
    for name in re.findall(r"`([\w./-]+/[\w./-]*)`", text):
        if "NAME" not in name:
            yield TOP / name
    for name in re.findall(r"\]\(([^)#]+)", text):
        yield (TOP / WAYS[way]).parent / name


@pytest.mark.parametrize("way", WAYS)
def test_a_way_is_one_step_from_the_readme_and_names_what_is_there(way: str) -> None:
    anchor = f"({WAYS[way]}#{way.lower().replace(' ', '-')})"
    assert anchor in (TOP / "README.md").read_text("utf-8"), f"README.md has no link to {anchor}"
    named = [*paths(way)]
    assert named, f"{WAYS[way]}, {way}: it names no path"
    assert [str(path) for path in named if not path.exists()] == [], f"{WAYS[way]}, {way}: there is no such path"


def test_the_files_of_an_opcode_know_it() -> None:
    files = [path for path in paths("An opcode") if re.search(r"\.(rt|antt|py)$", path.name)]
    assert len(files) >= 6, f"the steps name {files}"
    for path in files:
        if not re.search(r"(control|Codes|Checking|plain|controls)\.", path.name):
            assert WORD_OF_OPCODE.search(path.read_text("utf-8")), f"{path} doesn't know {OPCODE}"
    table = (TOP / "crates/nap_codes/src/opcode.rt").read_text("utf-8")
    assert f"{OPCODE}," in table and f"Opcode::{OPCODE}" in table, f"{OPCODE} isn't in the table of opcodes"


def copy_of(to: Path, *names: str) -> Path:
    """A copy of parts of the sources."""
    for name in names:
        source = TOP / name
        (to / name).parent.mkdir(parents=True, exist_ok=True)
        if source.is_dir():
            shutil.copytree(source, to / name, ignore=shutil.ignore_patterns("out", "__pycache__"), symlinks=True)
        else:
            shutil.copy(source, to / name)
    return to


@pytest.fixture
def env(naplps: str) -> Dict[str, str]:
    """The environment of the commands."""
    return {**os.environ, "NAPLPS": os.path.abspath(naplps), "PYTHONDONTWRITEBYTECODE": "1"}


def pictures(tree: Path) -> Dict[str, bytes]:
    """The pictures of a gallery, by their names."""
    return {path.name: path.read_bytes() for path in (tree / "examples" / "gallery").glob("*.svg")}


def assert_draws(command: str, tree: Path, env: Dict[str, str]) -> None:
    """Runs a command that draws pages. (Where one is refused, naplps-pages says so, and draws what comes before.)"""
    answer = run(["sh", "-c", command], cwd=tree, env=env)
    refused = answer.status == 1 and all(b": refused " in line for line in answer.err.splitlines())
    assert answer.status == 0 or refused, f"{command}: {answer}"


def test_the_pictures_of_the_gallery_are_those_of_the_sources(tmp_path: Path, env: Dict[str, str]) -> None:
    tree = copy_of(tmp_path, "python", "pages", "examples", "VERSION")
    commands = [line for block in blocks("A sketch") for line in block]
    assert len(commands) == 2, f"a sketch has the commands {commands}"
    before = pictures(tree)
    assert_draws(commands[0], tree, env)
    assert pictures(tree) == before, "the pictures aren't those of the sources"
    module = tree / "python" / "naplps" / "drawing" / "paper.py"
    text = module.read_text("utf-8")
    assert "<svg " in text, "paper.py draws no svg"
    module.write_text(text.replace("<svg ", '<svg class="changed" '), "utf-8")
    assert_draws(commands[0], tree, env)
    after = pictures(tree)
    assert set(after) == set(before)
    assert [name for name in before if after[name] == before[name]] == [], "the change doesn't show"


def test_a_wrong_body_comes_into_the_promises_and_lacks_a_verdict(tmp_path: Path, env: Dict[str, str]) -> None:
    tree = copy_of(tmp_path, "crates", "crates.txt", "docs", "dev")
    edit, commands = blocks("A wrong body")
    folder = tree / "crates" / "nap_values" / "wrong-bodies"
    text = (folder / "word_may_be_64.edit").read_text("utf-8")
    assert [line.split() for line in text.splitlines()] == [line.split() for line in edit], "it isn't word_may_be_64"
    (folder / "what_it_does.edit").write_text(text.replace("> Self", "> 0 + Self"), "utf-8")
    row = ("nap_values", "what_it_does", "src/word.rt", "Word::try_new", "apart", "other",
           "Ranges hold", "does what nobody wants")
    with (tree / "docs" / "wrong-bodies.tsv").open("a", encoding="utf-8") as file:
        file.write("\t".join(row) + "\n")
    assert len(commands) == 1, f"a wrong body has the commands {commands}"
    answer = run(["sh", "-c", commands[0]], cwd=tree, env=env)
    assert answer == Answer(0), f"{commands[0]}: {answer}"
    assert "- does what nobody wants (apart: `what_it_does`)" in (tree / "docs" / "PROMISES.md").read_text("utf-8")
    sums = Sums(tree)
    faults = [*faults_of_list(tree, [*sums.crates]), *faults_of_verdicts(tree, "nap_values", sums)]
    assert [fault for fault in faults if fault and "what_it_does" in fault] == [
        "nap_values: the wrong body what_it_does has no verdict: run python3 -m dev.wrong_bodies nap_values"]


def test_a_change_is_measured_beside_the_program_before(naplps: str, tmp_path: Path, env: Dict[str, str]) -> None:
    """On small pages, and once."""
    before, after = (shlex.quote(str(shutil.copy(naplps, tmp_path / name))) for name in ("before", "after"))
    command = blocks("Measure a change")[0][0]
    words = command.replace("NAPLPS=after", f"NAPLPS={after}").replace("--beside before", f"--beside {before}")
    answer = run(["sh", "-c", f"{words} --size 1 --runs 1"], cwd=TOP, env=env)
    lines = answer.out.decode().splitlines()
    rows = [line for line in lines if re.match(r"\| (points|text) \|(?: \d+, [\d.]+ \|){4}$", line)]
    assert answer.status == 0 and len(rows) == 2 * 2 * len(FAMILIES), f"{command}: {answer}"
    assert lines[0].startswith("Pages of few codes, MiB a second, and"), lines[0]
