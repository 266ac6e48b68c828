"""All files of vectors/: their form, the rows of docs/PROFILE.md that they show, and what the program answers to them:
by vectors/run, a process for each command; by `batch`, a process for all; and by `canon --stream`."""
import re
import subprocess
from collections import Counter
from concurrent.futures import ThreadPoolExecutor
from functools import lru_cache
from pathlib import Path
from typing import Dict, Iterator, List, Tuple

import pytest

from dev.layout import TOP
from dev.vectors.batch import Body, Request, answers
from dev.vectors.form import has_form
from dev.vectors.notation import bytes_of, numbers_of
from dev.vectors.profile import Row, read_profile, row_named
from dev.vectors.rows import FOLDER, Vector, files, vectors_of
from dev.vectors.wanted import parted, wanted_of

BY_DEVICES = {
    ("refusal", "21"), ("refusal", "22"), ("limit", "reads of one input, the one that finds the end included"),
}
WITHOUT = ["Lines that make a page", "The command"]
HEADER = b"\x0E\x21\x5F"
COMMANDS = ("check", "list", "canon", "places")
PROFILE = read_profile((TOP / "docs" / "PROFILE.md").read_text("utf-8"))

by_file = pytest.mark.parametrize("file", files(), ids=[file.stem for file in files()])


@lru_cache(maxsize=None)
def read(file: Path) -> List[Vector]:
    """The vectors of a file."""
    return list(vectors_of(file))


def none(wrong: List[str]) -> None:
    """Nothing may be wrong."""
    assert not wrong, "\n".join(wrong[:10])


@by_file
def test_form(file: Path) -> None:
    """Each field is spelled as `python3 -m dev.make_vectors` spells it, and no stream stands twice for one rule."""
    assert file.read_text("ascii").startswith("## "), f"{file.name} has no title"
    none([f"{vector.place}: another spelling was wanted" for vector in read(file) if not has_form(vector)])
    counts = Counter((vector.rule, vector.stream, vector.budget) for vector in read(file))
    none([f"{file.name}: a stream stands twice for {rule}" for (rule, _, _), count in counts.items() if count > 1])


@by_file
def test_rules(file: Path) -> None:
    """Each vector names a rule of docs/PROFILE.md, and a row of one of the tables that name this file."""
    wrong = []
    for vector in read(file):
        row = row_named(PROFILE, vector.rule)
        if vector.rule not in PROFILE.headings if row is None else file.stem not in PROFILE.files[row.tag]:
            wrong.append(f"{vector.place}: docs/PROFILE.md doesn't have '{vector.rule}' with this file")
    none(wrong)


def test_tables_without_vectors() -> None:
    """All tables of docs/PROFILE.md but two have vectors."""
    assert PROFILE.without == WITHOUT


@pytest.mark.parametrize("accepted", [True, False], ids=["accepted", "refused"])
def test_rows_of_the_profile(accepted: bool) -> None:
    """Each row has a vector that is accepted, and one that is refused."""
    vectors = [vector for file in files() for vector in read(file) if vector.accepted == accepted]
    shown = {row_named(PROFILE, rule) for rule in {vector.rule for vector in vectors}}
    rows: List[Row] = [row for row in PROFILE.rows if (row.tag, row.first) not in BY_DEVICES]
    none([f"no such vector: {row.tag} {row.text}" for row in rows if row not in shown])


@pytest.fixture(scope="module")
def sections(naplps: str) -> Dict[str, Tuple[int, int, str]]:
    """What vectors/run prints without the name of a file: of each file of streams, and no other, how many are right, of
    how many, and which aren't."""
    run = subprocess.run([str(FOLDER / "run"), naplps], stdout=subprocess.PIPE, encoding="ascii", errors="replace")
    found = re.findall(r"((?:FAILED .*\n  .*\n)*)(\S+): (\d+) of (\d+)\n", run.stdout)
    assert re.search(r"^\d+ passed, \d+ failed\n\Z", run.stdout, re.MULTILINE), run.stdout[-2000:]
    assert [name for _, name, *_ in found] == [file.stem for file in files()]
    return {name: (int(right), int(count), failed) for failed, name, right, count in found}


@by_file
def test_run(sections: Dict[str, Tuple[int, int, str]], file: Path) -> None:
    """The program passes vectors/run."""
    right, count, failed = sections[file.stem]
    assert right == count == len(read(file)), f"{right} of {count} are right:\n{failed[:2000]}"


def test_run_of_lines(naplps: str) -> None:
    """The program passes vectors/run with lines.rows."""
    run = subprocess.run([str(FOLDER / "run"), naplps, str(FOLDER / "lines.rows")], stdout=subprocess.PIPE)
    assert run.returncode == 0 and run.stdout.endswith(b" passed, 0 failed\n"), run.stdout[:2000].decode()


def test_run_names_what_fails() -> None:
    """vectors/run names each vector of a program that answers nothing, counts them, and ends with the status 1."""
    file = FOLDER / "plain.rows"
    run = subprocess.run([str(FOLDER / "run"), "/bin/true", str(file)], stdout=subprocess.PIPE, encoding="ascii")
    count = len(read(file))
    assert run.returncode == 1 and run.stdout.count("FAILED # ") == count
    assert run.stdout.endswith(f"\nplain: 0 of {count}\n0 passed, {count} failed\n"), run.stdout[-200:]


def wrong_in(vector: Vector, bodies: List[Body]) -> Iterator[str]:
    """What is wrong with the answers of `batch` to the requests of a vector."""
    *others, placed = bodies
    places, entries = parted(placed.data)
    expected = wanted_of(vector)
    for command, body in zip(COMMANDS, [*others, Body(placed.line, entries)]):
        if body != expected[command]:
            yield f"{command}: {body.line}"
    if "places" in vector.more and places != numbers_of(vector.more["places"]):
        yield f"places {places[:20]}"


@by_file
def test_batch(naplps: str, file: Path) -> None:
    """One process answers all vectors: lines, lists, canonical bytes, and with which byte each entry came."""
    requests: Iterator[List[Request]] = (
        [(command, vector.budget, vector.data) for command in COMMANDS] for vector in read(file))
    # (answers come first, so that they continue to their end after the last vector)
    trials = zip(answers([naplps, "batch"], requests), read(file))
    none([f"{vector.place}: {wrong}" for bodies, vector in trials for wrong in wrong_in(vector, bodies)])


@by_file
def test_canon_stream(naplps: str, file: Path) -> None:
    """`canon --stream` writes the canonical bytes, or the header and more, and refuses as the vector says."""
    def is_right(vector: Vector) -> bool:
        words = [naplps, "canon", "--stream", "--budget", str(vector.budget)]
        run = subprocess.run(words, input=vector.data, stdout=subprocess.PIPE, stderr=subprocess.PIPE)
        if vector.accepted:
            return (run.returncode, run.stdout, run.stderr) == (0, bytes_of(vector.ending), b"")
        refused = (run.returncode, run.stderr) == (1, f"{vector.ending}\n".encode())
        return refused and run.stdout.startswith(HEADER)
    with ThreadPoolExecutor(8) as pool:
        none([vector.place for vector, right in zip(read(file), pool.map(is_right, read(file))) if not right])
