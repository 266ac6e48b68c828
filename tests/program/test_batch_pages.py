"""`naplps batch` on rows of streams and on random pages; and the clients that docs/BATCH.md shows."""
import re
import subprocess
import sys
from functools import lru_cache
from pathlib import Path
from typing import List, Optional, Tuple

import pytest

from batch_requests import USUAL, answer, check_answers, request, take_answer
from command import TOP
from dev.fuzzing.streams import Streams
from dev.judging import Answer, run
from dev.vectors.crate_rows import Row, rows_of
from dev.vectors.lines import rows as rows_of_lines
from shells import with_naplps

DATA = Path(TOP, "crates", "nap_rows", "data")
EXAMPLES = Path(TOP, "examples")
BATCH = Path(TOP, "docs", "BATCH.md")
FILES = sorted(path.name for path in DATA.glob("*.rows"))


def run_on(naplps: str, command: str, text: bytes) -> Answer:
    """Runs a command on a text."""
    return run([naplps, command], text, stdin=subprocess.PIPE)


def batch(naplps: str, requests: List[bytes]) -> bytes:
    """The answers to requests, none of which ends the run."""
    result = run_on(naplps, "batch", b"".join(requests))
    assert (result.status, result.err) == (0, b""), str(result)
    return result.out


@lru_cache(maxsize=None)
def all_rows() -> List[Row]:
    """The rows of nap_rows."""
    return rows_of(DATA)


def rows_in(name: str) -> List[Row]:
    """The rows of a file of nap_rows."""
    return [row for row in all_rows() if row.place.startswith(f"{name}:")]


def answer_to_row(command: str, row: Row) -> Optional[bytes]:
    """The answer of a row to `check`, `list` or `canon`; none where the row isn't about that."""
    if row.refusal is not None:
        return answer(row.refusal)
    if row.lines is None:
        return None
    line = f"accepted {len(row.lines)} entries"
    if command == "list":
        return answer(line, "".join(text + "\n" for text in row.lines).encode())
    if command == "check":
        return answer(line)
    return None if row.canonical is None else answer(line, row.canonical)


@pytest.mark.parametrize("name", FILES)
def test_rows(naplps: str, name: str) -> None:
    """All rows of a file, through one process."""
    requests, answers = [], []
    for row in rows_in(name):
        for command in ("check", "list", "canon"):
            expected = answer_to_row(command, row)
            if expected is not None:
                requests.append(request(command, row.budget, row.stream))
                answers.append((f"{row.place}: {command}", expected))
    check_answers(batch(naplps, requests), answers)


@pytest.mark.parametrize("name", FILES)
def test_places_of_rows(naplps: str, name: str) -> None:
    """Places have the lines of `list`, also before a refusal, and are in an order that never goes back."""
    rows = rows_in(name)
    rest = batch(naplps, [request("places", row.budget, row.stream) for row in rows])
    for row in rows:
        first, rest = take_answer(rest)
        entries = [line.split(" ", 1) for line in first.decode().split("\n")[2:-1]]
        if row.lines is not None:
            assert [line for _, line in entries] == row.lines, f"{row.place}: lines of places"
        places = [int(place) for place, _ in entries]
        assert places == sorted(places), f"{row.place}: order of places"
        assert max(places, default=0) <= len(row.stream), f"{row.place}: greatest place"
    assert rest == b"", "more answers than rows"


def test_rows_of_lines(naplps: str) -> None:
    """`make` answers the vectors of lines, through one process."""
    rows = list(rows_of_lines())
    answers = []
    for row in rows:
        line, body = row.told or b"accepted %d entries" % row.lines.count(b"\n"), row.text or b""
        answers.append((f"{row.place}: make", answer(line.decode(), body)))
    check_answers(batch(naplps, [request("make", 0, row.lines) for row in rows]), answers)


def answers_of_commands(naplps: str, page: bytes) -> List[Tuple[str, bytes]]:
    """The commands, and the answers of each as a process of its own gives them."""
    line = run_on(naplps, "check", page).out.decode().rstrip("\n")
    bodies = {command: run_on(naplps, command, page).out for command in ("list", "canon")}
    return [("check", answer(line)), *((command, answer(line, body)) for command, body in bodies.items())]


def test_answers_are_those_of_the_commands(naplps: str) -> None:
    """On the pages of the examples, and on a thousand random ones."""
    streams = Streams(20261125)
    pages = [path.read_bytes() for path in sorted(EXAMPLES.rglob("*.nap"))]
    pages += [streams.next()[1] for _ in range(1000)]
    requests, answers = [], []
    for page in pages:
        for command, expected in answers_of_commands(naplps, page):
            requests.append(request(command, USUAL, page))
            answers.append((f"{command} of {page.hex()[:400]}", expected))
    check_answers(batch(naplps, requests), answers)


def lines_before(body: bytes, end: int) -> List[bytes]:
    """The lines of `places` whose place is before an end."""
    return [line for line in body.split(b"\n")[:-1] if int(line.split(b" ", 1)[0]) < end]


def test_places_of_a_page_are_those_of_its_beginnings(naplps: str) -> None:
    """The places of a page's first bytes, and before them, are those of the page."""
    streams = Streams(41)
    for _ in range(100):
        _, page = streams.next()
        whole = batch(naplps, [request("places", USUAL, page)]).split(b"\n", 2)[2]
        listed = run_on(naplps, "list", page)
        if listed.status == 0:
            lines = b"".join(line.split(b" ", 1)[1] for line in whole.splitlines(keepends=True))
            assert lines == listed.out, f"lines of {page.hex()}"
        rest = batch(naplps, [request("places", USUAL, page[:end]) for end in range(len(page))])
        for end in range(len(page)):
            first, rest = take_answer(rest)
            body = first.split(b"\n", 2)[2]
            assert lines_before(body, end) == lines_before(whole, end), f"the first {end} bytes of {page.hex()}"


def test_clients_of_the_document(naplps: str, tmp_path: Path) -> None:
    """The clients that BATCH.md shows find the program by its name, and ask it about the pages of the examples."""
    pages = [EXAMPLES / "page.nap", *sorted((EXAMPLES / "pages").glob("*.nap"))]
    checked, canonical = ([run_on(naplps, command, page.read_bytes()).out for page in pages]
                          for command in ("check", "canon"))
    text = BATCH.read_text("utf-8")
    [of_one, of_folder] = re.findall("^```sh\n(.*?)^```", text, re.DOTALL | re.MULTILINE)
    [code] = re.findall("^```python\n(.*?)^```", text, re.DOTALL | re.MULTILINE)
    rows = [f"{page} {line.decode()[:-1]} {data.hex()}\n" for page, line, data in zip(pages, checked, canonical)]
    clients = [
        (["sh", "-c", of_one], checked[0] + b"0\n"), (["sh", "-c", of_folder], b"".join(checked[1:])),
        ([sys.executable, "-c", code, *map(str, pages)], "".join(rows).encode()),
    ]
    env = with_naplps(naplps, tmp_path / "bin")
    for words, expected in clients:
        assert run(words, env=env, cwd=TOP).out == expected, words
