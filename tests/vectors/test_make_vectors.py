"""`python3 -m dev.make_vectors`: what it writes in the rows of a file, and what it refuses, without two readings."""
from pathlib import Path
from typing import Any, Dict, List

import pytest

from dev import make_vectors
from dev.vectors.readings import Answer, Told, told_of

HEAD = "## A title.\n\n# control a bell: A bell.\n"
BELL = Answer(None, False, 1, 1, 0, True, [0], b"\x0E\x21\x5F\x07", b"\x0E\x21\x5F\x07", ["BELL"])
REFUSED = Answer("refused 17 Budget at 0", True, 1, 0, 0, False, [], None, None, [])
ROW = "07 | BELL | 0E 21 5F 07 | plain, places 0\n"
TITLE = "# control a bell: Another.\n"


@pytest.fixture
def vectors(tmp_path: Path, monkeypatch: pytest.MonkeyPatch) -> Path:
    """The only file of vectors."""
    file = tmp_path / "bells.rows"
    monkeypatch.setattr(make_vectors, "files", lambda: [file])
    monkeypatch.setattr("sys.argv", ["make_vectors.py", str(tmp_path)])
    return file


def read_as(monkeypatch: pytest.MonkeyPatch, first: List[Answer], second: List[Answer], program: List[Told]) -> None:
    """Has the readings and the program answer this."""
    answers: Dict[str, Any] = {"first_answers": first, "second_answers": second, "program_tells": program}
    for name, value in answers.items():
        monkeypatch.setattr(make_vectors, name, lambda *_, value=value: list(value))


@pytest.mark.parametrize("rows, answers, expected, output", [
    ("07 | ? | ? | ?\n", [BELL], ROW, ""),
    (ROW, [BELL], ROW, ""),
    ("07 | MOVE | 0E 21 5F 07 | plain, places 0\n", [BELL], ROW, "bells.rows:4: the row is another now\n"),
    ("(07 08)*1 | ? | ? | budget 5\n", [BELL], "(07 08)*1 | BELL | 0E 21 5F 07 | plain, budget 5, places 0\n", ""),
    ("| ? | ? | ?\n", [BELL], " | BELL | 0E 21 5F 07 | plain, places 0\n", ""),
    (f"07 | ? | ? | ?\n{TITLE}07 | ? | ? | budget 0\n", [BELL, REFUSED],
     f"{ROW}{TITLE}07 |  | refused 17 Budget at 0 | not plain, budget 0, fed 1\n", ""),
], ids=["empty", "same", "another", "budget", "no-bytes", "two"])
def test_rows(vectors: Path, monkeypatch: pytest.MonkeyPatch, capsys: "pytest.CaptureFixture[str]", rows: str,
              answers: List[Answer], expected: str, output: str) -> None:
    """The answers of each row are written, and its stream, its budget and all other lines stay."""
    vectors.write_text(HEAD + rows, "ascii")
    read_as(monkeypatch, answers, answers, [*map(told_of, answers)])
    assert make_vectors.main() == 0
    assert vectors.read_text("ascii") == HEAD + expected
    assert capsys.readouterr().out == f"{output}bells.rows: {len(answers)} vectors\n"


@pytest.mark.parametrize("differs", range(3), ids=["first", "second", "program"])
def test_two_that_differ(vectors: Path, monkeypatch: pytest.MonkeyPatch, capsys: "pytest.CaptureFixture[str]",
                         differs: int) -> None:
    """Nothing is written where one of the three differs from the others, and the vector is printed."""
    text = HEAD + "07 | ? | ? | ?\n"
    vectors.write_text(text, "ascii")
    answers = [REFUSED if index == differs else BELL for index in range(3)]
    read_as(monkeypatch, [answers[0]], [answers[1]], [told_of(answers[2])])
    with pytest.raises(SystemExit, match="1 of 1 streams aren't read alike"):
        make_vectors.main()
    assert capsys.readouterr().out.startswith("bells.rows:4: A bell.\n  07\n")
    assert vectors.read_text("ascii") == text


@pytest.mark.parametrize("row, reason", [
    ("07 | ? | ? | ?\n# control a bell: Again.\n07 | ? | ? | ?\n",
     "bells.rows:6: the stream stands in bells.rows:4 for the same rule"),
    ("0g | ? | ? | ?\n", "bells.rows:4: bytes were wanted: 0g"),
    ("07 | ?\n", "bells.rows:4: a row with four fields was wanted, behind what it shows"),
    ("# control a bell: again.\n", "bells.rows:4: a line `# RULE: What it shows.` was wanted"),
], ids=["twice", "no-bytes", "fields", "title"])
def test_wrong_rows(vectors: Path, row: str, reason: str) -> None:
    """A row of another form, or a stream that stands twice for a rule, is refused with its place."""
    vectors.write_text(HEAD + row, "ascii")
    with pytest.raises(SystemExit) as stop:
        make_vectors.main()
    assert stop.value.code == reason
    assert vectors.read_text("ascii") == HEAD + row
