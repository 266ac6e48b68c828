"""Edits: what they change, when one has to be tried again, and what is found where a row is wrong."""
from pathlib import Path
from typing import List

import pytest

from dev.rattle.clauses import Sums
from dev.rattle.edits import Unfit, sum_of_edit, texts_with, where
from dev.rattle.promises import LIST, Row
from dev.rattle.trying import REFUSED, verdicts_in
from dev.rattle.wrong_bodies import faults_of_list, faults_of_verdicts, read_refused, write_refused
from dev.tables import write_rows

SOURCE = """\
const MAX: u32 = 64;

impl<T: Copy> Half<T> {
    fn sum(&self) -> u32
        ensures { result ≡ sum self }
    {
        let mut sum = 0;
        for part in self.parts.iter() {
            if part < MAX {
                sum += part;
            }
        }
        sum.min(u32::MAX)
    }
}
"""
EDITS = {
    "part_is_lost": ("sum += part;", "sum += 1;"),
    "first_is_lost": ("for part in self.parts.iter() {", "for part in self.parts[1..].iter() {"),
    "loop_is_once": ("for part in self.parts.iter() {", "if let Some(part) = self.parts.first() {"),
    "sum_is_none": ("sum.min(u32::MAX)", "0"),
    "max_is_less": ("u32 = 64", "u32 = 63"),
}
ROW = ["low", "part_is_lost", "src/lib.rt", "Half<T>::sum", "apart", "loop", "Halves", "loses a part"]
AGAIN = "low: the wrong body part_is_lost has no verdict"


class Crate:
    """A crate with a function that has a loop, and an edit of it."""

    def __init__(self, root: Path) -> None:
        self.root, self.folder = root, root / "crates" / "low"
        for folder in (self.folder / "src", self.folder / "wrong-bodies", root / "docs"):
            folder.mkdir(parents=True)
        (root / "crates.txt").write_text("low: std\n", "utf-8")
        self.write("part_is_lost")

    def write(self, name: str, source: str = SOURCE) -> Path:
        """Writes the source and an edit of it, which is the only one."""
        (self.folder / "src" / "lib.rt").write_text(source, "utf-8")
        for edit in self.folder.glob("wrong-bodies/*.edit"):
            edit.unlink()
        edit = self.folder / "wrong-bodies" / f"{name}.edit"
        edit.write_text("file: src/lib.rt\nold: {}\nnew: {}\n".format(*EDITS[name]), "utf-8")
        return edit

    def faults_of_row(self, row: List[str]) -> List[str]:
        """What is wrong with a list that has a row."""
        write_rows(self.root / LIST, Row._fields, [row])
        return list(faults_of_list(self.root, ["low"]))

    def faults(self) -> List[str]:
        """What is wrong with the verdicts that are kept."""
        return list(faults_of_verdicts(self.root, "low", Sums(self.root)))


@pytest.fixture
def crate(tmp_path: Path) -> Crate:
    """A crate in a folder of its own."""
    return Crate(tmp_path)


@pytest.mark.parametrize("name, names, is_in_loop, is_outside", [
    ("part_is_lost", ["Half<T>::sum"], True, False), ("first_is_lost", ["Half<T>::sum"], True, False),
    ("loop_is_once", ["Half<T>::sum"], True, False), ("sum_is_none", ["Half<T>::sum"], False, False),
    ("max_is_less", ["MAX"], False, True),
])
def test_where_an_edit_is(crate: Crate, name: str, names: List[str], is_in_loop: bool, is_outside: bool) -> None:
    found = where(crate.write(name), crate.folder)
    assert (found.names, found.is_in_loop, found.is_outside) == (names, is_in_loop, is_outside)


def test_an_edit_that_does_not_fit(crate: Crate) -> None:
    with pytest.raises(Unfit, match="stands 0 times in src/lib.rt"):
        texts_with(crate.write("part_is_lost", SOURCE.replace("+= part", "+= part + 0")), crate.folder)


@pytest.fixture
def refused(crate: Crate) -> Path:
    """The edit of the crate, with the verdict that it was refused."""
    edit = crate.write("part_is_lost")
    write_refused(crate.folder, {"part_is_lost": sum_of_edit(edit, crate.folder, Sums(crate.root).of("low"))})
    return edit


def test_an_edit_without_a_verdict(crate: Crate) -> None:
    (fault,) = crate.faults()
    assert fault.startswith(AGAIN)


def test_a_verdict_holds_whatever_the_layout(crate: Crate, refused: Path) -> None:
    assert crate.faults() == []
    crate.write("part_is_lost", SOURCE.replace("let mut", "// A comment.\n        let  mut"))
    assert crate.faults() == []


@pytest.mark.parametrize("file, old, new", [
    ("src/lib.rt", "let mut sum = 0", "let mut sum = 1"), ("src/lib.rt", "≡ sum self", "≤ sum self"),
    ("src/lib.rt", "64;", "65;"), ("wrong-bodies/part_is_lost.edit", "+= 1", "+= 2"),
])
def test_a_verdict_holds_for_its_file_its_clauses_and_its_edit(crate: Crate, refused: Path, file: str, old: str,
                                                               new: str) -> None:
    path = crate.folder / file
    path.write_text(path.read_text("utf-8").replace(old, new), "utf-8")
    (fault,) = crate.faults()
    assert fault.startswith(AGAIN)


def test_a_verdict_without_an_edit(crate: Crate) -> None:
    write_refused(crate.folder, {"gone": "0"})
    assert "no such wrong body" in str(crate.faults())
    assert read_refused(crate.folder) == {"gone": "0"}


@pytest.mark.parametrize("column, text", [(2, "src/main.rt"), (3, "sum"), (5, "definition"), (5, "gate"),
                                          (5, "by hand")])
def test_columns_are_those_of_the_edit(crate: Crate, column: int, text: str) -> None:
    assert crate.faults_of_row(ROW) == []
    (fault,) = crate.faults_of_row([*ROW[:column], text, *ROW[column + 1 :]])
    assert f"the column {Row._fields[column]} has {text}" in fault


def test_the_only_edit_of_a_promise_may_say_so(crate: Crate) -> None:
    assert crate.faults_of_row([*ROW[:5], "only", *ROW[6:]]) == []


def test_a_row_of_another_edit(crate: Crate) -> None:
    missing, strange = crate.faults_of_row(["low", "another", *ROW[2:]])
    assert "isn't in" in missing and "which isn't there" in strange


def test_verdicts_of_the_prover() -> None:
    found = verdicts_in(
        "low",
        "rt: must-fail below/a.edit: refused, as it must be: of another crate\n"
        "rt: must-fail low/a.edit: refused, as it must be: a clause\n"
        "must-fail low/b.edit: NOT REFUSED: proved\n"
        "rt: must-fail low/c.edit: refused, as it must be (only because a proof file names what the edit took\n"
    )
    assert [found["a"] == REFUSED, found["b"], found["c"] == REFUSED] == [True, "NOT REFUSED: proved", False]
