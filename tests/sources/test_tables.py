"""What is read of crates.txt, of the folders of crates, and of tables."""
from pathlib import Path

import pytest

from dev.crates import below, crates_in, sources_of
from dev.tables import rows_in, write_rows


def test_crates(tmp_path: Path) -> None:
    text = "# Lowest first: all.\nlow: std\nother: low # no more\nhigh staticlib: other clap\n\nalone:\n"
    (tmp_path / "crates.txt").write_text(text, "utf-8")
    found = crates_in(tmp_path)
    assert found == {"low": ["std"], "other": ["low"], "high": ["other", "clap"], "alone": []}
    assert [below(name, found) for name in ("low", "high")] == [["low"], ["low", "other", "high"]]


def test_sources_of_a_crate_are_no_tests(tmp_path: Path) -> None:
    for name in ("lib.rt", "tests.rt", "inner/more.rt", "tests/lists.rt", "note.txt"):
        path = tmp_path / "src" / name
        path.parent.mkdir(parents=True, exist_ok=True)
        path.write_text("", "utf-8")
    assert [str(path.relative_to(tmp_path)) for path in sources_of(tmp_path)] == ["src/inner/more.rt", "src/lib.rt"]


def test_a_table_is_read_as_it_was_written(tmp_path: Path) -> None:
    write_rows(tmp_path / "table.tsv", ("a", "b"), [["1", '"2'], ["3", "4"]])
    assert rows_in(tmp_path / "table.tsv", ("a", "b")) == [["1", '"2'], ["3", "4"]]


@pytest.mark.parametrize("text", ["a\tb\n1\t\n", "a\tb\n1\n", "a\tb\n1\t2\t3\n", "a\n1\n", "b\ta\n1\t2\n"])
def test_a_table_with_a_hole_or_other_columns_is_refused(tmp_path: Path, text: str) -> None:
    (tmp_path / "table.tsv").write_text(text, "utf-8")
    with pytest.raises(ValueError, match="table.tsv:[12] hasn't a text in each of the columns a, b"):
        rows_in(tmp_path / "table.tsv", ("a", "b"))
