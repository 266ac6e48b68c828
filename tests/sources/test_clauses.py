"""The sums over clauses and definitions: what counts in them, and what doesn't."""
from pathlib import Path

import pytest

from dev.rattle.clauses import Sums, lines_of_logic, without_bodies
from dev.rattle.tokens import Source
from halves import HALVES

SPEC = """-- Halves, and what they are of.
use low.specs.Sizes.{size, most}
pub use low.specs.Signs.{sign}

half : ℕ → ℕ
half n = n / 2
"""


def test_bodies_comments_and_texts_are_cut_out() -> None:
    kept = without_bodies(Source.of(HALVES))
    assert "const MAX : [ u32 ; 1 ] = [ 64 ] ;" in kept
    assert "ensures half { let double = 2 in result . number ≡" in kept
    assert not [gone for gone in ("a text", "brace", "What") if gone in kept]


def test_imports_of_the_logic_stand_first_one_to_a_line() -> None:
    assert list(lines_of_logic(SPEC)) == [
        "pub use low.specs.Signs.sign", "use low.specs.Sizes.most", "use low.specs.Sizes.size", "half : ℕ → ℕ",
        "half n = n / 2"]


@pytest.fixture
def root(tmp_path: Path) -> Path:
    """A repository of two crates, of which one stands on the other."""
    (tmp_path / "crates.txt").write_text("# Lowest first.\nlow: std\nhigh: low clap\n", "utf-8")
    for crate in (tmp_path / "crates" / "low", tmp_path / "crates" / "high"):
        for part in ("src/tests", "specs"):
            (crate / part).mkdir(parents=True)
        (crate / "src" / "lib.rt").write_text(HALVES, "utf-8")
        (crate / "specs" / "Half.antt").write_text(SPEC, "utf-8")
    return tmp_path


@pytest.mark.parametrize("name, file, old, new, counts", [
    ("high", "src/lib.rt", "result.number ≡", "result.number ≤", True),
    ("low", "src/lib.rt", "result.number ≡", "result.number ≤", True),
    ("high", "src/lib.rt", "even: { number < 64 }", "even: { number < 65 }", True),
    ("low", "src/lib.rt", "= [64]", "= [65]", True),
    ("low", "src/lib.rt", "HashMap<u32, T>", "HashMap<u64, T>", True),
    ("low", "specs/Half.antt", "n / 2", "n / 3", True),
    ("low", "specs/Half.antt", "Sizes.{size, most}", "{Sizes.most, Sizes.size}", False),
    ("low", "specs/Half.antt", "{size, most}", "{size, least as most}", True),
    ("low", "specs/Half.antt", "pub use", "use", True),
    ("high", "src/lib.rt", "fn of", "fn from", True),
    ("high", "src/lib.rt", "number / 2 }", "number }", False),
    ("high", "src/lib.rt", "// What it gives.", "// ensures { nothing }", False),
    ("low", "specs/Half.antt", "-- Halves, and what they are of.", "-- Halves.", False),
    ("high", "src/lib.rt", "= 2 in\n            result", "= 2 in result", False),
    ("high", "src/tests/halves.rt", "", "fn a() ensures { b } {}\n", False),
])
def test_what_counts(root: Path, name: str, file: str, old: str, new: str, counts: bool) -> None:
    """Whether the sum of the upper crate changes with a text of a crate's file."""
    before, path = Sums(root).of("high"), root / "crates" / name / file
    text = path.read_text("utf-8") if path.exists() else ""
    assert text.count(old) == 1
    path.write_text(text.replace(old, new) if text else new, "utf-8")
    assert (Sums(root).of("high") != before) == counts
