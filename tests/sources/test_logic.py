"""What files of the logic import and define."""
from pathlib import Path

import pytest

from dev.rattle.logic import Import, Logic, files_by_name
from dev.rattle.paths import names_in

TEXT = """use Rattle.low.specs.Sizes.{size}
unfoldable pub use Rattle.low.specs.Shapes.{shape, Parts.part}
pub mod Halves
use Rattle.low.proofs.Lemmas as lemmas

-- half : of a number
abbrev pub half : ℕ → ℕ
half n = n / 2

pub record Halves (n : ℕ) : Type 0 where
  pub rest : ℕ

pub data Part : Type 0 where
  upper : Part

unfoldable pub halves' : List ℕ → List ℕ
halves' (n : List ℕ) = map half n
abbrev pub ◌/2◌ : ℕ → ℕ
own-lemma : (n : ℕ) → half n ≤ n
own-lemma n = omega arith
"""


def test_names_are_those_of_heads() -> None:
    definitions = Logic.of(TEXT).definitions
    assert [*definitions] == ["half", "Halves", "Part", "halves'", "own-lemma"]
    assert definitions["half"].text == "abbrev pub half : ℕ → ℕ\nhalf n = n / 2\n"
    assert definitions["Part"].constructors == ["upper"]
    assert definitions["Halves"].constructors == []


def test_imports() -> None:
    assert Logic.of(TEXT).imports == [
        Import("use", "Rattle.low.specs.Sizes", ["size"], ""),
        Import("unfoldable pub use", "Rattle.low.specs.Shapes", ["shape", "Parts.part"], ""),
        Import("use", "Rattle.low.proofs.Lemmas", None, "lemmas"),
    ]


def test_files_of_a_name(tmp_path: Path) -> None:
    for place, text in (("low/specs/A.antt", TEXT), ("high/specs/B.antt", "half : ℕ\nhalf : ℕ\nother : ℕ\n"),
                        ("high/specs/declared/C.antt", "half : ℕ\n"), ("high/proofs/D.antt", "half : ℕ\n")):
        path = tmp_path / "crates" / place
        path.parent.mkdir(parents=True, exist_ok=True)
        path.write_text(text, "utf-8")
    found = files_by_name(tmp_path)
    assert found["half"] == ["crates/high/specs/B.antt", "crates/low/specs/A.antt"]
    assert {name for name, files in found.items() if len(files) > 1} == {"half"}


@pytest.mark.parametrize("text, names", [
    ("use a::b::c;", ["use", "a::b::c"]),
    ("a::{b, c::{d, e as f}, g};", ["a::b", "a::c::d", "a::c::e", "a::g"]),
    ("A.{b,\n  c.d,\n} E.{f", ["A.b", "A.c.d", "E.f"]),
    ("A.{◌≡◌, []} f(x.y, 1)", ["A.◌≡◌", "A.[]", "f", "x.y"]),
])
def test_names_of_paths(text: str, names: "list[str]") -> None:
    assert [name for _, name in names_in(text)] == names
