"""The crates of the toolchain that our crates use are those that DECISIONS lists, and NOTICES names each of them."""
import re
from pathlib import Path
from typing import Dict, Set

import pytest

from dev.crates import crates_in
from dev.layout import TOP

# Those that the program has to use, and where.
REQUIRED = {"arrayvec": "nap_values", "smallvec": "nap_reader", "thiserror": "nap_canon", "clap": "nap_cli",
            "hex": "nap_command"}
# What only tries the program is in no package.
TESTING = {"nap_tests", "nap_rows", "naplps_examples"}
ROW = re.compile(r"^\| (\w+) \| [^|]+ \| ((?:\w+(?:, )?)+) \|$", re.MULTILINE)


def listed_crates() -> Dict[str, Set[str]]:
    """Where each crate of the toolchain is used, as docs/DECISIONS.md has it."""
    text = (TOP / "docs" / "DECISIONS.md").read_text("utf-8")
    section = text.partition("\n## Types of the kit\n")[2].partition("\n## ")[0]
    return {name: set(users.split(", ")) for name, users in ROW.findall(section) if name != "Crate"}


def users_of_crates() -> Dict[str, Set[str]]:
    """Which of our crates each crate of the toolchain is given to by crates.txt."""
    ours = crates_in(TOP)
    users: Dict[str, Set[str]] = {}
    for name, needs in ours.items():
        for need in needs:
            if need not in ours and name not in TESTING:
                users.setdefault(need, set()).add(name)
    return users


def uses(crate: Path, name: str) -> bool:
    """Whether a source of a crate names an item of another one."""
    item = re.compile(rf"^(?!ghost )(?:[^/\n]*[^\w:/])?{name}::", re.MULTILINE)
    return any(item.search(path.read_text("utf-8")) for path in (crate / "src").rglob("*.rt"))


@pytest.mark.parametrize("name", REQUIRED)
def test_crate_that_has_to_be_used_is_listed(name: str) -> None:
    """A crate that is replaced by something of our own is missed."""
    assert REQUIRED[name] in listed_crates().get(name, set()), f"docs/DECISIONS.md hasn't {name} in {REQUIRED[name]}"


def test_listed_crates_are_those_of_crates_txt() -> None:
    """Each of them is given to the same crates."""
    assert listed_crates() == users_of_crates(), "docs/DECISIONS.md and crates.txt differ"


@pytest.mark.parametrize("name, user", [(name, user) for name, users in listed_crates().items()
                                        for user in sorted(users)])
def test_listed_crate_is_used(name: str, user: str) -> None:
    """A source of each user names an item of it."""
    assert uses(TOP / "crates" / user, name), f"{user} doesn't use {name}"


@pytest.mark.parametrize("line, is_use", [
    ("use smallvec::SmallVec;", True), ("ghost use smallvec::specs;", False), ("// smallvec::SmallVec", False),
    ("use oversmallvec::Vec;", False),
])
def test_mention_is_no_use(tmp_path: Path, line: str, is_use: bool) -> None:
    """An import of definitions and a comment don't count."""
    (tmp_path / "src").mkdir()
    (tmp_path / "src" / "lib.rt").write_text(f"{line}\n", "utf-8")
    assert uses(tmp_path, "smallvec") == is_use


def test_macro_bodies_being_read_are_a_small_vector() -> None:
    """Eight of them are in the value itself."""
    assert "stack: SmallVec<Frame, 8>," in (TOP / "crates" / "nap_reader" / "src" / "frames.rt").read_text("utf-8")


@pytest.mark.parametrize("name", sorted(listed_crates()))
def test_notices_name_the_crate(name: str) -> None:
    """The terms of each crate that is in the program or the library are told."""
    table = (TOP / "NOTICES.md").read_text("utf-8").partition("\n## MIT")[0]
    assert re.search(rf"\|[^|]*\b{name}\b[^|]*\|", table), f"NOTICES.md doesn't name {name}"
