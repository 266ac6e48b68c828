"""What is read of plants, and of the streams of edits."""
from pathlib import Path
from typing import Set

import pytest

from dev.rattle.plants import Finding, Planted, differences, known_in, planted_in
from dev.rattle.streams import stream_of

OUTPUT = """\
rt: checking the crate as it stands
proves      src/points.rt:12 Points::with_capacity: { Points::new(alloc) }
proves      src/a.rt:3 <Half<T> as Halves>::put: { if a || b { 1 } else { 2 } }  (and in 3 more impls)
no-ensures  src/io.rt:7 low::log()
untested    src/laws.rt:7 laws::all_is_well()
note: some words
plants crate=low planted-in=9 untested=0 no-ensures=1 proves=2 same=0 refused=8 elsewhere=0 not-judged=0 not-run=0
"""
TABLE = """\
crate\tkind\tfunction\tbody\treason
nap_low\tproves\tPoints::with_capacity\t{ Points::new(alloc) }\tharmless: the capacity isn't seen
nap_low\tproves\t<Half<T> as Halves>::put\t{ if a || b { 1 } else { 2 } }\tharmless: it isn't seen
nap_low\tno-ensures\tlow::log\t-\tnot excluded yet
"""


@pytest.fixture
def known(tmp_path: Path) -> Set[Finding]:
    """The findings of a table."""
    (tmp_path / "plants.tsv").write_text(TABLE, "utf-8")
    return known_in(tmp_path / "plants.tsv")


@pytest.fixture
def planted() -> Planted:
    """A crate with three findings, and a law."""
    found = planted_in("nap_low", OUTPUT)
    assert found is not None
    return found


def test_what_was_found_is_what_is_known(planted: Planted, known: Set[Finding]) -> None:
    assert (len(planted.findings), planted.functions, planted.is_whole) == (3, 9, True)
    assert planted.findings == known
    assert list(differences("nap_low", planted, known)) == []


def test_what_is_new_or_gone(planted: Planted, known: Set[Finding]) -> None:
    another = Finding("nap_low", "untested", "low::other", "-")
    changed = known - {Finding("nap_low", "no-ensures", "low::log", "-")} | {another}
    new, gone = differences("nap_low", planted, changed)
    assert new.endswith("\nnap_low\tno-ensures\tlow::log\t-")
    assert gone.endswith("\nnap_low\tuntested\tlow::other\t-")
    in_part = planted._replace(is_whole=False, findings=planted.findings | {another})
    assert list(differences("nap_low", in_part, changed - {another})) == [new]


@pytest.mark.parametrize("output", ["", OUTPUT.rpartition("plants")[0]])
def test_a_run_that_did_not_end(output: str) -> None:
    assert planted_in("nap_low", output) is None


@pytest.mark.parametrize("text, stream", [('"POINT 0" 0A (26 52)*2 00*3', b"POINT 0\n&R&R\0\0\0"), ("-", b"")])
def test_streams_are_bytes_and_texts(text: str, stream: bytes) -> None:
    assert stream_of(text) == stream
