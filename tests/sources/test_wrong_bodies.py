"""Each wrong body fits its source, has its row and a verdict, and stands below the promises that it breaks.

None is tried here: python3 -m dev.wrong_bodies does that.
"""
from typing import Iterable

import pytest

from dev.layout import TOP
from dev.rattle.clauses import Sums
from dev.rattle.promises import faults_of_promises
from dev.rattle.streams import faults_of_pairs
from dev.rattle.wrong_bodies import edits_apart, faults_of_list, faults_of_verdicts


@pytest.fixture(scope="module")
def sums() -> Sums:
    """The sums over the clauses and definitions of the crates."""
    return Sums(TOP)


def assert_none(faults: Iterable[str]) -> None:
    """Says all faults where there is one."""
    found = list(faults)
    assert not found, "\n".join(found)


def test_verdicts(sums: Sums) -> None:
    assert any(edits_apart(TOP, name) for name in sums.crates), "there is no wrong body"
    assert_none(fault for name in sums.crates for fault in faults_of_verdicts(TOP, name, sums))


def test_list(sums: Sums) -> None:
    assert_none(faults_of_list(TOP, list(sums.crates)))


def test_streams(sums: Sums) -> None:
    assert_none(faults_of_pairs(TOP, list(sums.crates)))


def test_promises() -> None:
    assert_none(faults_of_promises(TOP))
