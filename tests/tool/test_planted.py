"""Files with planted pages: no treatment around a page takes a page, captures are found and cut, and pages are found
in anything. PLANTED names how many files are made."""
import os
from random import Random
from typing import Dict, Set

import pytest

import gallery
from naplps.answers import Accepted, Refusal
from naplps.client import Client
from naplps.treating.borders import draws, pages_in, pieces
from naplps.treating.changes import AROUND
from naplps.treating.treatments import TreatmentSearch, treated, untreated
from planted import files

FILES = int(os.environ.get("PLANTED", "600"))


@pytest.fixture(scope="module")
def program(naplps):
    """The program."""
    client = Client(naplps)
    yield client
    client.close()


@pytest.fixture(scope="module")
def planted(program):
    """The files."""
    return files(FILES, program)


@pytest.fixture(scope="module")
def refused(program, planted):
    """The refused ones, with the places of their refusals."""
    answers = [(each, program.ask("check", each.data)) for each in planted]
    return [(each, answer.place) for each, answer in answers if isinstance(answer, Refusal)]


def plain(data):
    """The bytes without eighth bits."""
    return bytes(byte & 0x7F for byte in data)


def test_no_treatment_around_takes_a_planted_page_or_bytes_that_draw(refused):
    tried = 0
    for each, place in refused:
        for made in treated(untreated(each.data), place):
            (change,) = made.changes
            if change.grade != AROUND:
                continue
            for edit in change.edits:
                tried += 1
                end = edit.offset + edit.length
                assert not any(edit.offset < until and at < end for at, until in each.places), (each.sort, change)
                if change.treatment != "sauce":
                    assert not draws(each.data[edit.offset:end]), (each.sort, change)
    assert tried >= len(refused) // 4


def test_a_treated_copy_has_every_planted_page(program, refused):
    drawn: Dict[bytes, Set[bytes]] = {}
    cured = 0
    for each, place in refused:
        cure = TreatmentSearch(program.ask).find(each.data, place)
        if cure is None or cure.treated.is_guess:
            continue
        cured += 1
        pages = [plain(page) for page in each.pages] if each.sort == "parity" else each.pages
        assert all(page in cure.data for page in pages), each.sort
        canon = program.ask("canon", cure.data)
        assert isinstance(canon, Accepted)
        drawn.setdefault(canon.body, set()).add(b"".join(pages))
    assert cured >= len(refused) // 8 and all(len(some) == 1 for some in drawn.values())


def test_captures_alone_are_captures_and_give_back_their_pages(program, planted):
    for each in planted:
        if not each.is_capture:
            assert each.sort == "records" or pages_in(each.data) == 0, (each.sort, each.data)
            continue
        assert pages_in(each.data) == len(each.places)
        drawn = [(piece.offset, piece.end) for piece in pieces(each.data) if piece.draws]
        assert drawn == list(each.places), each.sort


def test_no_single_page_is_a_capture(program):
    for data in gallery.pages().values():
        assert pages_in(data) == 0
    chance = Random(1)
    for each in files(50, program, seed=2):
        for page in each.pages:
            some = plain(page) if each.sort == "parity" else page
            assert pages_in(some) == 0 and pages_in(some + b"\x1a" * chance.randrange(9)) == 0
