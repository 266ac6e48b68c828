"""The pages among other bytes, over the library and over the program, whole and in pieces."""
import io
import random

import pytest

import naplps as nap
from naplps import finds
from naplps.answers import Unanswered
from samples import POINT

# Two entries and 6 bytes.
PAGE = b"\x0c" + POINT
MIB = 1 << 20


def finds_of(pieces):
    """What a generator of finds gives, and its value."""
    given = []
    while True:
        try:
            given.append(next(pieces))
        except StopIteration as stopped:
            return given, stopped.value


def planted(size, seed):
    """Bytes with pages among them, and where these are."""
    chance, whole, places = random.Random(seed), bytearray(), []
    between = [b"", bytes(40), b"A" * 3000, bytes(range(128, 256)) * 9, b" " * 300]
    while len(whole) < size:
        whole += b"\x80" + chance.choice(between) + b"\x80"
        page = PAGE + POINT[1:] * chance.choice([0, 1, 5, 700])
        places.append(nap.Find(len(whole), len(whole) + len(page)))
        whole += page
    return bytes(whole) + b"\x80", places


def test_known_finds(kind):
    assert nap.find(bytes(20) + PAGE + bytes(20), 1) == ([(20, 26)], 46, 0)
    assert nap.find(bytes(20) + PAGE, 2) == ([(20, 26)], 20, 0)
    assert nap.find(bytes(20) + PAGE, 3) == ([], 20, 0)
    # Twenty beginnings before a byte that is refused: the first is tried, and then the last fifteen.
    assert nap.find(b"\x0c" * 20 + b"\x18", 1) == ([], 0, 4)
    for empty in (b"", bytearray(), memoryview(b"")):
        assert nap.find(empty) == ([], 0, 0)
    for given in (bytearray(PAGE), memoryview(PAGE), memoryview(bytearray(PAGE))):
        assert nap.find(given, 1).finds == [nap.Find(0, 6)]
    # The usual least number of entries is twelve.
    for more, count in ((9, 0), (10, 1)):
        assert len(nap.find(PAGE + POINT[1:] * more).finds) == count


def test_wrong_arguments(kind):
    for data in ("text", None, 5):
        with pytest.raises(TypeError):
            nap.find(data)
    for least in (-1, nap.MOST_BUDGET + 1):
        with pytest.raises(ValueError):
            nap.find(PAGE, least)
    with pytest.raises(TypeError):
        nap.find(PAGE, 1.5)


def test_a_text_that_is_longer_than_the_first_room(kind):
    whole = (PAGE + b"\x80") * 7000
    found = nap.find(whole, 2)
    assert found == ([(7 * n, 7 * n + 6) for n in range(7000)], len(whole), 0)


@pytest.mark.parametrize("size", [1, 7, 4096, MIB])
def test_pieces_have_the_finds_of_the_whole(kind, monkeypatch, size):
    monkeypatch.setattr(finds, "PIECE", size)
    whole, places = planted(MIB if size > 7 else 2000, size)
    whole += b"\x0c" * 20 + b"\x18\x80" + b"\x0c" * 30 + PAGE
    given, ended = finds_of(nap.finds_in(io.BytesIO(whole).read, 2, begin=1000))
    found = nap.find(whole, 2)
    assert found.finds[:len(places)] == places
    assert given == [(begin + 1000, end + 1000) for begin, end in found.finds]
    assert ended == (found.open + 1000, found.passed) and found.passed > 0


def test_more_bytes_than_a_request_may_have(kind):
    whole, places = planted(17 * MIB, 3)
    assert nap.find(whole, 2) == (places, len(whole), 0)


def test_finds_come_as_soon_as_they_are_final(kind, monkeypatch):
    monkeypatch.setattr(finds, "PIECE", 1 << 16)
    file = io.BytesIO(PAGE + bytes(MIB))
    assert next(nap.finds_in(file.read, 2)) == (0, 6) and file.tell() == 1 << 16


def test_reading_may_give_less_than_was_asked(kind):
    pieces = [PAGE[:2], PAGE[2:], b"\x80", PAGE, b""]
    assert finds_of(nap.finds_in(lambda most: pieces.pop(0), 2)) == ([(0, 6), (7, 13)], (7, 0))


def test_another_may_be_asked(program):
    assert finds_of(nap.finds_in(io.BytesIO(PAGE).read, 2, ask=program.find)) == ([(0, 6)], (0, 0))


@pytest.mark.parametrize("too_much, error", [(True, nap.NoMemory), (False, nap.NoAnswer)])
def test_no_answer_is_raised(too_much, error):
    def ask(data, least):
        return Unanswered("why", too_much)
    with pytest.raises(error, match="why"):
        next(nap.finds_in(io.BytesIO(PAGE).read, 2, ask=ask))
