"""Bytes by chance, and bytes that are made to cost much, through every treatment and the census: in bounded time."""
import time
from random import Random

import pytest

from naplps.answers import Accepted, Refusal
from naplps.treating.treatments import MOST_ASKED, TREATMENTS, TreatmentSearch, treated, untreated
from naplps_pages import codes
from naplps_pages.file_kinds import kind, last_beginning, looks_like

# Codes that treatments look for.
PARTS = (b"\x18", b"\x1a", b"\x1f", b"\x1f\x41\x42", b"\x1b\x22\x46", b"\x1b\x25\x41", b"\x1b\x28\x41", b"\x1b\x40!",
         b"\x1b\x45", b"\x0e", b"\x0f", b"\x0c", b"\x0e\x26\x52", b"\x8e", b"\xa6\xd2", b"SAUCE00", b"COMNT",
         b"\0" * 9, b"A", b"\xff")
# What a processor may take for a file of a number of bytes, in seconds: many times what it does.
MOST_SECONDS, LENGTH = 20, 1 << 17


def noise(seed):
    """Bytes by chance: of all values, of those of seven bits, of the codes, or of one code alone."""
    chance = Random(seed)
    length = chance.choice((0, 1, 2, 50, 1000, LENGTH))
    return (lambda: chance.randbytes(length), lambda: bytes(byte & 0x7F for byte in chance.randbytes(length)),
            lambda: b"".join(chance.choice(PARTS) for _ in range(length // 3)),
            lambda: chance.choice(PARTS) * (length // 2))[seed % 4]()


@pytest.mark.parametrize("seed", range(48))
def test_every_treatment_and_the_census_end(program, seed):
    data, began = noise(seed), time.process_time()
    answer, asked = program.ask("check", data), []

    def ask(command, copy):
        asked.append(command)
        return program.ask(command, copy)
    if isinstance(answer, Refusal):
        for name in TREATMENTS:
            for each in treated(untreated(data), answer.place, (name,)):
                assert len(each.data) <= 2 * len(data) + 2
        cure = TreatmentSearch(ask).find(data, answer.place)
        assert len(asked) <= 2 * MOST_ASKED and (cure is None or isinstance(ask("check", cure.data), Accepted))
        names = codes.stops(data, answer)
        assert names and len(names) <= codes.MOST_AFTER_REFUSAL + 2
        looks_like(data, len(data))
    else:
        assert isinstance(answer, Accepted)
        assert kind((data,), answer) in ("page", "text", "blank") and last_beginning(data) < max(len(data), 1)
    assert time.process_time() - began < MOST_SECONDS


def test_a_search_that_nothing_ends():
    """The program refuses all that it is asked: then the bounds end the search."""
    for seed in range(0, 48, 5):
        data, asked, began = noise(seed), [], time.process_time()

        def ask(command, copy):
            asked.append(copy)
            return Refusal(1, "EighthBit", None, len(copy) // 2)
        assert TreatmentSearch(ask).find(data, 0) is None and len(asked) <= 2 * MOST_ASKED
        assert time.process_time() - began < MOST_SECONDS
