"""Reads of standard input that fail, each in turn: the status is 3, and the output has what came before."""
import errno

import pytest

from dev.judging import fault
from fault_pages import COMMANDS, GLYPH, MADE_AGAIN, MAKES, POINT, REQUESTS, Page, Words, name_of
from faults import Faults

READ_FAULT = b"read fault"
PAIRS = [(words, page) for words in COMMANDS for page in (POINT, GLYPH)]
PAIRS += [(words, page) for words in MAKES for page in MADE_AGAIN]
PAIRS.append((["batch"], REQUESTS))


@pytest.mark.parametrize("once", [1, 0], ids=["one", "all"])
@pytest.mark.parametrize("error", [errno.EIO, errno.EINTR, errno.EAGAIN], ids=errno.errorcode.get)
@pytest.mark.parametrize("size", [65536, 7, 1])
@pytest.mark.parametrize("words, page", PAIRS, ids=name_of)
def test_failing_reads(faults: Faults, words: Words, page: Page, size: int, error: int, once: int) -> None:
    """With reads of at most a number of bytes, an error, and one call that fails or all from it on."""
    length, results = len(page.input(words)), 0
    for result in faults.in_turn("read", page, words, read_most=size, errno=error, once=once):
        count = min((result.number - 1) * size, length)
        expected = fault(READ_FAULT, page.written(count) if {*words} & {"batch", "--stream"} else b"")
        assert result.answer == expected, f"{result}, expected {expected}"
        assert result.letters == "r", f"read again after a failure: {result}"
        results += 1
    assert page is REQUESTS or results == -(-length // size) + 1, "not all reads failed"
