"""Writes that fail or are interrupted, each in turn: the status is 3, with the number of bytes that went out."""
import errno
import itertools
import re
from typing import List, Tuple

import pytest

from dev.judging import Answer, fault
from fault_pages import (
    COMMANDS, GLYPH, HELPS, LONG, MADE_AGAIN, MAKES, MANY, POINT, REQUESTS, WRONG, Page, Words, name_of,
)
from faults import Faults, until_none

# Commands that print on a page that is refused.
REFUSING = [words for words in COMMANDS if words[0] == "check" or "--stream" in words]
PAIRS: List[Tuple[Words, Page]] = [(words, page) for words in COMMANDS for page in (POINT, GLYPH)]
PAIRS += [(words, MANY) for words in REFUSING]
MAKING: List[Tuple[Words, Page]] = [(words, page) for words in MAKES for page in MADE_AGAIN]
BATCH: Tuple[Words, Page] = (["batch"], REQUESTS)


def write_fault(output: bytes) -> Answer:
    """The answer where a write failed after an output."""
    return fault(b"write fault after %d bytes" % len(output), output)


def starts_of_writes(page: Page, expected: Answer, size: int) -> List[int]:
    """Where the writes of an output start: each answer of `batch` has writes of its own."""
    starts: List[int] = []
    end = 0
    for part in REQUESTS.answers if page is REQUESTS else [expected.out]:
        start, end = end, end + len(part)
        starts += range(start, end, size)
    return starts


def check_writes(faults: Faults, page: Page, words: Words, expected: Answer, **options: int) -> None:
    """Has each write fail in turn. (What was buffered isn't written again at the end.)"""
    starts = starts_of_writes(page, expected, options["write_most"])
    results = until_none("write", expected, lambda **first: faults.run(page, words, **first, **options))
    for start, result in itertools.zip_longest(starts, results):
        assert start is not None and result is not None, f"{len(starts)} writes were expected to fail: {result}"
        cut = write_fault(expected.out[:start])
        assert result.answer == cut, f"{result}, expected {cut}"


one_or_all = pytest.mark.parametrize("once", [1, 0], ids=["one", "all"])
sizes = pytest.mark.parametrize("size", [65536, 7, 1])


@one_or_all
@pytest.mark.parametrize("error", [errno.EIO, errno.ENOSPC, 0], ids=["EIO", "ENOSPC", "no byte"])
@sizes
@pytest.mark.parametrize("words, page", [*PAIRS, BATCH], ids=name_of)
def test_commands_report_a_failed_write(faults: Faults, words: Words, page: Page, size: int, error: int,
                                        once: int) -> None:
    check_writes(faults, page, words, page.answer(words), write_most=size, errno=error, once=once)


@one_or_all
@pytest.mark.parametrize("size", [65536, 7, 6, 1])
@pytest.mark.parametrize("words, page", [*MAKING, *((words, POINT) for words in HELPS)], ids=name_of)
def test_make_and_help_report_a_failed_write(faults: Faults, words: Words, page: Page, size: int, once: int) -> None:
    expected = page.answer(words) if words in MAKES else faults.run(page, words).answer
    assert expected.status == 0 and expected.out, str(expected)
    check_writes(faults, page, words, expected, write_most=size, errno=errno.EIO, once=once)


@sizes
@pytest.mark.parametrize("words, page", [*PAIRS, *MAKING, BATCH], ids=name_of)
def test_an_interrupted_write_is_made_again(faults: Faults, words: Words, page: Page, size: int) -> None:
    expected = page.answer(words)
    for number in range(1, len(starts_of_writes(page, expected, size)) + 1):
        result = faults.run(page, words, write=number, write_most=size, errno=errno.EINTR, once=1)
        assert result.answer == expected, f"{result}, expected {expected}"
        assert result.letters == "w", f"no write was interrupted: {result}"


def is_cut(answer: Answer, expected: Answer) -> bool:
    """Whether an answer reports a failed write, with the number of bytes that went out."""
    line = re.fullmatch(rb"write fault after (0|[1-9][0-9]*) bytes\n", answer.err)
    if answer.status != 3 or line is None or not expected.out.startswith(answer.out):
        return False
    return len(answer.out) == int(line[1])


@pytest.mark.parametrize("error, once", [(errno.EIO, 0), (errno.EINTR, 1)], ids=["failed", "interrupted"])
@pytest.mark.parametrize("size", [65536, 10000])
@pytest.mark.parametrize("words", [words for words in COMMANDS if words[0] != "check"], ids=name_of)
def test_writes_of_a_long_output(faults: Faults, words: Words, size: int, error: int, once: int) -> None:
    expected, results = LONG.answer(words), 0
    for result in faults.in_turn("write", LONG, words, write_most=size, errno=error, once=once):
        is_whole = error == errno.EINTR and result.answer == expected
        assert is_whole or is_cut(result.answer, expected), str(result)
        results += 1
    assert results > 1, "the output had too few writes"


# The writes of a report that `check` prints on standard output, or another command on standard error, and of wrong
# words, are of one byte or of three.
REPORTING = [*((words, 1) for words in COMMANDS), *((words, 3) for words in WRONG)]


@pytest.mark.parametrize("error", [errno.EIO, errno.EINTR, 0], ids=["EIO", "EINTR", "no byte"])
@pytest.mark.parametrize("is_small", [False, True], ids=["large", "small"])
@pytest.mark.parametrize("words, small", REPORTING, ids=name_of)
def test_a_failed_report_changes_neither_output_nor_status(faults: Faults, words: Words, small: int, is_small: bool,
                                                           error: int) -> None:
    whole = MANY.answer(words) if words in COMMANDS else faults.run(MANY, words).answer
    size = small if is_small else 65536
    for number in range(1, -(-len(whole.err) // size) + 1):
        result = faults.run(MANY, words, error=number, write_most=size, errno=error)
        expected = Answer(whole.status, whole.out, whole.err[: (number - 1) * size])
        assert result.answer == expected, f"{result}, expected {expected}"
        assert result.letters, f"no write failed: {result}"
