"""Reads and writes of few bytes change no answer; only the number of reads of a command has a limit."""
from typing import List, Tuple

import pytest

from dev.judging import Answer, fault
from fault_pages import (
    COMMANDS, HEADER, MADE_AGAIN, MAKES, MISTAKEN, PAGES, POLYGON, REQUESTS, Lines, Page, Requests, Words, name_of,
)
from faults import Faults

PAIRS: List[Tuple[Words, Page]] = [(words, page) for words in COMMANDS for page in PAGES]
PAIRS += [(words, page) for words in MAKES for page in (*MADE_AGAIN, Lines(POLYGON), MISTAKEN)]
PAIRS.append((["batch"], REQUESTS))
# A command makes so many reads, the one that finds the end among them; `batch` makes so many for each request.
MAX_READS = 1048576


def check(faults: Faults, page: Page, words: Words, expected: Answer, **options: int) -> None:
    """Compares the answer of a command whose reads or writes are short."""
    result = faults.run(page, words, **options)
    assert result.answer == expected, f"{options}: {result}, expected {expected}"


@pytest.mark.parametrize("words, page", PAIRS, ids=name_of)
def test_short_reads_and_writes_change_no_answer(faults: Faults, words: Words, page: Page) -> None:
    for size in (1, 2, 3, 1000) if len(page.stream) < 10000 else (9, 1000):
        check(faults, page, words, page.answer(words), read_most=size, write_most=size)


@pytest.mark.parametrize("words", [["list"], ["check"], ["canon"], ["canon", "--stream"]], ids=name_of)
def test_reads_of_a_command_have_a_limit(faults: Faults, words: Words) -> None:
    page = Page("max reads", bytes(MAX_READS - 1))
    check(faults, page, words, page.answer(words), read_most=1)
    longer = Page("more reads", bytes(MAX_READS))
    check(faults, longer, words, fault(b"read fault", HEADER if "--stream" in words else b""), read_most=1)


def test_reads_of_each_request_have_a_limit(faults: Faults) -> None:
    length = MAX_READS - len(f"check 1048576 {MAX_READS}\n")
    longest = ("check", bytes(length), "accepted 0 entries", b"")
    longer = ("check", bytes(length + 1), "accepted 0 entries", b"")
    page = Requests("max reads of requests", [longest, longest])
    check(faults, page, ["batch"], page.answer([]), read_most=1)
    page = Requests("more reads of requests", [longest, longer])
    check(faults, page, ["batch"], fault(b"read fault", page.answers[0]), read_most=1)
