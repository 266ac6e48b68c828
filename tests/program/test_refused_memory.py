"""Memory that is refused, at each growth in turn: that is reported, or the answer is whole."""
import re
from typing import Dict, List, Tuple

import pytest

from command import TOP
from dev.judging import Answer, fault
from fault_pages import (
    COMMANDS, GLYPH, HELPS, LATE, MADE_AGAIN, MAKES, PAGES, POINT, POLYGON, REQUESTS, WRONG, Lines, Page, Words,
    name_of,
)
from faults import Faults, until_none

NAP_TESTS = f"{TOP}/crates/nap_tests/out/nap_tests_tests"
# Tests of nap_tests that allow for lack of memory, and for no other failure.
TESTS_OF_GROWTH = [
    "short_pages_survive_want_of_memory",
    "a_large_shape_survives_want_of_memory",
    "a_full_store_survives_want_of_memory",
]
# Where memory runs out to find the column, it is 1.
UNKNOWN = Lines(GLYPH, b"wait 64\n", "line 5: no line of a list, at column 1")
PAIRS = [(words, page) for words in COMMANDS for page in PAGES]
PAIRS += [(words, LATE) for words in (["list"], ["list", "--hex"])]
PAIRS += [(words, page) for words in MAKES for page in (*MADE_AGAIN, Lines(POLYGON), UNKNOWN)]
one_or_all = pytest.mark.parametrize("once", [1, 0], ids=["one growth", "all from one on"])


def is_lack(page: Page, words: Words, answer: Answer) -> bool:
    """Whether an answer reports that memory ran out, after whole entries or nothing."""
    outputs = page.beginnings() if "--stream" in words else [b""]
    if answer.status == 3:
        return answer.err == b"no memory\n" and answer.out in [b"", *outputs]
    line, other = (answer.out, answer.err) if words[0] == "check" else (answer.err, answer.out)
    refusal = re.fullmatch(rb"refused 21 Memory at (0|[1-9][0-9]*)\n", line)
    return answer.status == 1 and refusal is not None and int(refusal[1]) <= len(page.stream) and other in outputs


@one_or_all
@pytest.mark.parametrize("words, page", PAIRS, ids=name_of)
def test_commands_report_lack_of_memory(faults: Faults, words: Words, page: Page, once: int) -> None:
    """Refuses each growth in turn."""
    expected = page.answer(words)
    for result in faults.in_turn("memory", page, words, once=once):
        assert set(result.letters) == {"m"} and not (once and len(result.letters) > 1), f"other faults: {result}"
        is_right = result.answer == expected or is_lack(page, words, result.answer)
        assert is_right, f"neither lack of memory nor the whole answer: {result}"


@one_or_all
@pytest.mark.parametrize("name", TESTS_OF_GROWTH)
def test_the_library_reports_lack_of_memory(faults: Faults, name: str, once: int) -> None:
    words = [NAP_TESTS, f"tests::growth::{name}"]
    try:
        whole = faults.run_other(words).answer
    except FileNotFoundError:
        pytest.skip("the tests of nap_tests aren't built")
    assert whole.status == 0, f"{name}: {whole}"
    number = 0
    while True:
        number += 1
        result = faults.run_other(words, memory=number, once=once)
        assert result.answer.status == 0, f"{name}: {result}"
        if not result.letters:
            break
    assert number > 1, f"{name}: no growth was refused"


EXCLUDED = ["canon", "--hex", "--stream"]
LINES_OF_WORDS: List[Tuple[Words, int]] = [
    *((words, 0) for words in HELPS), *((words, 2) for words in WRONG), (EXCLUDED, 2),
]


@one_or_all
@pytest.mark.parametrize("words, status", LINES_OF_WORDS, ids=name_of)
def test_help_and_wrong_words_report_lack_of_memory(faults: Faults, words: Words, status: int, once: int) -> None:
    whole = faults.run(POINT, words).answer
    assert whole.status == status and b"" in (whole.out, whole.err), str(whole)
    results = until_none("memory", whole, lambda **first: faults.run(POINT, words, once=once, **first))
    for result in results:
        assert result.answer in (whole, fault(b"no memory")), f"{result}, expected {whole}"


def is_answered(output: bytes, is_whole: bool) -> bool:
    """Whether each request has its own answer, or one that reports lack of memory; if not whole, the first ones."""
    for answer in REQUESTS.answers:
        lack = re.match(rb"(refused 21 Memory at (0|[1-9][0-9]*)|no memory)\n0\n", output)
        if output.startswith(answer):
            output = output[len(answer):]
        elif lack is not None:
            output = output[lack.end():]
        else:
            return not is_whole and output == b""
    return output == b""


@one_or_all
def test_batch_reports_lack_of_memory(faults: Faults, once: int) -> None:
    for result in faults.in_turn("memory", REQUESTS, ["batch"], once=once):
        answer = result.answer
        is_end = answer.status == 3 and answer.err == b"no memory\n"
        assert (is_end or answer.status == 0) and is_answered(answer.out, not is_end), str(result)


FAULT_LINES = {"read": rb"read fault\n", "write": rb"write fault after (0|[1-9][0-9]*) bytes\n"}
READERS: List[Tuple[Words, Page]] = [*((words, POINT) for words in COMMANDS), (["batch"], REQUESTS)]


@pytest.mark.parametrize("kind", FAULT_LINES)
@pytest.mark.parametrize("words, page", READERS, ids=name_of)
def test_a_failed_call_is_reported_where_memory_is_refused_too(faults: Faults, words: Words, page: Page,
                                                                kind: str) -> None:
    first: Dict[str, int] = {kind: 1}
    number, letters = 0, "m"
    while "m" in letters:
        number += 1
        _, answer, letters = faults.run(page, words, memory=number, **first)
        if kind[0] in letters:
            is_reported = answer.status == 3 and re.fullmatch(FAULT_LINES[kind], answer.err) is not None
            assert is_reported, f"growth {number}, faults {letters}: {answer}"
    assert kind[0] in letters, f"the first {kind} didn't fail"
