"""Pages of 64 MiB and pages in little memory: a right answer, or lack of memory; and ten thousand runs."""
import re
import resource
import subprocess
from concurrent.futures import ThreadPoolExecutor
from pathlib import Path
from typing import Callable, Optional, Tuple

import pytest

from dev.judging import Answer, fault, run
from fault_pages import CENTRE_LINE, HEADER, Page, Words, name_of
from long_pages import LENGTH, MEBIBYTE, POINTS, RUN, centres, run_long

COMMANDS = [["list"], ["check"], ["canon"], ["canon", "--stream"]]
LINE = CENTRE_LINE.encode() + b"\n"
# A command and its page; the beginning of its output, the pieces that follow, and the length of these.
LONG_ANSWERS = [
    (["check"], "points", f"accepted {POINTS} entries\n".encode(), b"\n", 0),
    (["check"], "fill", b"accepted 0 entries\n", b"\n", 0),
    (["canon", "--stream"], "points", HEADER, RUN, len(centres(POINTS))),
    (["canon", "--stream"], "fill", HEADER, b"\n", 0),
    (["list"], "fill", b"", b"\n", 0),
    (["canon"], "fill", HEADER, b"\n", 0),
]
IDS = [f"{name_of(words)}-{name}" for words, name, *_ in LONG_ANSWERS]


@pytest.mark.parametrize("limit", [None, LENGTH, 16 * MEBIBYTE], ids=["no limit", "64 MiB", "16 MiB"])
@pytest.mark.parametrize("words, name, header, piece, length", LONG_ANSWERS, ids=IDS)
def test_long_pages_take_little_memory(program_file: str, long_pages: Path, words: Words, name: str, header: bytes,
                                       piece: bytes, length: int, limit: Optional[int]) -> None:
    result = run_long([program_file, *words], long_pages / f"{name}.nap", header, piece, limit)
    # Only `list` keeps the page.
    page_length = LENGTH if words == ["list"] else 0
    if page_length and limit:
        assert (result.status, result.stderr, result.length) == (3, b"no memory\n", 0)
        return
    assert (result.status, result.stderr, result.is_same) == (0, b"", True)
    assert result.length == len(header) + length
    assert 0 < result.peak < page_length // 1024 + 16 * 1024, f"{result.peak} KiB"


@pytest.mark.parametrize("words, header, piece, length", [
    (["list"], b"", LINE, POINTS * len(LINE)), (["canon"], HEADER, RUN, len(centres(POINTS))),
], ids=["list", "canon"])
def test_texts_that_may_not_fit(program_file: str, long_pages: Path, words: Words, header: bytes, piece: bytes,
                                length: int) -> None:
    result = run_long([program_file, *words], long_pages / "points.nap", header, piece, LENGTH)
    if result.status == 0:
        assert (result.stderr, result.is_same, result.length) == (b"", True, len(header) + length)
        return
    assert result.length == 0, f"{result.length} bytes before lack of memory"
    refusal = re.fullmatch(rb"refused 21 Memory at (\d+)\n", result.stderr)
    if refusal is not None:
        assert result.status == 1 and int(refusal[1]) <= LENGTH, str(result)
    else:
        assert (result.status, result.stderr) == (3, b"no memory\n")


def points(count: int, more: bytes = b"", refusal: Optional[str] = None) -> Page:
    """A page of a number of points, and perhaps of more that is refused."""
    return Page("points", b"\x0e" + b"&R@@" * count + more, [centres(count)], [CENTRE_LINE] * count, refusal)


MIDDLE = points(3000)


def is_unloaded(program: str, answer: Answer, lessen: Callable[[], None]) -> bool:
    """Whether the system couldn't load the program into so little memory: it can't where it only loads it, either."""
    only_loading = {"LD_TRACE_LOADED_OBJECTS": "1"}
    return answer.out == b"" and run([program], env=only_loading, preexec_fn=lessen).status != 0


def is_refused(words: Words, answer: Answer) -> bool:
    """Whether an answer is a refusal for lack of memory, after the beginning of a stream or nothing."""
    line, other = (answer.out, answer.err) if words == ["check"] else (answer.err, answer.out)
    refusal = re.fullmatch(rb"refused 21 Memory at (\d+)\n", line)
    if answer.status != 1 or refusal is None or int(refusal[1]) > len(MIDDLE.stream):
        return False
    is_beginning = other.startswith(HEADER) and MIDDLE.canonical.startswith(other)
    return other == b"" or ("--stream" in words and is_beginning)


@pytest.mark.parametrize("words", COMMANDS, ids=name_of)
def test_any_little_memory(program_file: str, tmp_path: Path, words: Words) -> None:
    page = tmp_path / "middle.nap"
    page.write_bytes(MIDDLE.stream)
    for kibibytes in range(4, 644, 4):

        def lessen(limit: int = kibibytes * 1024) -> None:
            resource.setrlimit(resource.RLIMIT_DATA, (limit, limit))

        with open(page, "rb") as source:
            answer = run([program_file, *words], stdin=source, preexec_fn=lessen)
        is_whole = answer == MIDDLE.answer(words)
        is_lack = answer == fault(b"no memory") or is_refused(words, answer)
        assert is_whole or is_lack or is_unloaded(program_file, answer, lessen), f"{kibibytes} KiB: {answer}"


def test_ten_thousand_runs_eight_beside_one_another(program_file: str) -> None:
    def start(number: int) -> Tuple[Answer, Answer]:
        words, count = COMMANDS[number % 4], number // 4 % 97
        is_refused_page = number % 5 == 0
        page = points(count, b"\x18", f"refused 6 LeftOut CAN at {1 + 4 * count}") if is_refused_page else points(count)
        return run([program_file, *words], page.stream, stdin=subprocess.PIPE), page.answer(words)

    with ThreadPoolExecutor(8) as pool:
        for number, (answer, expected) in enumerate(pool.map(start, range(10000))):
            assert answer == expected, f"run {number}: {answer}, expected {expected}"
