"""`make` on lists of vectors and of pages by chance, and on lists that are changed by chance, cut, or too long.

A list of a page makes the page's canonical stream. Any other text is refused as a model says, or `list` prints it back
word for word.
"""
from concurrent.futures import ThreadPoolExecutor
from functools import partial
from typing import Callable, Iterable, Iterator, List, Optional, Tuple

import pytest

from dev.fuzzing.line_model import MISFIT, NO_LINE, UNCLOSED, LineFault, fault_of
from dev.fuzzing.random_lines import RandomLines
from dev.fuzzing.streams import Streams
from dev.judging import Answer
from dev.vectors.notation import bytes_of, lines_of
from dev.vectors.rows import files, vectors_of
from shells import answer

# How many pages by chance, how many changed lists, and which ones.
PAGES, CHANGED, SEED = 200, 400, 1

POINT = b"POINT 4194304,4194304 pel=0,0 colour=own-start\n"
SHAPE = b" pel=0,0 colour=own-start texture=0/none\n"
SIGN = b"CHAR primary 41 pen=start colour=own-start text=0,0/normal/----\n"
MAX_LINE = 32_112
# Each form of a line that has no row in vectors/lines.rows, with the least and the greatest of each field.
FORMS = """\
POINT 0,8388607 pel=-8388608,8388607 colour=own-start
POINT 8388607,0 pel=8388607,-8388608 colour=own-reset
POINT 1,10 pel=0,0 colour=direct:0,65535,0
POINT 1,10 pel=-1,1 colour=direct:65535,0,65535
POINT 1,10 pel=0,0 colour=front:0
POINT 1,10 pel=0,0 colour=front:16777215
POINT 1,10 pel=0,0 colour=pair:0,16777215
POINT 1,10 pel=0,0 colour=pair:16777215,0
POINT 1,10 pel=0,0 colour=reset-2
POINT 1,10 pel=0,0 colour=reset-3
LINE 0,8388607 8388607,0 pel=0,0 colour=own-start texture=0/none
LINE 8388607,0 0,8388607 pel=-8388608,-8388608 colour=own-start texture=63/8388607,-8388608
ARC-OUTLINED 0,0 8388607,8388607 0,8388607 pel=0,0 colour=own-start texture=0/none
ARC-FILLED 0,0 1,1 2,2 3,3 pel=0,0 colour=own-start texture=1/-8388608,8388607
RECT-OUTLINED 0,8388607 8388607,0 pel=0,0 colour=own-start texture=0/none
RECT-FILLED 8388607,0 0,8388607 pel=0,0 colour=own-start texture=0/0,0
POLY-OUTLINED 0,0 8388607,8388607 pel=0,0 colour=own-start texture=0/none
POLY-FILLED 0,8388607 8388607,0 1,1 pel=0,0 colour=own-start texture=63/none
CHAR primary 20 pen=start colour=own-start text=0,0/small/----
CHAR supplementary 7f pen=after colour=own-start text=63,63/medium/ruws
CHAR mosaic 2f pen=0,8388607 colour=own-start text=0,63/normal/r---
CHAR drcs 70 pen=8388607,0 colour=own-start text=63,0/tall/-u--
CHAR primary 41 pen=start colour=own-start text=1,1/double/--w-
CHAR primary 41 pen=start colour=own-start text=1,1/-8388608,8388607/---s
CHAR primary 41 pen=start colour=own-start text=1,1/8388607,-8388608/r-w-
MOVE APF pen=start colour=own-start text=0,0/normal/----
MOVE APH pen=start colour=own-start text=0,0/normal/----
MOVE APS 20 7f pen=after colour=own-start text=0,0/normal/----
MOVE APS 7f 20 pen=start colour=own-start text=0,0/normal/----
TO-EOL pen=after colour=front:1 text=0,0/normal/----
MAP 0 0,65535,0
MAP 16777215 65535,0,65535
BLINK 0 0,63,0 colour=own-start
BLINK 16777215 63,0,63 colour=front:7
BLINK-START colour=front:7
BLINK-STOP colour=pair:7,8
WAIT 0
WAIT 63
FIELD 0,8388607 8388607,0 pen=after
RESET 0 63 pen=start
RESET 63 0 pen=8388607,8388607
""".splitlines()


def no_line(number: int, column: int) -> Answer:
    """The answer to a line that is none."""
    return Answer(1, b"", f"line {number}: no line of a list, at column {column}\n".encode())


# A text, and its answer: ends of lines that are others, or none, and empty lines.
ENDS = [
    (b"\n", no_line(1, 1)),
    (POINT[:-1], no_line(1, len(POINT))),
    (POINT[:-1] + b"\r\n", no_line(1, 31)),
    (POINT + b"\n", no_line(2, 1)),
    (POINT + b"\0\n", no_line(2, 1)),
    (b"BELL\r\n", no_line(1, 1)),
    (b"\xef\xbb\xbfBELL\n", no_line(1, 1)),
    (b"GLYPH 41\nBELL\n", Answer(1, b"", b"line 2: the definition of line 1 isn't ended\n")),
    (b"GLYPH 41\nMASK A\n", Answer(1, b"", b"line 2: can't come here\n")),
    (b"END\nPOINT\n", Answer(1, b"", b"line 1: can't come here\n")),
    (b"POINT\nEND\n", no_line(1, 1)),
]


def refusal_of(fault: LineFault) -> bytes:
    """How `make` reports what a model finds wrong with lines."""
    reports = {NO_LINE: f"no line of a list, at column {fault.column}", MISFIT: "can't come here",
               UNCLOSED: f"the definition of line {fault.opening} isn't ended"}
    return f"line {fault.line}: {reports[fault.kind]}\n".encode()


def fault_of_text(program: str, text: bytes) -> Optional[str]:
    """What is wrong with the answer of `make` to a text: it is refused as a model says, with `--stream` after the page
    of the lines before; or `list` prints it back."""
    result, streamed = answer(program, "make", text), answer(program, "make --stream", text)
    fault = fault_of(text)
    if fault is None:
        back, canonical = answer(program, "list", result.out), answer(program, "canon", result.out)
        is_right = result == streamed == canonical == Answer(0, result.out) and back == Answer(0, text)
    elif fault.kind == UNCLOSED:
        ended = answer(program, "make", text + b"END\n")
        is_right = ended.status == 0 and ended.out.startswith(streamed.out)
    else:
        before = b"".join(line + b"\n" for line in text.split(b"\n")[: fault.line - 1])
        is_right = streamed.out == answer(program, "make --stream", before).out
    if fault is not None:
        refusal = refusal_of(fault)
        is_right = is_right and result == Answer(1, b"", refusal) and streamed == Answer(1, streamed.out, refusal)
    return None if is_right else f"{text!r}: {result}, with --stream {streamed}, expected {fault}"


def fault_of_list(program: str, text: bytes, canonical: bytes) -> Optional[str]:
    """What is wrong where a list doesn't make a canonical stream."""
    results = [answer(program, words, text) for words in ("make", "make --stream")]
    is_right = results == [Answer(0, canonical)] * 2
    return None if is_right else f"{text!r}: {results} in place of {canonical!r}"


def faults(fault: Callable[..., Optional[str]], program: str, *columns: Iterable[bytes]) -> List[str]:
    """The faults of many texts, four at a time."""
    with ThreadPoolExecutor(4) as pool:
        return list(filter(None, pool.map(partial(fault, program), *columns)))


def random_pages(program: str, count: int, seed: int) -> Iterator[Tuple[bytes, int, bytes]]:
    """A number of accepted pages by chance, with entries: a page, a budget, and the page's list."""
    streams, found = Streams(seed), 0
    while found < count:
        budget, page = streams.next()
        listed = answer(program, f"list --budget {budget}", page)
        if listed.status == 0 and listed.out:
            found += 1
            yield page, budget, listed.out


def changed_lists(program: str) -> List[bytes]:
    """Lists of pages by chance, most of them changed in some places."""
    lines = RandomLines(str(SEED), [text for _, _, text in random_pages(program, CHANGED // 20, SEED + 1)])
    return [lines.next() for _ in range(CHANGED)]


@pytest.mark.parametrize("text, expected", ENDS, ids=[repr(text)[2:-1] for text, _ in ENDS])
def test_end(naplps: str, text: bytes, expected: Answer) -> None:
    """An end of a line that is another, or none, brings the place of the fault; so does an empty line."""
    assert answer(naplps, "make", text) == expected


@pytest.mark.parametrize("form", FORMS)
def test_form(naplps: str, form: str) -> None:
    """Each form of a line is an entry's, at the ends of its fields: `list` prints it back, or it can't come first."""
    text = form.encode() + b"\n"
    fault = fault_of(text)
    assert fault is None or fault.kind == MISFIT, "the model takes it for no line"
    assert fault_of_text(naplps, text) is None


def polygon(count: int) -> bytes:
    """The line of a polygon of a number of points, each number as long as it may be."""
    ink = b"pel=-8388608,-8388608 colour=direct:65535,65535,65535 texture=63/-8388608,-8388608\n"
    return b"POLY-OUTLINED " + b"8388607,8388607 " * count + ink


def test_longest_line(naplps: str) -> None:
    """The longest line is read."""
    text = polygon(2001)
    assert len(text) - 1 <= MAX_LINE and fault_of(text) is None
    assert fault_of_text(naplps, text) is None


def test_one_point_more(naplps: str) -> None:
    """A line with one point more is none."""
    assert answer(naplps, "make", polygon(2002)) == no_line(1, 14 + 16 * 2001 + 1)


@pytest.mark.parametrize("end", [b"", b"\n", b"\n" + POINT], ids=["cut", "ended", "followed"])
@pytest.mark.parametrize("text", [b"x" * 100_000, b"POINT " + b"1" * 100_000, b"\0" * 1_000_000, b" " * 40_000 + b"\n"],
                         ids=["letters", "digits", "zero bytes", "blanks"])
def test_longer_line(naplps: str, text: bytes, end: bytes) -> None:
    """Any longer line is none."""
    result = answer(naplps, "make", text + end)
    assert result.status == 1 and result.err.startswith(b"line 1: no line of a list, at column ")


@pytest.mark.parametrize("size", range(MAX_LINE - 1, MAX_LINE + 3))
def test_size_about_the_longest(naplps: str, size: int) -> None:
    """A line about as long as the longest is none where it has no form."""
    assert answer(naplps, "make", b"BELL\n" + b"y" * size + b"\n") == no_line(2, 1)


def test_cuts(naplps: str) -> None:
    """A list that is cut at any byte is refused there, or printed back."""
    text = POINT + SIGN + b"GLYPH 41\nEND\nPOLY-FILLED 0,0 1,1" + SHAPE + b"BELL\n"
    assert faults(fault_of_text, naplps, [text[:end] for end in range(len(text) + 1)]) == []


def test_vectors(naplps: str) -> None:
    """The list of each accepted vector makes its canonical stream."""
    vectors = [vector for file in files() for vector in vectors_of(file) if vector.accepted]
    assert vectors, "vectors/ has no accepted vector"
    lists = ["".join(f"{line}\n" for line in lines_of(vector.list)).encode("ascii") for vector in vectors]
    assert faults(fault_of_list, naplps, lists, [bytes_of(vector.ending) for vector in vectors]) == []


def test_random_pages(naplps: str) -> None:
    """The list of each accepted page by chance makes its canonical stream."""
    lists, streams = [], []
    for page, budget, text in random_pages(naplps, PAGES, SEED):
        canonical = answer(naplps, f"canon --budget {budget}", page)
        assert canonical == Answer(0, canonical.out), f"{page!r} with the budget {budget}"
        lists.append(text)
        streams.append(canonical.out)
    assert faults(fault_of_list, naplps, lists, streams) == []


def test_changed_lists(naplps: str) -> None:
    """Each list that is changed by chance is refused with its line, or printed back."""
    assert faults(fault_of_text, naplps, changed_lists(naplps)) == []
