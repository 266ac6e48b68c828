"""`naplps batch` over pipes: requests and their answers, words that are no request, input that ends at any byte, a
client that writes and reads in turns, one that writes ahead, large pages, and lack of memory."""
import resource
import subprocess
import threading
from typing import Callable, Iterator, Optional

import pytest

from batch_requests import MAX_BUDGET, MAX_PAGE, USUAL, Case, Client, answer, check_answers, request, take_answer
from dev.judging import Answer, run

START = "pel=0,0 colour=own-start"
SIGNS = "colour=own-start text=0,0/normal/----"
POINT = bytes.fromhex("0e26524040")
POINT_LINE = f"POINT 4194304,4194304 {START}"
TWO_POINTS = bytes.fromhex("0e265240402652404026524040")
OUTSIDE = bytes.fromhex("0e2652287f")
MACRO = bytes.fromhex("1b40410e26520f1b451b2a7a1941")
# A page of two entries and 6 bytes from 17 on, and one of three entries and 10 bytes from 24 on.
TWO_PAGES = bytes(17) + b"\x0c" + POINT + b"\x80\x0c" + POINT + POINT[1:]

CASES = [
    Case("check", USUAL, POINT, "accepted 1 entries"),
    Case("list", USUAL, POINT, "accepted 1 entries", f"{POINT_LINE}\n".encode()),
    Case("canon", USUAL, POINT, "accepted 1 entries", bytes.fromhex("0e215f265240404040404040")),
    # The point comes at the end of the page, where its opcode acts.
    Case("places", USUAL, POINT, "accepted 1 entries", f"5 {POINT_LINE}\n".encode()),
    # An opcode acts with the byte that ends its operands.
    Case("places", USUAL, TWO_POINTS, "accepted 3 entries",
         "".join(f"{place} {POINT_LINE}\n" for place in (5, 9, 13)).encode()),
    Case("check", USUAL, b"", "accepted 0 entries"),
    Case("list", USUAL, b"", "accepted 0 entries"),
    Case("canon", USUAL, b"", "accepted 0 entries", bytes.fromhex("0e215f")),
    Case("places", USUAL, b"", "accepted 0 entries"),
    Case("check", USUAL, OUTSIDE, "refused 10 Outside at 3"),
    Case("list", USUAL, OUTSIDE, "refused 10 Outside at 3"),
    Case("canon", USUAL, OUTSIDE, "refused 10 Outside at 3"),
    # The entries before a refusal have their places too.
    Case("places", USUAL, OUTSIDE, "refused 10 Outside at 3", f"3 {POINT_LINE}\n".encode()),
    Case("check", 4, MACRO, "accepted 1 entries"),
    Case("check", 3, MACRO, "refused 17 Budget at 13"),
    Case("check", MAX_BUDGET, MACRO, "accepted 1 entries"),
    Case("check", 0, b"\x0f\x41\x42", "accepted 2 entries"),
    Case("places", 0, b"\x0f\x41\x42", "accepted 2 entries",
         f"1 CHAR primary 41 pen=start {SIGNS}\n2 CHAR primary 42 pen=after {SIGNS}\n".encode()),
    # Lines have no budget: any number may stand there.
    Case("make", 0, f"{POINT_LINE}\n".encode(), "accepted 1 entries", bytes.fromhex("0e215f265240404040404040")),
    Case("make", MAX_BUDGET, b"", "accepted 0 entries", bytes.fromhex("0e215f")),
    Case("make", USUAL, b"BELL\nWAIT 64\n", "line 2: no line of a list, at column 6"),
    Case("make", USUAL, b"BELL", "line 1: no line of a list, at column 5"),
    Case("make", USUAL, b"BELL\nEND\n", "line 2: can't come here"),
    Case("make", USUAL, b"BELL\nGLYPH 41\nBELL\n", "line 3: the definition of line 2 isn't ended"),
    Case("make", USUAL, POINT, "line 1: no line of a list, at column 1"),
    # The number is the least number of entries; a find has twice as many bytes.
    Case("find", 1, TWO_PAGES, "found 2 pages", b"17 23\n24 34\nopen 24 passed 0\n"),
    Case("find", 3, TWO_PAGES, "found 1 pages", b"24 34\nopen 24 passed 0\n"),
    Case("find", 4, TWO_PAGES, "found 0 pages", b"open 24 passed 0\n"),
    Case("find", MAX_BUDGET, TWO_PAGES, "found 0 pages", b"open 24 passed 0\n"),
    # The row ends, and with it what more bytes may change.
    Case("find", 1, TWO_PAGES + b"\x80", "found 2 pages", b"17 23\n24 34\nopen 35 passed 0\n"),
    # Twenty beginnings before a byte that is refused: the first is tried, and then the last fifteen.
    Case("find", 1, b"\x0c" * 20 + b"\x18", "found 0 pages", b"open 0 passed 4\n"),
    Case("find", 0, b"", "found 0 pages", b"open 0 passed 0\n"),
    Case("check", USUAL, b"\x80", "refused 1 EighthBit at 0"),
    Case("check", USUAL, b"\n\n", "accepted 2 entries"),
]
IDS = [f"{case.command}-{case.budget}-{case.page.hex()[:30] or 'empty'}" for case in CASES]
GOOD = CASES[1]
# None of these is a request, whatever comes after it.
WRONG = [
    b"\n", b" \n", b"check\n", b"check 0\n", b"check 0 0 \n", b"check 0 0 0\n", b"check  0 0\n", b" check 0 0\n",
    b"Check 0 0\n", b"checks 0 0\n", b"convert 0 0\n", b"check\t0\t0\n", b"check 0 0\r\n", b"check +0 0\n",
    b"check 0 -0\n", b"check 0x0 0\n", b"check  0\n", b"check 0 \n", b"check 67108865 0\n", b"check 0 16777217\n",
    b"check 99999999 0\n", b"check 000000000 0\n", b"check 0 000000000\n", b"check 4294967296 0\n",
    b"places 12345678 123456789", b"a line that is far too long for any request", b"\x00check 0 0\n", b"x",
    b"places 67108864 16777216", b"find 0\n", b"find  0\n", b"find 67108865 0\n", b"finds 0 0\n",
]
Batch = Callable[..., Answer]


@pytest.fixture
def batch(naplps: str) -> Batch:
    """Runs `naplps batch` on requests, with at most a number of bytes of memory."""
    def runs(requests: bytes, memory: Optional[int] = None) -> Answer:
        def limit() -> None:
            if memory is not None:
                resource.setrlimit(resource.RLIMIT_AS, (memory, memory))

        return run([naplps, "batch"], requests, stdin=subprocess.PIPE, preexec_fn=limit)
    return runs


@pytest.fixture
def client(naplps: str) -> Iterator[Client]:
    """A process that is written and read in turns."""
    client = Client(naplps)
    yield client
    client.close()


def check(result: Answer, output: bytes, is_fault: bool = False) -> None:
    """Compares a result with an output, and with the end of input or of requests."""
    expected = Answer(3, output, b"request fault\n") if is_fault else Answer(0, output)
    assert result == expected, f"{result}, expected {expected}"


@pytest.mark.parametrize("case", CASES, ids=IDS)
def test_a_request_has_its_answer(batch: Batch, case: Case) -> None:
    check(batch(case.request()), case.answer())


def test_no_request(batch: Batch) -> None:
    check(batch(b""), b"")


def test_leading_zeros(batch: Batch) -> None:
    check(batch(b"check 00000001 00000005\n" + POINT), answer("accepted 1 entries"))


@pytest.mark.parametrize("text", WRONG, ids=ascii)
def test_no_answer_follows_a_wrong_request(batch: Batch, text: bytes) -> None:
    check(batch(text), b"", is_fault=True)
    check(batch(GOOD.request() + text), GOOD.answer(), is_fault=True)
    check(batch(text + GOOD.request()), b"", is_fault=True)


def test_the_input_ends_at_any_byte(batch: Batch) -> None:
    """The answers to the complete requests stay."""
    cases = CASES[:5]
    requests = b"".join(case.request() for case in cases)
    for end in range(len(requests) + 1):
        output, rest = b"", end
        for case in cases:
            if rest < len(case.request()):
                break
            rest -= len(case.request())
            output += case.answer()
        check(batch(requests[:end]), output, is_fault=rest > 0)


def test_a_client_writes_and_reads_in_turns(client: Client) -> None:
    for case in CASES * 3:
        client.write(case.request())
        result = client.answer()
        assert result == case.answer(), f"{case.command} of {case.page.hex()}"
    assert client.end() == (0, b"", b"")


def test_no_answer_comes_before_the_last_byte_of_its_request(client: Client) -> None:
    for case in CASES[:5]:
        *bytes_before, last = case.request()
        for byte in bytes_before:
            client.write(bytes([byte]))
        assert client.is_silent(), f"{case.command} of {case.page.hex()} is answered too early"
        client.write(bytes([last]))
        assert client.answer() == case.answer(), f"{case.command} of {case.page.hex()}"
    assert client.end() == (0, b"", b"")


def test_a_client_writes_ahead(client: Client) -> None:
    """One thread writes while another reads."""
    cases = CASES * 400

    def write() -> None:
        for case in cases:
            client.write(case.request())

    writer = threading.Thread(target=write)
    writer.start()
    results = [client.answer() for _ in cases]
    writer.join()
    for number, (result, case) in enumerate(zip(results, cases)):
        assert result == case.answer(), f"request {number}: {case.command} of {case.page.hex()}"
    assert client.end() == (0, b"", b"")


def test_a_page_of_the_greatest_length(batch: Batch) -> None:
    page = b"\x0f" + b"A" * (MAX_PAGE - 1)
    result = batch(request("check", 0, page) + GOOD.request())
    check(result, answer(f"accepted {MAX_PAGE - 1} entries") + GOOD.answer())


def test_an_answer_of_more_than_a_hundred_megabytes(batch: Batch) -> None:
    count = 1600000
    lines = b"".join(f"CHAR primary 41 pen={pen} {SIGNS}\n".encode() for pen in ["start"] + ["after"] * (count - 1))
    assert len(lines) > 100000000
    result = batch(request("list", 0, b"\x0f" + b"A" * count) + GOOD.request())
    is_same = result.out == answer(f"accepted {count} entries", lines) + GOOD.answer()  # (no difference is printed)
    assert is_same, f"{len(result.out)} bytes"
    assert (result.status, result.err) == (0, b"")


def test_lack_of_memory_ends_no_run(batch: Batch) -> None:
    """Pages that need memory, and a good page after each, in one process with little memory."""
    page = b"\x0f" + b"A" * (MAX_PAGE - 1)
    short = b"\x0f" + b"A" * 500000
    # The first needs memory for the page, the next ones for their lines and entries.
    requests = [("check", page), ("list", short), ("places", short), ("canon", page)]
    text = b"".join(request(command, USUAL, page) + GOOD.request() for command, page in requests)
    result = batch(text, 12 * 1024 * 1024)
    assert (result.status, result.err) == (0, b"")
    rest = result.out
    for command, _ in requests:
        first, rest = take_answer(rest)
        line, _, body = first.partition(b"\n")
        is_lack = line == b"no memory" or line.startswith(b"refused 21 Memory at ")
        assert is_lack and body == b"0\n", f"{command}: {first[:80]!r}"
        second, rest = take_answer(rest)
        assert second == GOOD.answer(), f"after {command}"
    assert rest == b""


def test_many_requests_take_no_more_memory_than_one(batch: Batch) -> None:
    cases = CASES * 2000
    result = batch(b"".join(case.request() for case in cases), 12 * 1024 * 1024)
    check_answers(result.out, ((f"{case.command} of {case.page.hex()}", case.answer()) for case in cases))
    assert (result.status, result.err) == (0, b"")
