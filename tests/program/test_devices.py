"""Outputs that are full, closed or have no reader, inputs that can't be read, and terminals."""
import os
import pty
import subprocess
import termios
from pathlib import Path
from typing import Any, Callable, Dict, IO, Iterator, Tuple

import pytest

from dev.judging import Answer, fault, run
from fault_pages import CENTRE, CENTRE_LINE, HEADER, POINT, Page, Words, name_of

REFUSED = Page("refused", "0e26524040287f", [CENTRE], [CENTRE_LINE], "refused 10 Outside at 5")
EMPTY = Page("empty", b"")
WRITE_FAULT = fault(b"write fault after 0 bytes")
commands = pytest.mark.parametrize("words", [["list"], ["check"], ["canon"], ["canon", "--stream"]], ids=name_of)
full_device = pytest.mark.skipif(not os.path.exists("/dev/full"), reason="there is no /dev/full")


def read_fault(words: Words) -> Answer:
    """The answer of a command that can't read: a stream has begun."""
    return fault(b"read fault", HEADER if "--stream" in words else b"")


def shut(*files: int) -> Callable[[], None]:
    """Closes files in the child, before it becomes the program."""
    def close() -> None:
        for file in files:
            os.close(file)
    return close


@pytest.fixture
def full() -> "Iterator[IO[bytes]]":
    """A device that is full."""
    with open("/dev/full", "wb") as device:
        yield device


@commands
@pytest.mark.parametrize("page", [POINT, REFUSED], ids=["accepted", "refused"])
class TestOutputs:
    """With pages that are accepted and refused. The output is flushed also where it is empty."""

    @pytest.fixture
    def check(self, program_file: str, tmp_path: Path, words: Words, page: Page) -> Callable[..., None]:
        """Runs the command with outputs of its own, and compares the answer."""
        def checks(expected: Answer, **options: Any) -> None:
            path = tmp_path / "page.nap"
            path.write_bytes(page.stream)
            with open(path, "rb") as source:
                answer = run([program_file, *words], stdin=source, **options)
            assert answer == expected, f"{answer}, expected {expected}"
        return checks

    @pytest.fixture
    def whole(self, words: Words, page: Page) -> Answer:
        """The answer where no output fails."""
        return page.answer(words)

    @pytest.fixture
    def failed(self, whole: Answer) -> Answer:
        """The answer where standard output fails."""
        return WRITE_FAULT if whole.out else whole

    @full_device
    def test_full_device(self, check: Callable[..., None], failed: Answer, full: "IO[bytes]") -> None:
        check(failed, stdout=full)

    def test_pipe_without_a_reader(self, check: Callable[..., None], failed: Answer) -> None:
        ending, beginning = os.pipe()
        os.close(ending)
        with open(beginning, "wb") as pipe:
            check(failed, stdout=pipe)

    def test_closed_output(self, check: Callable[..., None], failed: Answer) -> None:
        check(failed, stdout=None, preexec_fn=shut(1))

    def test_output_that_is_not_to_be_written(self, check: Callable[..., None], failed: Answer) -> None:
        with open(__file__, "rb") as unwritable:
            check(failed, stdout=unwritable)

    def test_closed_error(self, check: Callable[..., None], whole: Answer) -> None:
        check(Answer(whole.status, whole.out), stderr=None, preexec_fn=shut(2))

    @full_device
    def test_full_device_for_errors(self, check: Callable[..., None], whole: Answer, full: "IO[bytes]") -> None:
        check(Answer(whole.status, whole.out), stderr=full)

    def test_closed_outputs(self, check: Callable[..., None], failed: Answer) -> None:
        check(Answer(failed.status), stdout=None, stderr=None, preexec_fn=shut(1, 2))


@full_device
@pytest.mark.parametrize("words", [["--help"], ["list", "--help"]], ids=name_of)
def test_help_on_a_full_device(program_file: str, full: "IO[bytes]", words: Words) -> None:
    assert run([program_file, *words], stdin=subprocess.DEVNULL, stdout=full) == WRITE_FAULT


@commands
class TestInputs:
    """Inputs that can't be read."""

    @pytest.mark.parametrize("name, flags", [("", os.O_RDONLY), ("new", os.O_WRONLY | os.O_CREAT)],
                             ids=["a folder", "not to be read"])
    def test_unreadable(self, program_file: str, tmp_path: Path, words: Words, name: str, flags: int) -> None:
        unreadable = os.open(tmp_path / name, flags)
        answer = run([program_file, *words], stdin=unreadable)
        os.close(unreadable)
        assert answer == read_fault(words)

    @pytest.mark.parametrize("closed, expected", [((0,), read_fault), ((0, 1, 2), lambda words: Answer(3))],
                             ids=["input", "all three"])
    def test_closed(self, program_file: str, words: Words, closed: Tuple[int, ...],
                    expected: Callable[[Words], Answer]) -> None:
        options: Dict[str, Any] = {name: None for name, file in (("stdout", 1), ("stderr", 2)) if file in closed}
        assert run([program_file, *words], stdin=None, preexec_fn=shut(*closed), **options) == expected(words)

    @full_device
    def test_closed_input_and_full_device(self, program_file: str, full: "IO[bytes]", words: Words) -> None:
        answer = run([program_file, *words], stdin=None, stdout=full, preexec_fn=shut(0))
        expected = WRITE_FAULT if "--stream" in words else fault(b"read fault")
        assert answer == expected, f"{answer}, expected {expected}"


def open_terminal() -> Tuple[int, int]:
    """The two sides of a terminal that doesn't echo."""
    master, slave = pty.openpty()
    modes = termios.tcgetattr(slave)
    modes[3] &= ~termios.ECHO
    termios.tcsetattr(slave, termios.TCSANOW, modes)
    return master, slave


@commands
class TestTerminals:
    """Terminals as inputs."""

    # The first of the two ends sends the page, the second ends the input.
    @pytest.mark.parametrize("page, ends", [(EMPTY, b"\x04"), (POINT, b"\x04\x04")], ids=str)
    def test_typed(self, program_file: str, words: Words, page: Page, ends: bytes) -> None:
        master, slave = open_terminal()
        os.write(master, page.stream + ends)
        answer = run([program_file, *words], stdin=slave)
        os.close(slave)
        os.close(master)
        assert answer == page.answer(words)

    def test_terminal_that_is_gone(self, program_file: str, words: Words) -> None:
        """Whether a terminal whose other side is gone fails or ends is the system's choice."""
        master, slave = open_terminal()
        os.close(master)
        answer = run([program_file, *words], stdin=slave)
        os.close(slave)
        assert answer in (read_fault(words), EMPTY.answer(words)), str(answer)
