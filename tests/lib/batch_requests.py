"""Requests to `naplps batch`, their answers, and a client that writes and reads in turns."""
import select
import subprocess
import threading
from typing import Iterable, NamedTuple, Tuple

from dev.judging import PATIENCE, limit_processor, shown

USUAL = 1048576
MAX_BUDGET = 67108864
MAX_PAGE = 16777216


class Case(NamedTuple):
    """A request, and the line and the payload of its answer."""

    command: str
    budget: int
    page: bytes
    line: str
    body: bytes = b""

    def request(self) -> bytes:
        """The bytes of the request."""
        return request(self.command, self.budget, self.page)

    def answer(self) -> bytes:
        """The bytes of the answer."""
        return answer(self.line, self.body)


def request(command: str, budget: int, page: bytes) -> bytes:
    """The bytes of a request."""
    return f"{command} {budget} {len(page)}\n".encode() + page


def answer(line: str, body: bytes = b"") -> bytes:
    """The bytes of an answer."""
    return f"{line}\n{len(body)}\n".encode() + body


def take_answer(text: bytes) -> Tuple[bytes, bytes]:
    """The first answer, and the text after it."""
    line, count, rest = text.split(b"\n", 2)
    return b"%s\n%s\n%s" % (line, count, rest[: int(count)]), rest[int(count):]


def check_answers(output: bytes, answers: Iterable[Tuple[str, bytes]]) -> None:
    """Asserts that an output has these answers and no others; each has a name."""
    offset = 0
    for name, expected in answers:
        result = output[offset: offset + len(expected)]
        assert result == expected, f"{name}: {shown(output[offset: offset + 400])}, expected {shown(expected)}"
        offset += len(expected)
    assert offset == len(output), f"more than the answers: {shown(output[offset:])}"


class Client:
    """A process that is written and read in turns."""

    def __init__(self, program: str) -> None:
        self.process = subprocess.Popen([program, "batch"], stdin=subprocess.PIPE, stdout=subprocess.PIPE,
                                        stderr=subprocess.PIPE)
        assert self.process.stdin and self.process.stdout
        self.input, self.output = self.process.stdin, self.process.stdout
        limit_processor(self.process.pid)
        self.timer = threading.Timer(PATIENCE, self.process.kill)
        self.timer.start()

    def write(self, text: bytes) -> None:
        """Writes all bytes of a text."""
        self.input.write(text)
        self.input.flush()

    def answer(self) -> bytes:
        """Reads an answer, or the bytes before the end of the output."""
        line, count = self.output.readline(), self.output.readline()
        return line + count + self.output.read(int(count or b"0"))

    def is_silent(self) -> bool:
        """Whether the output has nothing yet after the last answer that was read."""
        return not select.select([self.output], [], [], 0.02)[0]

    def end(self) -> Tuple[int, bytes, bytes]:
        """Ends the input: the status, the rest of the output, and the standard error."""
        output, stderr = self.process.communicate()
        return self.process.returncode, output, stderr

    def close(self) -> None:
        """Kills the process where it hasn't ended."""
        self.timer.cancel()
        self.process.kill()
        self.process.communicate()
