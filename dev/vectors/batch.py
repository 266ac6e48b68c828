"""A program's `batch`: many pages through one process."""
import subprocess
import threading
from typing import IO, Iterable, Iterator, List, NamedTuple, Sequence, Tuple

from dev.judging import PATIENCE, limit_processor

SECONDS = 1200  # a program that takes more of a processor is stopped

Request = Tuple[str, int, bytes]


class Body(NamedTuple):
    """An answer: its line and its bytes."""

    line: str
    data: bytes


def answers(words: Sequence[str], groups: Iterable[List[Request]]) -> Iterator[List[Body]]:
    """What a program answers to groups of requests, each a command, a budget and a page.

    The requests of a group are written ahead of its answers, and those are awaited before the next group is written.
    """
    with subprocess.Popen(words, stdin=subprocess.PIPE, stdout=subprocess.PIPE) as process:
        assert process.stdin is not None and process.stdout is not None
        limit_processor(process.pid, SECONDS)
        watch = threading.Timer(PATIENCE, process.kill)
        watch.start()
        try:
            for group in groups:
                writer = threading.Thread(target=_write, args=(process.stdin, group), daemon=True)
                writer.start()
                yield [_body(process.stdout) for _ in group]
                writer.join()
            process.stdin.close()
            if process.wait() != 0:
                raise ValueError(f"batch ended with the status {process.returncode}")
        finally:
            watch.cancel()


def _write(to: "IO[bytes]", group: List[Request]) -> None:
    """Writes requests. Where the program has ended, it is the lack of answers that tells."""
    try:
        for command, budget, page in group:
            to.write(f"{command} {budget} {len(page)}\n".encode() + page)
        to.flush()
    except BrokenPipeError:
        pass


def _body(source: "IO[bytes]") -> Body:
    line, size = source.readline(), source.readline()
    if not size.endswith(b"\n"):
        raise ValueError("batch ended amid an answer")
    return Body(line.decode("ascii").rstrip("\n"), source.read(int(size)))
