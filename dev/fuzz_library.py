"""Compares the library with the program on streams by chance.

Each stream is asked of `naplps batch`, and of tests/library/requests.c, by calls of the library in one process, with
rooms of several sizes; and its list is made into a page again. Both have to write the same bytes. The same seed gives
the same streams. It prints how far it is. NAPLPS names the program, and NAPLPS_LIBRARY the folder of the library. The
last line is 'N passed, M failed', in streams.
"""
import sys
import tempfile
import time
from pathlib import Path
from subprocess import PIPE
from typing import Iterator, List, NamedTuple, Tuple

from dev.fuzzing.library_tests import build
from dev.fuzzing.streams import Streams
from dev.judging import Judge, run
from dev.layout import find_library, find_program
from dev.vectors.batch import answers
from dev.words import parser_of

COMMANDS = ("check", "list", "canon", "places")
# What the program doesn't know; the runner tries these against the others.
OWN = ("form1", "plain")
CHUNK = 2000

Asked = List[Tuple[int, bytes]]


class Both(NamedTuple):
    """The program, and the test that answers the same requests by the library."""

    program: Path
    requests: Path


def requests_of(streams: Asked, commands: Tuple[str, ...]) -> Iterator[bytes]:
    """What is asked of streams."""
    for budget, stream in streams:
        for command in commands:
            yield f"{command} {budget} {len(stream)}\n".encode() + stream


def lists_of(both: Both, streams: Asked) -> Asked:
    """The lists of those streams that are accepted, each as it is and with a byte more in its midst."""
    asked = [("list", budget, stream) for budget, stream in streams]
    told = next(answers([str(both.program), "batch"], [asked]))
    lists = [body.data for body in told if body.line.startswith("accepted ")]
    damaged = [text[: len(text) // 2] + b"0" + text[len(text) // 2 :] for text in lists]
    return [(0, text) for text in lists + damaged]


def agrees(both: Both, streams: Asked) -> bool:
    """Whether both answer streams and their lists alike, and the library what only it knows."""
    text = b"".join([*requests_of(streams, COMMANDS), *requests_of(lists_of(both, streams), ("make",))])
    if run([str(both.program), "batch"], text, stdin=PIPE) != run([str(both.requests)], text, stdin=PIPE):
        return False
    return run([str(both.requests)], b"".join(requests_of(streams, OWN)), stdin=PIPE).status == 0


def lost(both: Both, streams: Asked) -> Asked:
    """The streams on which both don't agree."""
    if agrees(both, streams):
        return []
    if len(streams) == 1:
        return streams
    half = len(streams) // 2
    return lost(both, streams[:half]) + lost(both, streams[half:])


def compare(judge: Judge, both: Both, count: int, seed: int, seconds: float) -> None:
    """Compares `count` streams, a chunk at a time, within a number of seconds; says so where it takes longer."""
    streams, start, done, said = Streams(seed), time.monotonic(), 0, 0.0
    while done < count and time.monotonic() - start < seconds:
        chunk = [streams.next() for _ in range(min(CHUNK, count - done))]
        wrong = lost(both, chunk)
        done += len(chunk)
        judge.passed += len(chunk) - len(wrong)
        for budget, stream in wrong:
            judge.take(False, f"budget {budget}, stream {stream.hex()}")
        if time.monotonic() - start - said > 10:
            said = time.monotonic() - start
            print(f"{done} of {count} streams after {said:.0f} s", flush=True)
    judge.close(f"{done} streams by chance, from the seed {seed}")


def main() -> int:
    """Compares, and answers the status."""
    parser = parser_of(__doc__)
    parser.add_argument("--streams", type=int, default=1_000_000, metavar="N", help="how many, in place of a million")
    parser.add_argument("--seed", type=int, default=1, metavar="S", help="another seed gives other streams")
    parser.add_argument("--minutes", type=float, default=60, metavar="M", help="how long at most, in place of 60")
    words = parser.parse_args()
    judge, library = Judge(), find_library()
    with tempfile.TemporaryDirectory() as folder:
        requests = build(Path(folder), "requests", library, ["-O2"])
        both = Both(find_program(), requests)
        compare(judge, both, words.streams, words.seed, 60 * words.minutes)
    return judge.end()


if __name__ == "__main__":
    sys.exit(main())
