"""Compares naplps_make with a model on lines by chance.

The model is dev/fuzzing/line_model.py. Lines come from lists, or are of any kind, and most are changed in some
places. The lines of a page that was made are those that made it. In a quarter of the inputs calls of the allocator are
refused, one or all from one on: the answer is lack of memory if there was such a call, or tells of a wrong line. The
same seed gives the same lines. It prints how far it is. NAPLPS_LIBRARY names the folder of the library. The last line
is 'N passed, M failed', in inputs.
"""
import ctypes
import multiprocessing
import os
import sys
import tempfile
import time
from pathlib import Path
from typing import List, NamedTuple, Optional, Tuple

from dev.fuzzing.library_tests import WRAPPED, build
from dev.fuzzing.line_model import NO_LINE, fault_of
from dev.fuzzing.random_lines import RandomLines
from dev.fuzzing.streams import Streams
from dev.judging import Judge
from dev.layout import find_library
from dev.vectors.lines import rows
from dev.words import parser_of
from naplps.backends import AnswerStruct, MadeStruct

ACCEPTED, SMALL_ROOM, NO_MEMORY = 0, 2, 4
CHUNK = 2000
LISTS = 400
# Of so many inputs one has calls of the allocator refused.
REFUSED = 4
NEVER, FOR_GOOD = 0, 1 << 40


class Library(NamedTuple):
    """The library, with an allocator that refuses."""

    handle: ctypes.CDLL

    @classmethod
    def of(cls, name: str) -> "Library":
        """The library in a file."""
        handle = ctypes.CDLL(name)
        handle.make_refusing.restype, handle.naplps_list.restype = MadeStruct, AnswerStruct
        return cls(handle)

    def make(self, lines: bytes, size: int, begin: int, end: int) -> Tuple[MadeStruct, bytes, Tuple[int, int]]:
        """What lines make in a room, with calls of the allocator refused; how many there were, and blocks left."""
        room, told = ctypes.create_string_buffer(max(size, 1)), (ctypes.c_long * 2)()
        given = ctypes.c_size_t(len(lines)), room, ctypes.c_size_t(size), ctypes.c_long(begin), ctypes.c_long(end)
        made = self.handle.make_refusing(lines, *given, told)
        return made, room.raw[:size], (told[0], told[1])

    def list(self, page: bytes, budget: int = 0) -> Optional[bytes]:
        """The lines of a page, if it is accepted."""
        asked = ctypes.c_uint32(budget), page, ctypes.c_size_t(len(page))
        need = self.handle.naplps_list(*asked, None, ctypes.c_size_t(0))
        if need.status not in (ACCEPTED, SMALL_ROOM):
            return None
        room = ctypes.create_string_buffer(max(need.length, 1))
        self.handle.naplps_list(*asked, room, ctypes.c_size_t(need.length))
        return room.raw[: need.length]


def lists_of(library: Library, seed: str) -> List[bytes]:
    """Lists of pages by chance, and of the vectors of lines."""
    found, streams = [row.lines for row in rows() if row.text and row.lines], Streams(int(seed))
    while len(found) < LISTS:
        budget, page = streams.next()
        lines = library.list(page, budget)
        if lines:
            found.append(lines)
    return found


def wrong(library: Library, lines: bytes, begin: int, end: int) -> Optional[str]:
    """What is wrong with the answer to lines, with these calls of the allocator refused."""
    fault = fault_of(lines)
    made, _, (calls, left) = library.make(lines, 0, begin, end)
    told = made.fault, made.line, made.column, made.opening
    if left:
        return f"{left} blocks were left"
    if begin and calls >= begin and told == (NO_MEMORY, 0, 0, 0):
        return None
    if begin and calls >= begin and (fault is None or fault[0] != NO_LINE):
        return f"a refused allocation gave {told}"
    if told != (fault or (0, 0, 0, 0)):
        return f"wanted {fault}, got {told}"
    if fault is not None or begin:
        return None
    page = library.make(lines, made.length, NEVER, NEVER)[1]
    return None if made.count == lines.count(b"\n") and library.list(page) == lines else f"it made {page!r}"


def try_chunk(asked: Tuple[str, str, int]) -> Tuple[int, List[str]]:
    """Tries a number of inputs, and answers how many of them lacked memory, and what was wrong."""
    name, seed, count = asked
    library, found, refused = Library.of(name), [], 0
    lines_by_chance = RandomLines(seed, lists_of(library, seed))
    for number in range(count):
        lines, begin, end = lines_by_chance.next(), NEVER, NEVER
        if number % REFUSED == 0:
            calls = library.make(lines, 0, NEVER, NEVER)[2][0]
            begin = 1 + number // REFUSED % max(calls, 1)
            end = begin if number % (2 * REFUSED) else FOR_GOOD
            refused += calls > 0
        what = wrong(library, lines, begin, end)
        if what is not None:
            found.append(f"{lines!r}, {begin} to {end} refused: {what}")
    return refused, found


def compare(judge: Judge, name: str, seed: int, count: int) -> None:
    """Compares so many inputs, as many processes as there are processors at once."""
    start, said, done, refused = time.monotonic(), 0.0, 0, 0
    chunks = [(name, str(seed * 1_000_000 + begin // CHUNK), min(CHUNK, count - begin))
              for begin in range(0, count, CHUNK)]
    with multiprocessing.Pool(len(os.sched_getaffinity(0))) as pool:
        for lacked, found in pool.imap(try_chunk, chunks):
            done, refused = min(count, done + CHUNK), refused + lacked
            for what in found:
                judge.take(False, what)
            if time.monotonic() - start - said > 10:
                said = time.monotonic() - start
                print(f"{done} of {count} inputs after {said:.0f} s", flush=True)
    judge.passed += count - judge.failed
    judge.close(f"{count} inputs by chance, of which {refused} lacked memory, from the seed {seed}")


def main() -> int:
    """Compares, and answers the status."""
    parser = parser_of(__doc__)
    parser.add_argument("--inputs", type=int, default=2_000_000, metavar="N", help="how many, in place of two million")
    parser.add_argument("--seed", type=int, default=1, metavar="S", help="another seed gives other lines")
    words = parser.parse_args()
    judge = Judge()
    with tempfile.TemporaryDirectory() as folder:
        made = build(Path(folder), "refusing", find_library(), ["-O2", "-shared", "-fPIC", *WRAPPED])
        compare(judge, str(made), words.seed, words.inputs)
    return judge.end()


if __name__ == "__main__":
    sys.exit(main())
