"""Records for the module for browsers and for the library: pages and lists, from the vectors and by chance."""
import random
import struct
from pathlib import Path
from typing import Iterable, Iterator, List

from dev.fuzzing.streams import Streams
from dev.vectors.lines import rows
from dev.vectors.notation import lines_of
from dev.vectors.rows import Vector

PAGE, LINES = 0, 1
# The longest list that is changed.
LONGEST = 4000
DIGITS = b"0123456789,-= /:abcPOINT\n"


def record(kind: int, budget: int, data: bytes) -> bytes:
    """A record, as tests/library/records.c reads it."""
    return struct.pack("<III", kind, budget, len(data)) + data


def of_vectors(vectors: List[Vector]) -> Iterator[bytes]:
    """The streams of vectors, and the lists of lines.rows."""
    yield from (record(PAGE, vector.budget, vector.data) for vector in vectors)
    yield from (record(LINES, 0, row.lines) for row in rows())


def of_streams(count: int, seed: int) -> Iterator[bytes]:
    """Streams by chance."""
    streams = Streams(seed)
    for _ in range(count):
        budget, data = streams.next()
        yield record(PAGE, budget, data)


def of_changed_lists(vectors: List[Vector], count: int, seed: int) -> Iterator[bytes]:
    """Lists of vectors, most of them changed."""
    lists = ["".join(f"{line}\n" for line in lines_of(vector.list)).encode() for vector in vectors if vector.accepted]
    lists = [text for text in lists if len(text) < LONGEST]
    chance = random.Random(seed)
    for _ in range(count):
        text = bytearray(chance.choice(lists))
        for _ in range(chance.choice((0, 1, 1, 1, 2, 5))):
            change(text, chance, lists)
        yield record(LINES, 0, bytes(text))


def change(text: bytearray, chance: random.Random, lists: List[bytes]) -> None:
    """Changes a list: a byte of it is another, some are taken out, part of another list is put in, or its lines are
    shuffled."""
    begin = chance.randrange(len(text) + 1)
    kind = chance.randrange(4)
    if kind == 0 and begin < len(text):
        text[begin] = chance.choice(DIGITS) if chance.random() < 0.8 else chance.randrange(256)
    elif kind == 1:
        del text[begin : begin + chance.choice((1, 1, 3, 40))]
    elif kind == 2:
        text[begin:begin] = chance.choice(lists)[: chance.choice((1, 60, 300))]
    else:
        lines = bytes(text).splitlines(True)
        chance.shuffle(lines)
        text[:] = b"".join(lines)


def parted(answers: bytes) -> List[bytes]:
    """The answers of each record."""
    found, begin = [], 0
    while begin + 4 <= len(answers):
        end = begin + 4 + struct.unpack_from("<I", answers, begin)[0]
        found.append(answers[begin:end])
        begin = end
    return found


def write(path: Path, records: Iterable[bytes]) -> None:
    """Writes records into a file."""
    with path.open("wb") as file:
        file.writelines(records)
