"""Streams by chance, the same ones for the same seed: pieces of pages, vectors that are damaged, and bytes."""
import random
from typing import Callable, List, Tuple

from dev.vectors.rows import files, vectors_of

# A macro that calls itself charges all of its budget, and adds as many entries.
BUDGETS = (0, 3, 20, 300, 5000)
# The longest vector that is damaged, and the longest piece of one.
LONGEST = 300
SHIFTS = (b"\x0e", b"\x0f", b"\x19", b"\x1d", b"\x1bn", b"\x1bo")
SETS = (b"\x1b(B", b"\x1b)W", b"\x1b*z", b"\x1b+z", b"\x1b*}", b"\x1b(|", b"\x1b-k")
MACRO_ENDS = (b"\x1bE", b"\x1bE", b"\x1bA", b"\x1b@")


class Streams:
    """Streams and budgets, by a seed."""

    def __init__(self, seed: int) -> None:
        self._chance = random.Random(seed)
        every = [vector.data for file in files() for vector in vectors_of(file)]
        self._vectors: List[bytes] = [data for data in every if len(data) <= LONGEST]
        self._kinds: Tuple[Callable[[], bytes], ...] = (
            self._page, self._page, self._damaged, self._damaged, self._noise,
        )

    def next(self) -> Tuple[int, bytes]:
        """A budget and a stream."""
        return self._chance.choice(BUDGETS), self._chance.choice(self._kinds)()

    def _noise(self) -> bytes:
        most = self._chance.choice((128, 128, 256))
        return bytes(self._chance.randrange(most) for _ in range(self._chance.randrange(24)))

    def _page(self) -> bytes:
        pieces = (self._opcode, self._opcode, self._opcode, self._text, self._control, self._macro)
        start = self._chance.choice((b"", b"\x0e", b"\x0f"))
        return start + b"".join(self._chance.choice(pieces)() for _ in range(self._chance.randrange(9)))

    def _opcode(self) -> bytes:
        words = self._chance.choice((0, 1, 2, 3, 6, 8, 9, 16, 40))
        run = bytes(0x40 | self._chance.randrange(64) for _ in range(words))
        return b"\x0e" * self._chance.randrange(2) + bytes([self._chance.randrange(0x20, 0x40)]) + run

    def _text(self) -> bytes:
        letters = bytes(self._chance.randrange(0x20, 0x80) for _ in range(self._chance.randrange(12)))
        return b"\x0f" * self._chance.randrange(2) + letters

    def _control(self) -> bytes:
        return self._chance.choice((
            self._chance.choice(SHIFTS),
            self._chance.choice(SETS),
            bytes([self._chance.randrange(0x20)]),
            b"\x1b" + bytes([self._chance.randrange(0x40, 0x60)]),
            b"\x1b\x46" + bytes([0x40 | self._chance.randrange(64)]),
        ))

    def _macro(self) -> bytes:
        """A macro, and a call of it or of another."""
        name = bytes([self._chance.choice((0x20, 0x41, 0x7F))])
        body = self._chance.choice((self._opcode, self._text, self._control))()
        ends = self._chance.choice(MACRO_ENDS)
        call = self._chance.choice((b"\x1b+z\x1d", b"\x1b*z\x19", b"\x1d")) + self._chance.choice((name, b"\x41"))
        return b"\x1b" + self._chance.choice((b"\x40", b"\x41", b"\x42")) + name + body + ends + call

    def _damaged(self) -> bytes:
        """A vector with bytes taken out, put in or changed."""
        data = bytearray(self._chance.choice(self._vectors))
        for _ in range(self._chance.randrange(4)):
            at = self._chance.randrange(len(data) + 1)
            end = min(len(data), at + self._chance.choice((0, 1, 1, 4)))
            other = self._chance.choice(self._vectors)
            start = self._chance.randrange(len(other) + 1)
            data[at:end] = self._chance.choice((b"", bytes([self._chance.randrange(256)]), other[start : start + 12]))
        return bytes(data)
