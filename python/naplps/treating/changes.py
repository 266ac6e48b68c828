"""What treatments do to bytes: edits that can be told to the byte, and undone."""
import hashlib
from dataclasses import dataclass, field
from typing import Dict, Iterable, Iterator, List, Tuple

PLAIN = bytes(byte & 0x7F for byte in range(256))
# For each byte whether it has the eighth bit, and whether it has an odd number of bits.
EIGHTH = bytes(byte >> 7 for byte in range(256))
ODD = bytes(bin(byte).count("1") % 2 for byte in range(256))
# Bytes of seven bits with the eighth bit of a parity, or of a mark.
WITH_BITS: Dict[str, bytes] = {
    "even": bytes(byte | 0x80 if ODD[byte] else byte for byte in range(128)) + bytes(range(128, 256)),
    "odd": bytes(byte if ODD[byte] else byte | 0x80 for byte in range(128)) + bytes(range(128, 256)),
    "mark": bytes(byte | 0x80 for byte in range(256))}
# Around the page are bytes and bits that carry no code of it; within it are its codes.
AROUND, WITHIN = "around", "within"


class NotSure(Exception):
    """The treatment isn't sure what the page means, and isn't tried."""


@dataclass(frozen=True)
class Edit:
    """A number of bytes at an offset, and what is put in their place."""

    offset: int
    length: int
    put: bytes = b""


@dataclass(frozen=True)
class Change:
    """What one treatment does: edits in their order, or the eighth bits that it takes off all bytes.

    Offsets are those of the bytes that the treatment is given. `bits` says how many eighth bits are taken off, and
    `parity` whose they are: even, odd or mark. `record` has what a record says that is taken off.
    """

    treatment: str
    grade: str
    what: str
    edits: Tuple[Edit, ...] = ()
    bits: int = 0
    parity: str = ""
    record: Dict[str, str] = field(default_factory=dict)

    @property
    def length(self) -> int:
        """How many bytes are taken away."""
        return sum(edit.length for edit in self.edits)

    @property
    def added(self) -> int:
        """How many bytes are put in."""
        return sum(len(edit.put) for edit in self.edits)

    def applied(self, data: bytes) -> bytes:
        """The bytes as the treatment leaves them."""
        return data.translate(PLAIN) if self.parity else edited(data, self.edits)

    def taken(self, data: bytes) -> List[bytes]:
        """The bytes that each edit takes away from those that the treatment is given."""
        return [data[edit.offset:edit.offset + edit.length] for edit in self.edits]


@dataclass(frozen=True)
class Treated:
    """Bytes after some treatments. They are made when they are asked for, and not kept."""

    source: bytes
    changes: Tuple[Change, ...] = ()

    @property
    def data(self) -> bytes:
        """The bytes after the treatments."""
        data = self.source
        for change in self.changes:
            data = change.applied(data)
        return data

    def steps(self) -> Iterator[Tuple[Change, bytes]]:
        """Each change, with the bytes that it was given."""
        data = self.source
        for change in self.changes:
            yield change, data
            data = change.applied(data)

    @property
    def is_guess(self) -> bool:
        """Whether codes of the page were taken or rewritten."""
        return any(change.grade == WITHIN for change in self.changes)

    @property
    def cost(self) -> Tuple[bool, int, int, int]:
        """How much was changed in all: whether within, treatments, bytes taken away and put in, bits."""
        return (self.is_guess, len(self.changes), sum(each.length + each.added for each in self.changes),
                sum(each.bits for each in self.changes))

    def also(self, change: Change) -> "Treated":
        """These bytes with one more change."""
        return Treated(self.source, self.changes + (change,))


def edited(data: bytes, edits: Iterable[Edit]) -> bytes:
    """The bytes with these edits, which come in their order and don't overlap."""
    pieces: List[bytes] = []
    at = 0
    for edit in edits:
        pieces += data[at:edit.offset], edit.put
        at = edit.offset + edit.length
    return b"".join((*pieces, data[at:]))


def undone(copy: bytes, edits: Iterable[Tuple[int, bytes, bytes]]) -> bytes:
    """The bytes before edits, each given by its offset there, what it took and what it put."""
    pieces: List[bytes] = []
    at = before = 0
    for offset, taken, put in edits:
        kept = offset - before
        assert copy[at + kept:at + kept + len(put)] == put
        pieces += copy[at:at + kept], taken
        at += kept + len(put)
        before = offset + len(taken)
    return b"".join((*pieces, copy[at:]))


def digest(data: bytes) -> bytes:
    """A short hash, by which bytes that were tried are known again."""
    return hashlib.blake2b(data, digest_size=16).digest()
