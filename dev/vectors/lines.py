"""Vectors of lines that are read back: a list, and the canonical stream that it makes, or what is told of it."""
import re
from typing import Iterator, NamedTuple, Optional

from dev.vectors.notation import bytes_of, lines_of
from dev.vectors.rows import FOLDER

FILE = FOLDER / "lines.rows"
BYTE = re.compile(rb"\\x([0-9A-F]{2})")
# The last line has no end.
CUT = b"\\c\n"


class Row(NamedTuple):
    """Where a vector of lines stands, its lines, and the canonical stream that they make, or what is told of them."""

    place: str
    lines: bytes
    text: Optional[bytes]
    told: bytes


def text_of(field: str) -> bytes:
    """The bytes of lines: each has its end, but the last one before `\\c`; `\\x0D` is a byte."""
    text = "".join(line + "\n" for line in lines_of(field)).encode("ascii")
    if text.endswith(CUT):
        text = text[: -len(CUT)]
    return BYTE.sub(lambda found: bytes([int(found[1], 16)]), text)


def rows() -> Iterator[Row]:
    """The rows of the file; raises ValueError where a line has another form."""
    for number, line in enumerate(FILE.read_text("ascii").splitlines(), 1):
        if line.startswith("#"):
            continue
        lines, bar, result = line.partition(" | ")
        if not bar:
            raise ValueError(f"{FILE.name}:{number}: no row of lines")
        told = result.startswith("line ")
        text = None if told else bytes_of(result)
        yield Row(f"{FILE.name}:{number}", text_of(lines), text, result.encode("ascii") if told else b"")
