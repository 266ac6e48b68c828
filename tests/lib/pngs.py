"""Reads PNG files in colours of eight bits, as renderers write them."""
import struct
import zlib
from itertools import repeat
from pathlib import Path
from typing import List, Tuple


def chunks(data: bytes) -> "List[Tuple[bytes, bytes]]":
    """The name and the body of each chunk, whose sums are right."""
    assert data[:8] == b"\x89PNG\r\n\x1a\n"
    at, found = 8, []
    while at < len(data):
        length, name = struct.unpack(">I4s", data[at:at + 8])
        body, (crc,) = data[at + 8:at + 8 + length], struct.unpack(">I", data[at + 8 + length:at + 12 + length])
        assert crc == zlib.crc32(name + body)
        found.append((name, body))
        at += 12 + length
    return found


def _unfiltered(kind: int, row: bytearray, above: bytes, step: int) -> None:
    for i in range(len(row)):
        left = row[i - step] if i >= step else 0
        up = above[i]
        if kind == 1:
            guess = left
        elif kind == 2:
            guess = up
        elif kind == 3:
            guess = (left + up) // 2
        else:
            corner = above[i - step] if i >= step else 0
            guess = min((left, up, corner), key=lambda each: abs(left + up - corner - each))
        row[i] = (row[i] + guess) & 0xFF


def greys(path: str) -> List[List[int]]:
    """The rows of the picture, as greys from 0 to 255, on black where it is transparent."""
    pieces = chunks(Path(path).read_bytes())
    wide, high, depth, kind = struct.unpack(">IIBB", dict(pieces)[b"IHDR"][:10])
    step = {2: 3, 6: 4}[kind]
    assert depth == 8
    data = zlib.decompress(b"".join(body for name, body in pieces if name == b"IDAT"))
    above, out = bytes(wide * step), []
    for y in range(high):
        at = y * (wide * step + 1)
        row = bytearray(data[at + 1:at + 1 + wide * step])
        if data[at]:
            _unfiltered(data[at], row, above, step)
        above = bytes(row)
        out.append(_greys_of(above, step))
    return out


def _greys_of(row: bytes, step: int) -> List[int]:
    colours = zip(row[0::step], row[1::step], row[2::step], row[3::step] if step == 4 else repeat(255))
    return [((red * 77 + green * 150 + blue * 29) >> 8) * alpha // 255 for red, green, blue, alpha in colours]


def apart(one: List[List[int]], other: List[List[int]]) -> float:
    """How many grey levels two pictures of one size are apart, on average."""
    assert (len(one), len(one[0])) == (len(other), len(other[0]))
    differences = sum(abs(a - b) for row, row2 in zip(one, other) for a, b in zip(row, row2))
    return differences / (len(one) * len(one[0]))
