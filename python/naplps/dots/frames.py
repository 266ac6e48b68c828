"""Rasters as PNG: one picture, or frames over time."""
import struct
import zlib
from typing import Dict, Iterator, List, NamedTuple, Optional, Sequence, Tuple

from ..entry import Blink, Entry, Wait
from .surface import ACROSS, MARK, UP, colour_of
from .walk import DotWalk

MAGIC = b"\x89PNG\r\n\x1a\n"
STORED = 65535


def chunk(name: bytes, body: bytes) -> bytes:
    """A chunk of a PNG file."""
    return struct.pack(">I", len(body)) + name + body + struct.pack(">I", zlib.crc32(name + body))


def stored(data: bytes) -> bytes:
    """Bytes as a stream of zlib, in blocks that are stored as they are."""
    blocks: List[bytes] = [b"\x78\x01"]
    for at in range(0, max(len(data), 1), STORED):
        block = data[at:at + STORED]
        blocks.append(struct.pack("<BHH", at + STORED >= len(data), len(block), len(block) ^ 0xFFFF) + block)
    return b"".join(blocks) + struct.pack(">I", zlib.adler32(data))


def header(wide: int, high: int) -> bytes:
    """The first chunk of a picture in eight bits each of red, green and blue."""
    return chunk(b"IHDR", struct.pack(">IIBBBBB", wide, high, 8, 2, 0, 0, 0))


def scanlines(rows: Sequence[Sequence[int]], scale: int) -> Iterator[bytes]:
    """Rows of colours as PNG has them, each dot as a square of `scale` pixels."""
    known = {}
    for row in rows:
        line = bytearray(1)
        for colour in row:
            if colour not in known:
                known[colour] = colour.to_bytes(3, "big") * scale
            line += known[colour]
        yield bytes(line) * scale


def png(rows: Sequence[Sequence[int]], scale: int = 1) -> bytes:
    """A picture with these rows of colours, from the top down, as red * 65536 + green * 256 + blue."""
    body = stored(b"".join(scanlines(rows, scale)))
    head = header(len(rows[0]) * scale, len(rows) * scale)
    return MAGIC + head + chunk(b"IDAT", body) + chunk(b"IEND", b"")


# The most frames, and pictures that are compared for them; how often a picture is taken while a page comes, in
# milliseconds, and how long its end is shown.
MOST_FRAMES, MOST_LOOKS, STEP, END = 500, 1000, 100, 5000
# Bits of a byte on the line; what is marked to blink is dark for the second half of so many milliseconds.
BITS, PERIOD = 10, 1000
Colours = Dict[int, int]


class Frame(NamedTuple):
    """A picture as rows of colours from the top down, and for how many milliseconds it is shown."""

    rows: Tuple[Tuple[int, ...], ...]
    shown: int


class Moving(NamedTuple):
    """The frames of a page, and whether there are more than could be kept."""

    frames: List[Frame]
    was_cut: bool


class _Film:
    """Goes through the time of a page, and keeps a frame where the picture has changed."""

    def __init__(self, walk: DotWalk) -> None:
        self.walk = walk
        self.frames: List[Frame] = []
        self.now = self.looks = 0
        self.is_still, self.has_changed = False, True
        self.began: Dict[int, Tuple[Blink, int]] = {}

    def go_to(self, time: int) -> bool:
        """Shows what is there up to a time; whether there is room for more."""
        while self.now < time:
            step = min(STEP - self.now % STEP, time - self.now)
            if self.is_still and not self.has_changed:
                self.frames[-1] = self.frames[-1]._replace(shown=self.frames[-1].shown + time - self.now)
                self.now = time
                break
            if self.looks == MOST_LOOKS:
                return False
            self.looks += 1
            rows = self._rows()
            self.has_changed = False
            step = time - self.now if self.is_still else step
            if self.frames and self.frames[-1].rows == rows:
                self.frames[-1] = self.frames[-1]._replace(shown=self.frames[-1].shown + step)
            elif len(self.frames) == MOST_FRAMES:
                return False
            else:
                self.frames.append(Frame(rows, step))
            self.now += step
        return True

    def note_change(self) -> None:
        """Keeps that the picture may be another one, and when each blink began."""
        self.has_changed = True
        blinks = self.walk.blinks
        self.began = {ink: self.began[ink] if ink in self.began and self.began[ink][0] is blink else (blink, self.now)
                      for ink, blink in blinks.items()}

    def _rows(self) -> Tuple[Tuple[int, ...], ...]:
        inks = self.walk.page.canvas.inks
        some = set(inks)
        colours = {ink: self._colour(ink) for ink in some}
        self.is_still = not any(ink & MARK or ink & ~MARK in self.began for ink in some)
        shown = [colours[ink] for ink in inks]
        return tuple(tuple(shown[at:at + ACROSS]) for at in range((UP - 1) * ACROSS, -1, -ACROSS))

    def _colour(self, ink: int) -> int:
        """The colour of an ink now."""
        if ink & MARK and self.now % PERIOD >= PERIOD // 2:
            return 0
        bare = ink & ~MARK
        blink, start = self.began.get(bare, (None, 0))
        if blink is not None and _is_on(blink, self.now - start):
            bare = blink.address
        return colour_of(bare, self.walk.colour_map)


def _is_on(blink: Blink, since: int) -> bool:
    """Whether a blink shows its other colour, so many milliseconds after it began; its lengths are in tenths."""
    at = since // 100 - blink.delay
    return at >= 0 and blink.on > 0 and (not blink.off or at % (blink.on + blink.off) < blink.on)


def moving(entries: Sequence[Entry], places: Sequence[Optional[int]], speed: int) -> Moving:
    """The page with these entries, each of which came with the byte at its place, on a line of so many bits a second.

    Where it blinks at its end, the end has two seconds or more of that.
    """
    walk = DotWalk(entries)
    film, waited, room = _Film(walk), 0, True
    for number in walk.steps():
        place, entry = places[number], entries[number]
        if isinstance(entry, Wait):
            waited += 100 * entry.tenths
        else:
            film.note_change()
        after = places[number + 1] if number + 1 < len(entries) else place
        time = ((place if after is None else after) or 0) * BITS * 1000 // speed + waited
        room = film.go_to(time)
        if not room:
            break
    room = room and film.go_to(film.now + END)
    return Moving(film.frames, not room)


def apng(frames: Sequence[Frame], scale: int) -> bytes:
    """A moving picture as PNG, which is repeated. Viewers that show no movement show its first frame."""
    out = [MAGIC, header(ACROSS * scale, UP * scale), chunk(b"acTL", struct.pack(">II", len(frames), 0))]
    before: Sequence[Sequence[int]] = ()
    sequence = 0
    for rows, shown in frames:
        top, low = _changed(rows, before)
        place = struct.pack(">IIIII", sequence, ACROSS * scale, (low - top) * scale, 0, top * scale)
        out.append(chunk(b"fcTL", place + struct.pack(">HHBB", min(shown, 65535), 1000, 0, 0)))
        body = stored(b"".join(scanlines(rows[top:low], scale)))
        # (the first frame is the picture of viewers that show no movement)
        out.append(chunk(b"fdAT", struct.pack(">I", sequence + 1) + body) if before else chunk(b"IDAT", body))
        sequence += 2 if before else 1
        before = rows
    return b"".join(out + [chunk(b"IEND", b"")])


def _changed(rows: Sequence[Sequence[int]], before: Sequence[Sequence[int]]) -> Tuple[int, int]:
    """The first row that differs from the frame before, and the one after the last; one row where none does."""
    if not before:
        return 0, len(rows)
    changed = [at for at, (row, old) in enumerate(zip(rows, before)) if row != old] or [0]
    return changed[0], changed[-1] + 1
