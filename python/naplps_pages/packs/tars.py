"""Tar files, plain or packed by gzip, read as a stream: no list of the members is kept."""
import os
import re
import zlib
from dataclasses import dataclass
from typing import IO, Callable, Iterator, List, NamedTuple, Optional, Tuple, Union

from .. import messages
from ..collection.tables import MAX_NUMBER, READ
from . import Damage, Member, PackLimits, named, other, passed_over, taken

GZIP = b"\x1f\x8b"
# Bytes that are read and unpacked at a time.
PIECE, UNPACKED = 1 << 14, 1 << 18
# How many times as long as packed the passed-over bytes may be; this isn't looked at before LEAST bytes.
MOST_RATIO, LEAST = 100, 1 << 24
# The greatest number of places to go back to, and the bytes between them at first.
MOST_KEPT, APART = 128, 1 << 18


class Plain:
    """The bytes of a file."""

    def __init__(self, file: IO[bytes]) -> None:
        self.file, self.size = file, os.fstat(file.fileno()).st_size

    def tell(self) -> int:
        """How many bytes stand before what is read next."""
        return self.file.tell()

    def seek(self, at: int) -> None:
        """Goes to a place. Raises Damage where the file ends before it."""
        if at > self.size:
            raise Damage(messages.PACK_CUT.format(at=self.size))
        self.file.seek(at)

    def pass_over(self, at: int) -> None:
        """Advances to a place. Raises Damage."""
        self.seek(at)

    def read(self, most: int) -> bytes:
        """A number of bytes; less at the end."""
        return self.file.read(most)


class Kept(NamedTuple):
    """A place to go back to: how far what is unpacked had come there, and the file."""

    at: int
    offset: int
    unpacker: "zlib._Decompress"


class Unpacked:
    """What a gzip file unpacks to."""

    def __init__(self, file: IO[bytes], beat: Callable[[], None] = lambda: None, goes_back: bool = False) -> None:
        self.file, self.beat, self.goes_back = file, beat, goes_back
        self.unpacker = zlib.decompressobj(31)
        self.held, self.at = b"", 0
        self.come = 0
        self.apart = APART
        self.kept: List[Kept] = [Kept(0, 0, self.unpacker.copy())]

    def tell(self) -> int:
        """How many bytes stand before what is read next."""
        return self.come - len(self.held) + self.at

    def read(self, most: int) -> bytes:
        """A number of bytes; less at the end. Raises Damage."""
        pieces: List[bytes] = []
        left = most
        while left and (self.at < len(self.held) or self._more()):
            piece = self.held[self.at:self.at + left]
            pieces.append(piece)
            self.at += len(piece)
            left -= len(piece)
        return b"".join(pieces)

    def seek(self, at: int) -> None:
        """Goes to a place, back only where places are kept. Raises Damage where it can't be reached."""
        place = max((each for each in self.kept if each.at <= at), key=lambda each: each.at)
        if at < self.tell() or place.at > self.come:
            self._go(at, place)
        while self.tell() < at:
            self._step(at)

    def pass_over(self, at: int) -> None:
        """Advances to a place. Raises Damage where it can't be reached, or what is before it unpacks to too much."""
        start, packed = self.tell(), self._packed()
        while self.tell() < at:
            self._step(at)
            dropped = self.tell() - start
            if dropped > LEAST and dropped > MOST_RATIO * (self._packed() - packed):
                raise Damage(messages.PACK_TOO_LARGE.format(at=start, most=MOST_RATIO))

    def _step(self, at: int) -> None:
        """Drops what is held before a place, or unpacks more."""
        step = min(at - self.tell(), len(self.held) - self.at)
        self.at += step
        if not step and not self._more():
            raise Damage(messages.PACK_CUT.format(at=self.tell()))

    def _packed(self) -> int:
        """How much of the file was unpacked."""
        return self.file.tell() - len(self.unpacker.unconsumed_tail)

    def _go(self, at: int, place: Kept) -> None:
        """Goes back within what is held, or to a place that was kept."""
        if self.come - len(self.held) <= at <= self.come:
            self.at = at - (self.come - len(self.held))
            return
        self.file.seek(place.offset)
        self.unpacker = place.unpacker.copy()
        self.held, self.at, self.come = b"", 0, place.at

    def _more(self) -> bool:
        """Unpacks more, in place of what was read; whether there is more."""
        if self.goes_back:
            self._keep()
        self.held, self.at = self._unpacked(), 0
        self.come += len(self.held)
        return bool(self.held)

    def _unpacked(self) -> bytes:
        while True:
            if self.unpacker.eof and not self._begin():
                return b""
            data = self.unpacker.unconsumed_tail
            if not data:
                self.beat()
                data = self.file.read(PIECE)
            if not data:
                raise Damage(messages.PACK_CUT.format(at=self.come))
            before = self.unpacker.copy()
            try:
                piece = self.unpacker.decompress(data, UNPACKED)
            except zlib.error as error:
                piece, self.unpacker = _salvaged(before, data)
                if not piece:
                    reason = str(error).split(": ")[-1]
                    raise Damage(messages.GZIP_DAMAGED.format(at=self.come, reason=reason)) from None
            if piece:
                return piece

    def _begin(self) -> bool:
        """Begins with the next of several gzip streams, if there is one. What else stands at the end is no matter."""
        rest = self.unpacker.unused_data
        if len(rest) < len(GZIP):
            rest += self.file.read(PIECE)
        if not rest.startswith(GZIP):
            return False
        self.file.seek(-len(rest), os.SEEK_CUR)
        self.unpacker = zlib.decompressobj(31)
        return True

    def _keep(self) -> None:
        """Keeps this place to go back to, if it is far enough after the last; the fewer, the longer the file is."""
        if self.come < self.kept[-1].at + self.apart:
            return
        if len(self.kept) >= MOST_KEPT:
            self.kept = self.kept[::2]
            self.apart *= 2
        self.kept.append(Kept(self.come, self.file.tell(), self.unpacker.copy()))


def _salvaged(unpacker: "zlib._Decompress", data: bytes) -> Tuple[bytes, "zlib._Decompress"]:
    """What can be unpacked of this before the byte that is damaged, and how it stands then."""
    pieces: List[bytes] = []
    for step in (512, 1):
        more = True
        while more:
            before = unpacker.copy()
            try:
                pieces.append(unpacker.decompress(data, step))
            except zlib.error:
                unpacker = before
                break
            data = unpacker.unconsumed_tail
            more = bool(pieces[-1] or data)
    return b"".join(pieces), unpacker


Stream = Union[Plain, Unpacked]


def stream_of(file: IO[bytes], beat: Callable[[], None], goes_back: bool) -> Stream:
    """The bytes of a tar file, packed or not, whatever its name says."""
    start = file.read(len(GZIP))
    file.seek(0)
    return Unpacked(file, beat, goes_back) if start == GZIP else Plain(file)


BLOCK = 512
# How many headers may stand before that of a member, and their bytes; and how long the map may be that follows the
# header of a sparse file.
MOST_HEADERS, MOST_BEFORE, MOST_MAP = 16, 64 << 10, 1 << 20
OLD_FILE, FILE, HARD_LINK, LINK, CHARACTERS, BLOCKS, FOLDER, FIFO, CONTIGUOUS, SPARSE = (
    b"\0", b"0", b"1", b"2", b"3", b"4", b"5", b"6", b"7", b"S")
LONG_NAME, LONG_LINK, PAX, SOLARIS_PAX, GLOBAL_PAX = b"L", b"K", b"x", b"X", b"g"
FILES = (OLD_FILE, FILE, CONTIGUOUS, SPARSE)
# After the header of one of these nothing of it follows, whatever its size is.
WITHOUT_BYTES = (HARD_LINK, LINK, CHARACTERS, BLOCKS, FOLDER, FIFO)
BEFORE = (LONG_NAME, LONG_LINK, PAX, SOLARIS_PAX, GLOBAL_PAX)
# In a header of GNU tar's own form no front of the name stands where others have it.
GNU_MAGIC = b"ustar  \0"
OCTAL, DECIMAL, LENGTH = re.compile(rb"[0-7]*"), re.compile(rb"[0-9]{1,20}"), re.compile(rb"([0-9]{1,20}) ")
SPARSE_KEYS, SPARSE_NAME = b"GNU.sparse.", b"GNU.sparse.name"


class BadHeader(Exception):
    """What is there makes no sense as a header."""


class NoHeader(Exception):
    """No header is there, but a block of zeros, or the end of the file, or less than a block before that."""

    def __init__(self, block: bytes) -> None:
        super().__init__()
        self.block = block


class Header(NamedTuple):
    """A member: where its headers begin, its name, its kind, its size, and where what follows it begins.

    It isn't whole where more stands before it than may: then that isn't used.
    """

    at: int
    name: bytes
    kind: bytes
    size: int
    behind: int
    is_sparse: bool = False
    is_whole: bool = True


class _Block(NamedTuple):
    """What one block of a header says."""

    name: bytes
    kind: bytes
    size: int
    has_map: bool


@dataclass
class _Extended:
    """What stands before the header of a member says of it. The first counts of several that say the same."""

    at: Optional[int] = None
    name: Optional[bytes] = None
    size: Optional[int] = None
    is_sparse: bool = False

    def take(self, place: int, kind: bytes, data: bytes) -> None:
        """Takes what the header of this kind at this place says. Raises BadHeader."""
        self.at = place if self.at is None else self.at
        if kind == LONG_NAME:
            self.name = self.name or _text(data)
        elif kind != LONG_LINK:
            records = dict(_records(data))
            self.name = self.name or records.get(SPARSE_NAME) or records.get(b"path")
            if self.size is None and records.get(b"size"):
                self.size = _decimal(records[b"size"])
            self.is_sparse = self.is_sparse or any(key.startswith(SPARSE_KEYS) for key in records)


def read_header(stream: Stream, most: int, beat: Callable[[], None]) -> Header:
    """The header of a member at this place. Where too much stands before it, it is looked for within `most` bytes.

    Raises BadHeader, NoHeader, or Damage.
    """
    start, extended, is_whole = stream.tell(), _Extended(), True
    number = 0
    while True:
        beat()
        place = stream.tell()
        block = stream.read(BLOCK)
        if len(block) < BLOCK or not any(block):
            if extended.at is None and is_whole:
                raise NoHeader(block)
            raise BadHeader
        it = _read(block)
        if it.kind not in BEFORE:
            return _member(stream, it, place, extended if is_whole else _Extended(), is_whole)
        number, length = number + 1, _padded(it.size)
        if length > MOST_BEFORE or stream.tell() + length - start > max(most, MOST_BEFORE):
            raise BadHeader
        is_whole = is_whole and number <= MOST_HEADERS and stream.tell() + length - start <= MOST_BEFORE
        data = stream.read(length)
        if is_whole and it.kind != GLOBAL_PAX:
            extended.take(place, it.kind, data[:it.size])


def _member(stream: Stream, it: _Block, place: int, extended: _Extended, is_whole: bool) -> Header:
    """The header of a member at a place, with what stands before it."""
    _pass_map(stream, it)
    name = extended.name or it.name
    size = it.size if extended.size is None else extended.size
    kind = FOLDER if it.kind == OLD_FILE and name.endswith(b"/") else it.kind
    behind = stream.tell() + (0 if kind in WITHOUT_BYTES else _padded(size))
    return Header(place if extended.at is None else extended.at, name, kind, size, behind,
                  extended.is_sparse or kind == SPARSE, is_whole)


def _pass_map(stream: Stream, it: _Block) -> None:
    """Passes over the further blocks of the map of a sparse file. Raises BadHeader."""
    more, left = it.has_map, MOST_MAP
    while more:
        block = stream.read(BLOCK)
        left -= BLOCK
        if len(block) < BLOCK or left < 0:
            raise BadHeader
        more = block[504] != 0


def _read(block: bytes) -> _Block:
    """What a block of a header says. Raises BadHeader where it is none."""
    unsigned = sum(block) - sum(block[148:156]) + 8 * 32
    high = sum(1 for byte in block if byte > 127) - sum(1 for byte in block[148:156] if byte > 127)
    if _number(block[148:156]) not in (unsigned, unsigned - 256 * high):  # (some have summed signed bytes)
        raise BadHeader
    name, kind, front = _text(block[:100]), block[156:157], _text(block[345:500])
    if front and kind not in (LONG_NAME, LONG_LINK, SPARSE) and block[257:265] != GNU_MAGIC:
        name = front + b"/" + name
    return _Block(name, kind, _number(block[124:136]), kind == SPARSE and block[482] != 0)


def _number(field: bytes) -> int:
    """The number of a field, in octal digits or in base 256. Raises BadHeader."""
    if field[0] == 0x80:
        return _kept(int.from_bytes(field[1:], "big"))
    digits = _text(field).strip()
    if not OCTAL.fullmatch(digits):
        raise BadHeader
    return _kept(int(digits or b"0", 8))


def _decimal(digits: bytes) -> int:
    """The number of a record. Raises BadHeader."""
    if not DECIMAL.fullmatch(digits):
        raise BadHeader
    return _kept(int(digits))


def _kept(number: int) -> int:
    """The number, if a file may have so many bytes. Raises BadHeader."""
    if number > MAX_NUMBER:
        raise BadHeader
    return number


def _records(data: bytes) -> Iterator[Tuple[bytes, bytes]]:
    """The records of a pax header, as keys and values. Raises BadHeader."""
    at = 0
    while at < len(data) and data[at]:
        found = LENGTH.match(data, at)
        end = at + int(found[1]) if found else 0
        if not found or not found.end() < end <= len(data) or data[end - 1:end] != b"\n":
            raise BadHeader
        key, equals, value = data[found.end():end - 1].partition(b"=")
        if not key or not equals:
            raise BadHeader
        yield key, value
        at = end


def _text(field: bytes) -> bytes:
    """A text, which ends before a NUL."""
    return field.split(b"\0", 1)[0]


def _padded(size: int) -> int:
    """How many bytes stand there for so many, which are whole blocks."""
    return -(-size // BLOCK) * BLOCK


# How far what follows the end is looked through.
MOST_BEHIND = 1 << 20
KINDS = {LINK: "a symbolic link", HARD_LINK: "a hard link", FIFO: "a fifo", CHARACTERS: "a device", BLOCKS: "a device"}


class Tar:
    """A tar file. After its members `why` says what is wrong with it as a whole, if something is."""

    def __init__(self, file: IO[bytes], limits: PackLimits, goes_back: bool = False) -> None:
        self.limits = limits
        self.stream = stream_of(file, limits.beat, goes_back)
        self.why: Optional[str] = None
        self.next = 0

    def members(self, start: int = 0, reads: bool = True) -> Iterator[Member]:
        """The members from a place on, which is 0 or was `next`, that after the last one; also without their bytes."""
        self.why = None
        found = False
        try:
            self.stream.seek(start)
            for header in self._headers(start):
                found = True
                member = self._member(header, reads)
                if member:
                    yield member
        except Damage as damage:
            self.why = self.why or str(damage)
        if not found and not start and self.why == messages.TAR_DAMAGED.format(at=0):
            self.why = messages.NO_TAR

    def member_at(self, at: int) -> Optional[Member]:
        """The member that begins at this place. Raises Damage."""
        self.stream.seek(at)
        try:
            header = read_header(self.stream, 0, self.limits.beat)
        except (BadHeader, NoHeader):
            return None
        return self._member(header, True)

    def _headers(self, position: int) -> Iterator[Header]:
        """The headers. After one that is damaged the next is looked for, within the bytes that a member may have."""
        searched = 0
        while searched <= self.limits.most:
            self.limits.beat()
            self.stream.pass_over(position)
            try:
                header = read_header(self.stream, self.limits.most, self.limits.beat)
            except NoHeader as none:
                self._end(none.block)
                return
            except BadHeader:
                self.why = self.why or messages.TAR_DAMAGED.format(at=position)
                behind = max(position + BLOCK, -(-self.stream.tell() // BLOCK) * BLOCK)
                position, searched = behind, searched + behind - position
                continue
            if not header.is_whole:
                self.why = self.why or messages.TAR_DAMAGED.format(at=position)
            position, searched = header.behind, 0
            self.next = position
            yield header

    def _end(self, block: bytes) -> None:
        """Looks at what stands after the mark of the end, which is zeros where nothing was added. Raises Damage."""
        if any(block):
            raise Damage(messages.PACK_CUT.format(at=self.stream.tell()))
        if not block:
            self.why = self.why or messages.NO_END_OF_TAR
            return
        left = MOST_BEHIND
        while left > 0:
            piece = self.stream.read(BLOCK * 20)
            if not piece:
                return
            if any(piece):
                self.why = self.why or messages.MORE_AFTER_TAR
                return
            left -= len(piece)

    def _member(self, header: Header, reads: bool) -> Optional[Member]:
        """A member as it is found; nothing of a folder."""
        if header.kind == FOLDER:
            return None
        name, why = named(header.name)
        at, size = header.at, header.size
        if header.kind not in FILES and not why:
            return other(name, KINDS.get(header.kind, "of another kind"), at)
        why = why or (messages.SPARSE_FILE if header.is_sparse else None)
        member = passed_over(name, why, size, at, self.limits.most)
        if member or not reads:
            return member or Member(name, READ, None, size, at)
        return taken(name, self._bytes(size), size, at)

    def _bytes(self, size: int) -> bytes:
        """The bytes of a member; none where they can't be unpacked."""
        try:
            return self.stream.read(size)
        except Damage as damage:
            self.why = self.why or str(damage)
            return b""
