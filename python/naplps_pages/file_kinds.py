"""What a file is, by its bytes and the answer: a page, text alone or blank; and what a refused file looks like."""
import codecs
import re
from typing import IO, Iterable, Iterator, NamedTuple, Optional, Tuple

from naplps.answers import Accepted, Answer, Refusal
from naplps.treating import LEADING_ON

from .source import PIECE, Page

PAGE, TEXT, BLANK, CAPTURE = "page", "text", "blank", "capture"
# The number of bytes of a file that are looked at for what it looks like.
MOST_LOOKED_AT = 4096
MAC_HEADER = 128
ARC_HEADER, MOST_ARC_METHOD, ARC_NAME = 29, 11, rb"[!-~]{1,12}"
# What texts are made of; and letters of other codes, each of which stands in a word, with at least so many bytes of
# ASCII for each. (Without the controls 80 to 9F, and the few signs of Latin-1 that texts have.) A pattern is compiled
# when it is first used.
TEXT_BYTES, LEAST_PLAIN = rb"[\t\n\x0c\r\x20-\x7e\x80-\xff]*", 4
LATIN_1 = rb"[\t-\r\x20-\x7e\xa0\xa1\xa3\xa7-\xab\xb0-\xb7\xb9-\xbf\xc0-\xff]*"
OF_DOS = rb"[\t-\r\x20-\x7e\x80-\xa8\xad-\xaf\xb3\xba-\xbc\xbf-\xc0\xc4\xc8-\xc9\xcd\xd9-\xda\xe1\xf8]*"
CODES = (("Latin-1", LATIN_1), ("a code page of DOS", OF_DOS))
# The images of disks; and how many bytes a sector of one may have.
DOS_DISK, AMIGA_DISK = "disk of DOS", "disk of an Amiga"
DISKS = (DOS_DISK, AMIGA_DISK)
SECTORS = (128, 256, 512, 1024, 2048, 4096)
# In an accepted page they stand in the bodies of its macros alone.
DEFINITION, BEGINNINGS = b"\x1b\x40", rb"\x1f|\x1b[\x22\x25]"


class Magic(NamedTuple):
    """Bytes at an offset by which a format is known."""

    offset: int
    data: bytes
    name: str


MAGIC = tuple(Magic(offset, data, name) for offset, data, name in (
    (0, b"GIF87a", "GIF"), (0, b"GIF89a", "GIF"), (0, b"\xff\xd8\xff", "JPEG"), (0, b"\x89PNG\r\n\x1a\n", "PNG"),
    (0, b"II*\0", "TIFF"), (0, b"MM\0*", "TIFF"), (0, b"BM", "BMP"), (8, b"ILBM", "IFF picture"),
    (0, b"RIFF", "RIFF (WAV or AVI)"), (0, b"PK\3\4", "ZIP"), (0, b"PK\5\6", "ZIP"), (0, b"\x1f\x8b", "gzip"),
    (0, b"\x1f\x9d", "compress"), (0, b"BZh", "bzip2"), (0, b"\xfd7zXZ\0", "xz"), (0, b"7z\xbc\xaf\x27\x1c", "7z"),
    (0, b"Rar!\x1a\7", "RAR"), (2, b"-lh", "LHA"), (2, b"-lz", "LHA"), (20, b"\xdc\xa7\xc4\xfd", "ZOO"),
    (0, b"SIT!", "StuffIt"), (0, b"StuffIt (c)", "StuffIt"), (0, b"\x60\xea", "ARJ"), (7, b"**ACE**", "ACE"),
    (0, b"HLSQZ", "SQZ"), (0, b"UC2\x1a", "UC2"), (0, b"MSCF", "CAB"), (0, b"SZDD\x88\xf0\x27\x33", "SZDD"),
    (0, b"\x0a\0\1", "PCX"), (0, b"\x0a\2\1", "PCX"), (0, b"\x0a\3\1", "PCX"), (0, b"\x0a\5\1", "PCX"),
    (0, b"MThd", "MIDI"), (0, b".snd", "AU"), (0, b"FORM", "IFF"), (0, b"Creative Voice File\x1a", "VOC"),
    (0, b"\0\0\2\0\4\4\6\0", "Lotus 1-2-3"), (0, b"\0\0\2\0\6\4\6\0", "Lotus 1-2-3"),
    (0, b"\x31\xbe\0\0", "Word for DOS, or Write"), (0, b"\x32\xbe\0\0", "Write"), (0, b"DOS\0", AMIGA_DISK),
    (257, b"ustar", "tar"), (0, b"%PDF-", "PDF"), (0, b"%!PS", "PostScript"), (0, b"{\\rtf", "RTF"),
    (0, b"\xd0\xcf\x11\xe0\xa1\xb1\x1a\xe1", "OLE (an older Office file)"), (0, b"\xffWPC", "WordPerfect"),
    (0, b"\0\5\x16\7", "AppleDouble"), (0, b"\0\5\x16\0", "AppleSingle"), (0, b"\0\0\0\1Bud1", ".DS_Store"),
    (0, b"MZ", "program of DOS or Windows"), (0, b"\x7fELF", "ELF program"), (0, b"SQLite format 3\0", "SQLite"),
    (0, b"<!DOCTYPE", "HTML"), (0, b"<!doctype", "HTML"), (0, b"<html", "HTML"), (0, b"<HTML", "HTML"),
    (0, b"<?xml", "XML"), (0, b"<svg", "SVG"), (0, b"\xef\xbb\xbf", "text in UTF-8"),
    (0, b"\xff\xfe", "text in UTF-16"), (0, b"\xfe\xff", "text in UTF-16"), (0, b"SAUCE00", "SAUCE record")))


# What files begin with, of all formats but those that are known by later bytes.
FRONTS = tuple({magic.data for magic in MAGIC if not magic.offset})
BEHIND = tuple(magic for magic in MAGIC if magic.offset)


class Description(NamedTuple):
    """The kind of an accepted page, or of a capture with the number of its pages; or what a refused file looks like,
    where it is a format that is known here."""

    kind: Optional[str] = None
    looks_like: Optional[str] = None
    pages: Optional[int] = None


def described(page: Page, answer: Answer) -> Description:
    """What a file is; nothing where there is no answer."""
    if isinstance(answer, Accepted):
        return Description(kind((page.data,) if page.data is not None else _pieces(page.file), answer))
    if not isinstance(answer, Refusal):
        return Description()
    look = looks_like(*_beginning(page))
    pages = pages_of_capture(page.data, look) if page.data is not None else 0
    return Description(CAPTURE if pages else None, look, pages or None)


def pages_of_capture(data: bytes, look: Optional[str]) -> int:
    """How many pages a capture has that looks so; 0 where the bytes are none. The image of a disk is none: its programs
    have bytes that look like borders and pages."""
    from naplps.treating.borders import pages_in  # (which takes much more, and few need it)
    return 0 if look in DISKS else pages_in(data)


def kind(pieces: Iterable[bytes], answer: Accepted) -> str:
    """The kind of an accepted page of these bytes."""
    if not answer.entries:
        return BLANK
    return PAGE if any(leading in piece for piece in pieces for leading in LEADING_ON) else TEXT


def last_beginning(data: bytes) -> int:
    """Where the last NSR, ESC 22 or ESC 25 of an accepted page stands; -1 where there is none."""
    at = data.find(DEFINITION)
    return max((found.start() for found in re.compile(BEGINNINGS).finditer(data, at)), default=-1) if at >= 0 else -1


def looks_like(beginning: bytes, length: int) -> Optional[str]:
    """The format of a file of this length that begins so."""
    for magic in MAGIC if beginning.startswith(FRONTS) else BEHIND:
        if beginning.startswith(magic.data, magic.offset):
            return magic.name
    for name, is_it in (("MacBinary", _is_mac_binary), ("ARC", _is_arc), (DOS_DISK, _is_dos_disk)):
        if is_it(beginning, length):
            return name
    return _text_in(beginning, length)


def _is_arc(beginning: bytes, _length: int) -> bool:
    """Whether it begins as an ARC archive: a mark, a method, and a name that ends by zero."""
    if beginning[:1] != b"\x1a" or len(beginning) < ARC_HEADER or not 1 <= beginning[1] <= MOST_ARC_METHOD:
        return False
    name, end, _ = beginning[2:15].partition(b"\0")
    return re.fullmatch(ARC_NAME, name) is not None and end != b""


def _is_dos_disk(beginning: bytes, _length: int) -> bool:
    """Whether it begins with the boot sector of a disk: a jump, bytes of a sector, and the mark at its end."""
    return (beginning[:1] in (b"\xeb", b"\xe9") and beginning[510:512] == b"\x55\xaa"
            and int.from_bytes(beginning[11:13], "little") in SECTORS)


def _text_in(beginning: bytes, length: int) -> Optional[str]:
    """In which code it is a text, where it has letters that ASCII lacks, and few of them."""
    text = beginning.rstrip(b"\x1a")
    high = sum(1 for byte in text if byte >= 0x80)
    if not high or re.fullmatch(TEXT_BYTES, text) is None:
        return None
    if _is_utf_8(text, len(beginning) == length):
        return "text in UTF-8"
    if high * LEAST_PLAIN > len(text):
        return None
    for name, letters in CODES:
        if re.fullmatch(letters, text):
            return "text in " + name
    return None


def _is_utf_8(text: bytes, is_whole: bool) -> bool:
    """Whether it is UTF-8, but for a letter that is cut at the end of a beginning."""
    try:
        codecs.getincrementaldecoder("utf-8")().decode(text, is_whole)
    except UnicodeDecodeError:
        return False
    return True


def _is_mac_binary(beginning: bytes, length: int) -> bool:
    """Whether it has a header of MacBinary: zeros at their places, a name, and forks that fill the file."""
    if len(beginning) < MAC_HEADER or beginning[0] or beginning[74] or beginning[82] or not 1 <= beginning[1] <= 63:
        return False
    forks = [int.from_bytes(beginning[at:at + 4], "big") for at in (83, 87)]
    filled = MAC_HEADER + sum(-(-each // MAC_HEADER) * MAC_HEADER for each in forks)
    return any(forks) and filled - MAC_HEADER < length <= filled + MAC_HEADER


def _beginning(page: Page) -> Tuple[bytes, int]:
    if page.data is not None:
        return page.data[:MOST_LOOKED_AT], len(page.data)
    assert page.file
    length = page.file.seek(0, 2)
    page.file.seek(0)
    return page.file.read(MOST_LOOKED_AT), length


def _pieces(file: Optional[IO[bytes]]) -> Iterator[bytes]:
    assert file
    file.seek(0)
    while True:
        piece = file.read(PIECE)
        if not piece:
            return
        yield piece


def remark(it: Description) -> str:
    """What stands after the line of an answer: nothing for a page."""
    if it.pages:
        return f" (capture of {it.pages} pages)"
    if it.looks_like:
        return f" (looks like {it.looks_like})"
    return f" ({it.kind})" if it.kind in (TEXT, BLANK) else ""
