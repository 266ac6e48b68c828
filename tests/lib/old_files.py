"""Files as an old disk may have them: pages in other forms, bytes around them, and much that is no page."""
import gzip
import json
from random import Random
from typing import Callable, Dict, List, NamedTuple, Optional, Tuple

from pictures import picture, writing
from samples import with_parity

SHIFTS = {0x0E: 1, 0x0F: 0}
# What may stand before a page; and codes that no treatment takes, by the names that answers have for them.
FRONTS = (b"\x18", b"\x1b\x22\x46", b"\x18\x1b\x25\x41", b"\x1f\x0c", b"\x18\x1f\x41\x42\x0c")
STOPS = {"INCREMENTAL-LINE": b"\x0e\x3a\x52\x40\x0f", "INCREMENTAL-POINT": b"\x0e\x39\x52\x0f", "DEFT": b"\x1b\x42",
         "INCREMENTAL-POLY": b"\x0e\x3b\x52\x0f", "EDC1": b"\x1b\x51", "UNPROTECT": b"\x1b\x5f"}
# How many bytes the codes of seven bits take after ESC, and after a control of one byte.
ARGUMENTS = {0x40: 1, 0x41: 1, 0x43: 1, 0x44: 1, 0x46: 1}


def in_eight_bits(page):
    """A page without macros and without locking shifts but SO and SI, as its eight-bit form: G1 in the right half.

    SO and SI aren't needed there, and C1 controls have one byte.
    """
    out, left, at = bytearray(), 0, 0
    while at < len(page):
        byte, length = page[at], 1
        if byte in SHIFTS:
            left = SHIFTS[byte]
        elif byte == 0x1B and page[at + 1] in range(0x28, 0x30):
            length = 4 if page[at + 2] == 0x20 else 3
            out += page[at:at + length]
        elif byte == 0x1B:
            length = 2 + ARGUMENTS.get(page[at + 1], 0)
            out += bytes([page[at + 1] + 0x40]) + page[at + 2:at + length]
        elif byte in (0x19, 0x1D, 0x1C):
            length = 3 if byte == 0x1C else 2
            out += page[at:at + length]
        else:
            out.append(byte + 0x80 if left and byte >= 0x20 else byte)
        at += length
    return bytes(out)


def sauce(data, lines=0, mark=b"\x1a"):
    """The data with a SAUCE record after it, and with a number of lines of comments."""
    comments = b"COMNT" + b"a comment".ljust(64) * lines if lines else b""
    fields = b"A logo".ljust(35) + "Caf\u00e9".encode("cp437").ljust(20) + b"None".ljust(20) + b"19840114"
    record = b"SAUCE00" + fields + len(data).to_bytes(4, "little") + bytes(10) + bytes([lines]) + bytes(23)
    assert len(record) == 128
    return data + mark + comments + record


class Old(NamedTuple):
    """A file: its name, its bytes, what was put in, and the page that treatments have to give back, if there is one."""

    name: str
    data: bytes
    sort: str
    page: Optional[bytes] = None
    treatments: Tuple[str, ...] = ()


Maker = Callable[[Random, int], Old]


def old(name: str, data: bytes, page: Optional[bytes] = None, *treatments: str) -> Old:
    """A file, whose sort is the first word of its name."""
    return Old(name, data, name.split(" ")[0], page, treatments)


def midst(page: bytes, code: bytes) -> bytes:
    """The page with a code before its last text, after the last SI."""
    at = page.rindex(b"\x0f") + 1
    return page[:at] + code + page[at:]


def dos_end(chance: Random, data: bytes, kind: int) -> bytes:
    """The data as a file of CP/M or MS-DOS ends: by one 1A or many, by what was on the disk, by a line end and 1A."""
    rest = -(len(data) + 1) % 128
    return data + (b"\x1a", b"\x1a" * (rest + 1), b"\x1a" + chance.randbytes(rest), b"\r\n\x1a" + bytes(rest))[kind]


def end_treatment(data: bytes, page: bytes) -> str:
    """The treatment of what comes after the page: a guess where that isn't fill alone."""
    rest = data[data.rindex(page) + len(page):] if page in data else b""
    return "end" if rest.strip(b"\x1a\0\xe5\xf6\xff\r\n") else "tail"


def respelled(chance: Random, page: bytes) -> bytes:
    """Another spelling of the page: with codes that do nothing."""
    return chance.choice((b"\0" + page, page.replace(b"\x0f", b"\x0f\0"), page + b"\x1b\x50", page + b"\0\0\0"))


def header(chance: Random) -> bytes:
    """A header of another system: a name and numbers, with bytes above 7F, and no start of a page."""
    return b"\x00\x08" + b"page".ljust(22) + bytes(chance.randrange(0x80, 0x100) for _ in range(40))


def capture(chance: Random, number: int) -> Old:
    """Pages as they were sent one after another."""
    front = chance.choice((b"\x1f", b"\x1f\x41\x42", b"\x18\x1f", b"\x1b\x22\x46", b"\x1b\x25\x41"))
    pages = [front + b"\x0c" + picture(chance, number).lstrip(b"\x0c") for _ in range(chance.randrange(3, 9))]
    return old("capture %d.cap" % number, b"".join(pages))


def note(chance: Random, number: int) -> Old:
    """A note as this tool writes it."""
    words = {"source_name": "page %d" % number, "refusal": "refused 6 LeftOut SDC at 99", "tool": "naplps-pages 0.2.0"}
    return old("note %d.json" % number, (json.dumps(words, indent=2) + "\n").encode("ascii"))


def around(chance: Random, number: int) -> Old:
    """A page with something around it that a treatment takes away."""
    page = picture(chance, number)
    name, data, *treatments = chance.choice((
        ("even", with_parity(page), "parity"), ("odd", with_parity(page, odd=True), "parity"),
        ("mark", bytes(byte | 0x80 for byte in page), "mark"),
        ("sauce", sauce(page, chance.choice((0, 0, 1, 5))), "sauce"),
        ("front", chance.choice(FRONTS), "front"),
        ("header", header(chance) + b"\x0c" + page, "header"),
        ("end", dos_end(chance, page, chance.randrange(3)), "tail"),
        ("lines", dos_end(chance, page, 3), "tail"),
        ("both", dos_end(chance, with_parity(page), 0), "tail", "parity"),
        ("three", dos_end(chance, header(chance) + b"\x0c" + page, 2), "header", "tail")))
    return _finished(name, number, data, page, treatments)


def _finished(name: str, number: int, data: bytes, page: bytes, treatments: List[str]) -> Old:
    """The file, with what its maker left in the page that it has to give back."""
    if name == "front":
        data = data + page
    treatments = [end_treatment(data, page) if each == "tail" else each for each in treatments]
    page = {"lines": page + b"\r\n", "header": b"\x0c" + page, "three": b"\x0c" + page}.get(name, page)
    if name == "front" and b"\x1f" in data[:4]:
        page = b"\x0c" + page
    return old("%s %d.nap" % (name, number), data, page, *treatments)


def within(chance: Random, number: int) -> Old:
    """A page with codes of it that a treatment takes or rewrites."""
    page = picture(chance, number)
    name, data, *treatments = chance.choice((
        ("can", midst(page, b"\x18"), "can"), ("nsr", midst(page, b"\x1f\x0f"), "nsr"),
        ("place", midst(page, b"\x1f\x41\x42"), "nsr"), ("designation", midst(page, b"\x1b\x22\x46"), "designations"),
        ("unknown", midst(page, b"\x1b\x28\x41"), "designations"),
        ("eight", in_eight_bits(page), "eight-bit"),
        ("mixed", dos_end(chance, midst(midst(page, b"\x18"), b"\x1f"), 1), "tail", "can", "nsr"),
        ("ended", dos_end(chance, in_eight_bits(page), 0), "tail", "eight-bit")))
    return old("%s %d.nap" % (name, number), data, midst(page, b"\x0f") if name == "nsr" else page, *treatments)


def refused(chance: Random, number: int) -> Old:
    """A page that stays refused: with a code that no treatment takes."""
    name = chance.choice(list(STOPS))
    return old("refused %s %d.nap" % (name, number), midst(picture(chance, number), STOPS[name]))


def junk(chance: Random, number: int) -> Old:
    """A file that is no page."""
    some = chance.randbytes(chance.randrange(200, 3000))
    name, data = chance.choice((
        ("gif", b"GIF89a" + some), ("gz", gzip.compress(writing(chance, number), mtime=0)),
        ("pdf", b"%PDF-1.4\n%\xe2\xe3" + some), ("doc", bytes.fromhex("D0CF11E0A1B11AE1") + some),
        ("zipped", b"PK\3\4\x14\0" + some), ("DS_Store", b"\0\0\0\1Bud1\0" + some), ("exe", b"MZ\x90\0" + some),
        ("noise", b"\xff" + some), ("utf8", "caf\u00e9 \u2013 \u20ac5\n".encode("utf-8") + writing(chance, number)),
        ("cp437", "caf\u00e9 fran\u00e7ais\n".encode("cp437") + writing(chance, number)),
        ("latin1", "caf\u00e9 \u00a35 \u00bb\n".encode("latin-1") + writing(chance, number))))
    return old("junk %s %d" % (name, number), data)


def again(chance: Random, number: int, page: bytes) -> Old:
    """A page that is there as it is too, in another form."""
    name, data, *treatments = chance.choice((
        ("tape", with_parity(page), "parity"), ("disk", dos_end(chance, page, chance.randrange(3)), "tail"),
        ("art", sauce(page), "sauce"), ("wide", in_eight_bits(page), "eight-bit")))
    return _finished(name, number, data, page, treatments)


def swallowed(chance: Random, number: int) -> Old:
    """A page with the body of a macro that isn't ended before the next page: what begins that is in the body."""
    one, other = picture(chance, number), writing(chance, number)
    beginning = chance.choice((b"\x1f", b"\x1b\x22\x46", b"\x1b\x25\x41"))
    return old("swallowed %d.nap" % number, one + b"\x1b\x40\x21" + beginning + other + b"\x1b\x45")


# What formats junk is of, as it is told.
LOOKS = {"gif": "GIF", "gz": "gzip", "pdf": "PDF", "doc": "OLE (an older Office file)", "zipped": "ZIP",
         "DS_Store": ".DS_Store", "exe": "program of DOS or Windows", "utf8": "text in UTF-8",
         "cp437": "text in a code page of DOS", "latin1": "text in Latin-1"}


def box(number: int = 3000, seed: int = 1983) -> List[Old]:
    """A number of files of all sorts, or a few more."""
    chance = Random(seed)
    makers: Dict[int, Maker] = {
        30: lambda chance, at: old("picture %d.nap" % at, picture(chance, at)),
        10: lambda chance, at: old("text %d.txt" % at, writing(chance, at)),
        1: lambda chance, at: old("blank %d.nap" % at, chance.choice((b"", b"\0" * 128, b"\x0e\x0f"))), 22: around,
        12: within, 4: refused, 11: junk, 2: capture, 3: note}
    some = [make(chance, at) for share, make in makers.items() for at in range(number * share // 100)]
    pictures = [each for each in some if each.sort == "picture"]
    for at in range(number // 30):
        source = chance.choice(pictures)
        some.append(old("copy %d.nap" % at, source.data))
        source = chance.choice(pictures)
        some.append(Old("spelling %d.nap" % at, respelled(chance, source.data), "spelling", source.data))
        some.append(again(chance, at, chance.choice(pictures).data))
        if at % 10 == 0:
            some.append(swallowed(chance, at))
    return some
