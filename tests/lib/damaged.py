"""Pages that were damaged by chance, around them and within them, of which it is known what they drew before."""
from random import Random
from typing import List, NamedTuple, Tuple

from naplps.answers import Accepted
from naplps.client import Client
from old_files import sauce
from samples import with_parity
from stream_writer import SIZES, StreamWriter

WORDS = ("NEWS", "Weather", "SPORT 12", "Index", "MAP", "PRICES", "closed", "TODAY")
CALLS = (b"CONNECT 1200\r\n", b"ATDT 555\r\r\nCONNECT\r\n", b"PAGE 335\r\n", b"> ", b"MENU")
ENDS = (b"\r\nNO CARRIER\r\n", b"\r\nOK\r\n", b"END OF PAGE", b"+++ATH\r\n")
PLACE = b"\x1f\x41\x52"
ANNOUNCERS = (b"\x1b\x22\x46", b"\x1b\x25\x41", b"\x1b\x20\x43", b"\x1b\x21\x40")
# Codes that the profile leaves out or doesn't have; and the fills of disks.
LEFT_OUT = (b"\x18", b"\x1a", b"\x1f", PLACE, b"\x1b\x5f", b"\x1b\x51", b"\x1b\x42", b"\x0e\x3a\x52", *ANNOUNCERS)
FILLS = (b"\x00", b"\xe5", b"\xf6", b"\xff")
LEAST_BYTES, MOST_BYTES = 12, 200
# Half of the damage within a page is among its first bytes, where it begins.
MOST_AT_FRONT = 24
MARK = bytes(byte | 0x80 for byte in range(256))


class DamagedPage(NamedTuple):
    """A file, the page in it, and the canonical streams that a right copy may have.

    These are that of the page, and of what was accepted after some of the damage, which counts as the page from then
    on: nobody can know that it was another one.
    """

    data: bytes
    page: bytes
    right: Tuple[bytes, ...]


def acting_code(chance: Random) -> bytes:
    """A code that draws nothing and acts: on the map, the domain, the field, a set, text, the pen; or a macro."""
    place = bytes(chance.randrange(0x40, 0x60) for _ in range(3))
    return chance.choice((
        lambda: b"\x0e\x3e" + bytes((0x40 | chance.randrange(16) << 2, 0x3C, chance.randrange(0x40, 0x80))),
        lambda: b"\x0e\x21" + bytes((0x40 | chance.randrange(1, 4) << 2,)),
        lambda: b"\x0e\x38" + place + b"\x49\x40\x40", lambda: b"\x0e\x22\x40\x40" + place,
        lambda: b"\x0e\x23" + bytes((0x40 | chance.randrange(4),)),
        lambda: b"\x0e\x3c" + bytes((chance.randrange(0x40, 0x80),)),
        lambda: b"\x1b" + chance.choice((b"\x28", b"\x29", b"\x2c")) + chance.choice((b"\x7c", b"\x7d", b"\x20\x7c")),
        lambda: b"\x1b\x40\x41\x0f" + chance.choice(WORDS).encode("ascii") + b"\x1b\x45\x1b\x2b\x7a\x1d\x41",
        lambda: b"\x1b" + bytes((chance.choice(list(SIZES.values())),)),
        lambda: b"\x0e\x24" + place, lambda: b"\x1c" + place[:2]))()


def draw(chance: Random, page: StreamWriter) -> None:
    """Adds something to a page."""
    x, y = chance.random() * 0.7, chance.random() * 0.6
    chance.choice((
        lambda: page.code(0x26, page.place(x, y)), lambda: page.line((x, y), (y, x / 2)),
        lambda: page.rectangle(x / 2, y / 2, 0.2, 0.1, chance.random() < 0.5),
        lambda: page.polygon([(x, y), (x / 2, y), (x, y / 2)]), lambda: page.circle(0.4, 0.4, x / 4),
        lambda: page.at(x, y, chance.choice(WORDS), chance.choice(("", *SIZES))),
        lambda: page.rgb(x, y, 0.5), lambda: page.select(chance.randrange(16)).rgb(y, x, 0.2),
        lambda: page.to(x, y).text(chance.choice(WORDS)).accent("acute", "e")))()


def page_of(chance: Random, program: Client) -> bytes:
    """A page that is accepted. Most begin with CS or RESET, some of these after codes that act or text."""
    while True:
        page, kind, front = StreamWriter(chance.choice((2, 3, 3, 3, 4))), chance.random(), b""
        if kind < 0.25:
            front = b"".join(acting_code(chance) for _ in range(chance.randrange(1, 4)))
        if 0.2 <= kind < 0.4:
            front += chance.choice(WORDS).encode("ascii")
        if kind < 0.3 or 0.4 <= kind < 0.8:
            page.clear()
        elif kind < 0.9:
            page.code(0x20, b"\x79\x4f")
        if page.words != 3:
            page.domain()
        for _ in range(chance.randrange(1, 9)):
            draw(chance, page)
        made = front + page.made()
        if LEAST_BYTES <= len(made) <= MOST_BYTES and isinstance(program.ask("check", made), Accepted):
            return made


def damage_within(chance: Random, page: bytes) -> bytes:
    """The page with a byte or a code put in, a byte changed or lost, or as a part of it."""
    at = chance.randrange(chance.choice((len(page), min(len(page), MOST_AT_FRONT))))
    front, rest = page[:at], page[at:]
    return chance.choice((
        lambda: front + chance.randbytes(1) + rest, lambda: front + bytes((chance.randrange(0x80, 0x100),)) + rest,
        lambda: front + chance.choice(LEFT_OUT) + rest, lambda: front + chance.randbytes(1) + rest[1:],
        lambda: front + bytes((rest[0] ^ 1 << chance.randrange(8),)) + rest[1:], lambda: front + rest[1:],
        lambda: front or page, lambda: rest))()


def containers(chance: Random) -> bytes:
    """NSR, CAN and announcers."""
    number = chance.choice((1, 1, 1, 2, 3))
    return b"".join(chance.choice((b"\x18", b"\x1f", PLACE, *ANNOUNCERS)) for _ in range(number))


def header(chance: Random) -> bytes:
    """The header of a record: a name and numbers."""
    numbers = (chance.choice((chance.randrange(0x80, 0x100), 0, 0, chance.randrange(0x100)))
               for _ in range(chance.randrange(2, 20)))
    return chance.choice((b"\0\x08", b"\x01\x0e", b"\0\x0c", b"")) + b"PAGE%03d" % chance.randrange(1000) + (
        bytes(numbers) + chance.choice((b"\x80\0", b"\xff", b"\x1a", b"\xfe\x01", b"")))


def pieces_before(chance: Random) -> List[bytes]:
    """What comes before a page, from the page outward."""
    text, fill = chance.choice(CALLS), chance.choice(FILLS) * chance.randrange(1, 30)
    stray = chance.choice((bytes((chance.randrange(0x80, 0x100),)), b"\x1a", b"\x18", chance.randbytes(2)))
    return chance.choice((
        lambda: [], lambda: [containers(chance)], lambda: [containers(chance)], lambda: [header(chance)],
        lambda: [header(chance)], lambda: [containers(chance), text], lambda: [stray, text], lambda: [stray],
        lambda: [text, stray], lambda: [stray, acting_code(chance)], lambda: [fill]))()


def pieces_after(chance: Random) -> List[bytes]:
    """What comes after a page, from the page outward."""
    text, fill = chance.choice(ENDS), chance.choice(FILLS) * chance.randrange(1, 60)
    return chance.choice((
        lambda: [], lambda: [b"\x1a" * chance.randrange(1, 40)], lambda: [b"\0" * chance.randrange(1, 40)],
        lambda: [b"\r\n"], lambda: [b"\r\n", b"\x1a"], lambda: [b"\x1a" + fill], lambda: [fill],
        lambda: [b"\x1a" + chance.randbytes(chance.randrange(1, 40))], lambda: [b"\x1a" + text],
        lambda: [text, b"\x1a"], lambda: [acting_code(chance), b"\x1a"], lambda: [containers(chance)]))()


def add_bits(chance: Random, data: bytes) -> bytes:
    """The bytes with even parity, with odd parity or with a mark."""
    return chance.choice((lambda: with_parity(data), lambda: with_parity(data, odd=True),
                          lambda: data.translate(MARK)))()


def damage(chance: Random, program: Client) -> DamagedPage:
    """A page after some damage: 3 in 10 within it too, and 18 in 100 with eighth bits, of the page alone or of all."""
    page = page_of(chance, program)
    data = damage_within(chance, page) if chance.random() < 0.3 else page
    stages, bits = [page, data], chance.random()
    if bits < 0.1:
        data = add_bits(chance, data)
    for piece in pieces_before(chance):
        data = piece + data
        stages.append(data)
    for piece in pieces_after(chance) if chance.random() < 0.6 else []:
        data += piece
        stages += [stage + piece for stage in stages]
    if 0.1 <= bits < 0.18:
        data = add_bits(chance, data)
    if chance.random() < 0.1:
        data = sauce(data, chance.choice((0, 0, 1, 3)))
    answers = [program.ask("canon", stage) for stage in dict.fromkeys(stages)]
    return DamagedPage(data, page, tuple(answer.body for answer in answers if isinstance(answer, Accepted)))
