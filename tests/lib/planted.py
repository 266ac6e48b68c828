"""Files with pages planted in them, of which it is known where each page stands and what stands around it."""
import re
from random import Random
from typing import Callable, Dict, List, NamedTuple, Tuple

from naplps.answers import Accepted
from naplps.client import Client
from old_files import sauce
from pictures import picture
from samples import with_parity

SEPARATORS = (b"\x1f", b"\x1f\x41\x52", b"\x18", b"\x18\x1f", b"\x1a", b"\x1b\x22\x46", b"\x1b\x25\x41",
              b"\x18\x1b\x22\x46\x1b\x25\x41", b"\x1a\x1a\x1a", b"\x1a\r\n\x18", b"\x18\0\0")
BEFORE = (b"CONNECT 1200\r\n", b"ATDT 555\r\r\nCONNECT\r\n", b"PAGE 335\r\n")
BEHIND = (b"\r\nNO CARRIER\r\n", b"\r\nOK\r\n+++ATH\r\n", b"\r\n")
FILLS = (b"\0", b"\xe5", b"\xf6", b"\xff")
RESET = b"\x0e\x20\x79\x4f"
# A macro of a rectangle and a point, and its call.
MACRO_PAGE = b"\x1b\x40\x41\x0e\x21\x48\x33\x49\x40%c\x49\x40\x40\x26\x52\x40\x40\x0f\x1b\x45\x1b\x2a\x7a\x19\x41"
BEGINNINGS = ("CS", "RESET", "SO", "canonical", "made", "macro")


class Planted(NamedTuple):
    """A file, and where the pages stand in it; whether they stand between separators; what sort of file it is."""

    data: bytes
    places: Tuple[Tuple[int, int], ...]
    is_capture: bool
    sort: str

    @property
    def pages(self) -> List[bytes]:
        """The pages, as they stand there."""
        return [self.data[at:end] for at, end in self.places]


def page_of(beginning: str, chance: Random, number: int, program: Client) -> bytes:
    """A page that begins so, and is accepted."""
    while True:
        some = picture(chance, number)
        bare = some.lstrip(b"\x0c")
        if beginning == "CS":
            made = b"\x0c" + bare
        elif beginning == "RESET":
            made = RESET + bare[1:]
        elif beginning == "SO":
            made = bare
        elif beginning == "macro":
            made = MACRO_PAGE % (0x40 + number % 64) + bare
        else:
            answer = program.ask("canon", b"\x0c" + bare if beginning == "canonical" else RESET + bare[1:])
            assert isinstance(answer, Accepted)
            made = answer.body
        if isinstance(program.ask("check", made), Accepted):
            return made


def pool(program: Client, number: int = 300, seed: int = 1984) -> List[bytes]:
    """Pages of all beginnings, no two of which draw the same."""
    chance = Random(seed)
    return [page_of(BEGINNINGS[at % len(BEGINNINGS)], chance, at, program) for at in range(number)]


def joined(pages: List[bytes], between: Callable[[int], bytes], front: bytes = b"", end: bytes = b"") -> Tuple[
        bytes, Tuple[Tuple[int, int], ...]]:
    """Pages with bytes between them, and where they stand."""
    data, places = front, []
    for at, page in enumerate(pages):
        data += between(at) if at else b""
        places.append((len(data), len(data) + len(page)))
        data += page
    return data + end, tuple(places)


def alone(chance: Random, pages: List[bytes]) -> Planted:
    """A page by itself."""
    return Planted(*joined(pages[:1], bytes), False, "alone")


def beside(chance: Random, pages: List[bytes]) -> Planted:
    """A page with text, separators, 1A, fills or a header around it."""
    fill = chance.choice(FILLS) * chance.randrange(1, 200)
    front = chance.choice((b"", chance.choice(BEFORE) + b"\x18", b"\x18", b"\x1b\x22\x46", record(chance)))
    end = chance.choice((b"", b"\x1a", b"\x1a" * 60, b"\x1a" + fill, b"\x1a" + chance.choice(BEHIND),
                         chance.choice(BEHIND) + b"\x1a", b"\x1a" + rest(chance)))
    made = Planted(*joined(pages[:1], bytes, front, end), False, "beside")
    return made._replace(data=sauce(made.data), sort="sauce") if chance.random() < 0.1 else made


def rest(chance: Random) -> bytes:
    """What was on a disk before, of any bytes, with no shape by chance."""
    while True:
        made = chance.randbytes(chance.randrange(20, 120))
        if not re.search(rb"\x0e[\x26-\x37][\x40-\x7f]", made):
            return made


def record(chance: Random) -> bytes:
    """The header of a record: a number, a name and lengths, with bytes above 7F and with any others."""
    return chance.choice((b"\0\x0c", b"\x01\x0e", b"\0\x08")) + b"PAGE%03d" % chance.randrange(1000) + bytes(
        chance.choice((chance.randrange(0x80, 0x100), 0, chance.randrange(0x20, 0x7F))) for _ in range(16)) + b"\x80\0"


def capture(chance: Random, pages: List[bytes]) -> Planted:
    """Pages as they were sent one after another, with separators between them."""
    some = pages[:chance.randrange(2, 21)]
    one = chance.choice(SEPARATORS)
    mixed = chance.random() < 0.3
    front = chance.choice((b"", one, chance.choice(BEFORE) + one, chance.choice(BEFORE) + b"\x18"))
    end = chance.choice((b"", one, b"\x1a", b"\x1a\x1a\0\0", b"\x18" + chance.choice(BEHIND)))

    def between(at: int) -> bytes:
        made = chance.choice(SEPARATORS) if mixed else one
        return made + chance.choice(BEFORE) + b"\x18" if chance.random() < 0.05 else made
    made = Planted(*joined(some, between, front, end), True, "capture")
    if chance.random() < 0.15:
        return made._replace(data=with_parity(made.data, chance.random() < 0.5), sort="parity")
    return made


def records(chance: Random, pages: List[bytes]) -> Planted:
    """Pages each behind the header of a record, and with 1A behind it or nothing."""
    end = chance.choice((b"", b"\x1a"))
    return Planted(*joined(pages[:chance.randrange(2, 6)], lambda at: end + record(chance), record(chance), end), False,
                   "records")


def in_a_row(chance: Random, pages: List[bytes]) -> Planted:
    """Pages with nothing between them, or with fills, and sometimes a damaged byte amid the first."""
    fill = chance.choice((b"", b"\0\0", b"\xe5" * 40, b"\xff"))
    data, places = joined(pages[:chance.randrange(2, 21)], lambda at: fill)
    if chance.random() < 0.3:
        at = places[0][1] // 2
        data = data[:at] + bytes((data[at] | 0x80,)) + data[at + 1:]
    return Planted(data, places, False, "in a row")


MAKERS: Dict[Callable[[Random, List[bytes]], Planted], int] = {
    alone: 10, beside: 35, capture: 35, records: 8, in_a_row: 12}


def files(number: int, program: Client, seed: int = 86) -> List[Planted]:
    """A number of files of all sorts."""
    chance, some = Random(seed), pool(program)
    makers = chance.choices(list(MAKERS), list(MAKERS.values()), k=number)
    return [make(chance, chance.sample(some, 20)) for make in makers]
