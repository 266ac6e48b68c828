"""Makes the pages that cost most for their length and their budget: codes that are called over and over."""
from typing import Callable, List, Optional, Tuple, Union

# The most bytes of one chunk of codes: a run of 16,384 words, with its opcode and two shifts.
CHUNK = 16384 + 3
# The most displacements of a polygon.
DISPLACEMENTS = 2000

# Puts the macro set into G0, which is in use; G1 has the PDI set, after 0E.
CALLS = b"\x1b\x28\x7a"
SO, SI = b"\x0e", b"\x0f"
REPEAT = b"\x1b\x46\x7f"
ONE_WORD = b"\x21\x40"
CORNER = b"\x64" + b"\x40" * 7
WHITE = b"\x3c" + b"\x7f" * 8

HEADER = 3


class Chunk:
    """Codes, and what they add: entries, bytes of canonical text, bytes of lines."""

    def __init__(self, code: bytes = b"", entries: int = 0, text: int = 0, lines: int = 0) -> None:
        self.code, self.entries, self.text, self.lines = code, entries, text, lines

    def times(self, count: int) -> "Chunk":
        """The codes, a number of times."""
        return Chunk(self.code * count, self.entries * count, self.text * count, self.lines * count)

    def __add__(self, other: "Chunk") -> "Chunk":
        return Chunk(self.code + other.code, self.entries + other.entries, self.text + other.text,
                     self.lines + other.lines)


def line(text: str) -> int:
    """How many bytes a line has, with its end."""
    return len(text) + 1


class Units:
    """Fills a place with one code over and over."""

    def __init__(self, before: bytes, unit: Chunk, after: bytes) -> None:
        self.before, self.unit, self.after = before, unit, after

    def fill(self, size: int) -> Chunk:
        """The codes that a place of this size has room for."""
        room = min(size, CHUNK) - len(self.before) - len(self.after)
        count = room // len(self.unit.code)
        if count <= 0:
            return Chunk()
        return Chunk(self.before) + self.unit.times(count) + Chunk(self.after)


class Shapes:
    """Fills a place with polygons of the most displacements; the last is shorter."""

    def __init__(self, point: str, ink: str) -> None:
        self.point, self.ink = point, ink

    def polygon(self, words: int) -> Chunk:
        """A polygon of a number of displacements of one word."""
        shown = "POLY-OUTLINED" + (" " + self.point) * (words + 1) + " " + self.ink
        return Chunk(b"\x34" + b"\x40" * words, 1, 1 + 8 * (words + 1), line(shown))

    def fill(self, size: int) -> Chunk:
        """The codes that a place of this size has room for."""
        room = min(size, CHUNK) - 2
        whole, rest = divmod(room, 1 + DISPLACEMENTS)
        if whole == 0 and rest < 2:
            return Chunk()
        made = self.polygon(DISPLACEMENTS).times(whole)
        if rest >= 2:
            made = made + self.polygon(rest - 1)
        return Chunk(SO) + made + Chunk(SI)


Filling = Union[Units, Shapes]


class Made:
    """A page, and what it is charged and adds. Where it is refused, the line of that."""

    def __init__(self, page: bytes, charged: int, entries: int, text: int = 0, lines: int = 0,
                 refusal: Optional[str] = None) -> None:
        self.page, self.charged, self.entries = page, charged, entries
        self.text, self.lines, self.refusal = text, lines, refusal


# Makes the page of a kind, of this length and for this budget; and a kind with its name.
Maker = Callable[[int, int], Made]
Kind = Tuple[str, Maker]


def calling(setup: Chunk, units: Filling, length: int, budget: int) -> Made:
    """A page of this length that calls a body of these units until the budget is charged, and then has more of them.

    One macro is the body, another calls that many times. What is left of the length is filled with the same units.
    """
    over = len(setup.code) + len(CALLS) + 8
    body = units.fill((length - over) // 2)
    size = len(body.code)
    many = max(1, int((budget / size) ** 0.5))
    page = setup.code + CALLS + b"\x1b\x40\x21" + body.code + b"\x1b\x40\x22" + b"\x21" * many + b"\x1b\x45"
    outer = min(budget // (many * (size + 1)), length - len(page))
    charged = outer * many * (size + 1)
    page += b"\x22" * outer
    inner = min((budget - charged) // size, length - len(page))
    charged += inner * size
    page += b"\x21" * inner
    acts = setup + body.times(outer * many + inner)
    while length - len(page) >= 4:
        more = units.fill(length - len(page))
        if not more.code:
            break
        page += more.code
        acts = acts + more
    page += b"\0" * (length - len(page))
    assert len(page) == length and charged <= budget
    return Made(page, charged, acts.entries, HEADER + acts.text, acts.lines)


def family(setup: Chunk, units: Filling, run: Optional[int] = None) -> Maker:
    """Pages of one kind, and the number of their entries that share one opcode in canonical text, where it is said."""

    def make(length: int, budget: int) -> Made:
        made = calling(setup, units, length, budget)
        if run:
            made.text += -(-made.entries // run)
        return made

    return make


def words(opcode: bytes, word: Chunk) -> Units:
    """Fills a place with the words of one opcode."""
    return Units(SO + opcode, word, SI)


def repeats(before: bytes, text: int, each: int, shown: str) -> Maker:
    """REPEAT of a character, and the bytes of canonical text before it and of each."""
    size = line(shown)
    return family(Chunk(before, 1, text, size), Units(b"", Chunk(REPEAT, 63, 63 * each, 63 * size), b""))


def padded(page: bytes, length: int) -> bytes:
    """A page with NUL after it, up to a length."""
    return page + b"\0" * (length - len(page))


def descents(length: int, budget: int) -> Made:
    """A body that calls itself with a byte left to read, so that all calls stay open until the budget is charged."""
    page = CALLS + b"\x1b\x40\x21\x21\x7e\x1b\x45\x21"
    return Made(padded(page, length), budget, 0, refusal=f"refused 17 Budget at {len(page) - 1}")


def crowded(length: int, budget: int) -> Made:
    """A long run of points, a store that is full if the page is long enough, and then a descent."""
    run = min(16384, length // 4)
    page = SO + ONE_WORD + b"\x26" + b"\x5b" * run + SI + CALLS
    tail = b"\x1b\x40\x21\x21\x7e\x1b\x45\x21"
    page += b"\x1b\x40\x22" + b"\x7e" * (length - len(page) - 3 - len(tail)) + tail
    return Made(page, budget, run, refusal=f"refused 17 Budget at {len(page) - 1}")


def endless(length: int, budget: int) -> Made:
    """A body that calls itself at its end."""
    page = CALLS + b"\x1b\x40\x21\x7e\x21\x1b\x45\x21"
    return Made(padded(page, length), budget, 0, refusal=f"refused 17 Budget at {len(page) - 1}")


def store(length: int, budget: int) -> Made:
    """One body that fills the store."""
    return Made(b"\x1b\x40\x21" + b"\x7e" * (length - 5) + b"\x1b\x45", 0, 0)


def bindings(length: int, budget: int) -> Made:
    """A name that is bound again and again."""
    return Made(padded(b"\x1b\x40\x21" * (length // 3 - 1) + b"\x1b\x45", length), 0, 0)


def presentations(length: int, budget: int) -> Made:
    """Bodies of no bytes that are presented."""
    count = min(length // 5, budget // 2)
    return Made(padded(b"\x1b\x41\x21\x1b\x45" * count, length), 2 * count, 0)


def unbindings(length: int, budget: int) -> Made:
    """RESET that unbinds all names."""
    count = (length - 2) // 3
    shown = [line("RESET 0 16 pen=start"), line("RESET 0 16 pen=after")]
    page = padded(SO + b"\x20\x40\x50" * count + SI, length)
    return Made(page, 0, count, HEADER + 3 * count, shown[0] + (count - 1) * shown[1])


def glyphs(length: int, budget: int) -> Made:
    """Glyphs without a stroke."""
    count = (length - 2) // 3
    page = padded(b"\x1b\x43\x21" * count + b"\x1b\x45", length)
    return Made(page, 0, 2 * count, HEADER + 5 * count, count * (line("GLYPH 21") + line("END")))


PLACE = "6291456,6291456"
LOOKS = b"\x1b\x48\x1b\x59\x1b\x55\x1b\x57"
BEFORE_WIDE = SO + b"\x21\x5f" + WHITE + b"\x22\x7f\x7f" + CORNER + LOOKS + SI + b"\x19A"
BEFORE_RECTANGLES = SO + b"\x21\x5f" + CORNER + WHITE + b"\x23\x7f" + CORNER + ONE_WORD + b"\x24\x5b" + SI
AT_PLACE = Chunk(SO + ONE_WORD + b"\x24\x5b" + SI)

plain_repeats = repeats(b"A", 2, 1, "CHAR primary 41 pen=after colour=own-start text=0,0/normal/----")
# A character whose line is long.
wide_repeats = repeats(
    BEFORE_WIDE, len(WHITE) + 3 + len(CORNER) + len(LOOKS) + 2, 2,
    "CHAR supplementary 41 pen=after colour=direct:65535,65535,65535 text=63,63/-8388608,-8388608/ruws")
drcs_repeats = repeats(b"\x1b\x2b\x7b\x1dA", 8, 8, "CHAR drcs 41 pen=after colour=own-start text=0,0/normal/----")
points = family(Chunk(SO + ONE_WORD + SI),
                words(b"\x26", Chunk(b"\x5b", 1, 8, line(f"POINT {PLACE} pel=0,0 colour=own-start"))), 2048)
# Rectangles whose lines are long.
rectangles = family(Chunk(BEFORE_RECTANGLES, 0, 10 + 9 + 10), words(b"\x30", Chunk(b"\x40", 1, 16, line(
    f"RECT-OUTLINED {PLACE} {PLACE} pel=-8388608,-8388608 colour=direct:65535,65535,65535 "
    "texture=63/-8388608,-8388608"))), 1024)
polygons = family(AT_PLACE, Shapes(PLACE, "pel=0,0 colour=own-start texture=0/none"))
# Circles, which are arcs of one displacement.
circles = family(AT_PLACE, Units(SO, Chunk(b"\x2c\x40", 1, 1 + 8 * 3, line(
    f"ARC-OUTLINED {PLACE} {PLACE} {PLACE} pel=0,0 colour=own-start texture=0/none")), SI))
fields = family(Chunk(), Units(SO, Chunk(b"\x38", 1, 1, line("FIELD whole pen=after")), SI))
# Colours of the map that change.
maps = family(Chunk(SO + ONE_WORD + b"\x3e\x7f" + SI, 0, 5), Units(SO, Chunk(
    b"\x3c\x7f\x3c\x40", 2, 18, line("MAP 16515072 49152,49152,49152") + line("MAP 16515072 0,0,0")), SI))
bells = family(Chunk(), Units(b"", Chunk(b"\x07", 1, 1, line("BELL")), b""))

POLYGONS = f"polygons, up to {DISPLACEMENTS:,} words"

CALLED: List[Kind] = [
    ("REPEAT of 63", plain_repeats),
    ("rectangles of one word", rectangles),
    ("points of one word", points),
    (POLYGONS, polygons),
    ("circles of two bytes", circles),
    ("FIELD without operands", fields),
    ("waits", family(Chunk(), words(b"\x3d", Chunk(b"\x7f", 1, 2, line("WAIT 63"))))),
    ("maps", maps),
    ("bells", bells),
    ("calls of no body", family(Chunk(), Units(b"", Chunk(b"\x7e"), b""))),
    ("SELECT COLOR, no entry", family(Chunk(), Units(SO, Chunk(b"\x3e"), SI))),
    ("escapes, no entry", family(Chunk(), Units(b"", Chunk(b"\x1b\x50"), b""))),
    ("a body calls itself, last", endless),
    ("a body calls itself, first", descents),
    ("the same, with a full store", crowded),
]

UNCALLED: List[Kind] = [
    ("one body fills the store", store),
    ("a name bound again", bindings),
    ("empty presentations", presentations),
    ("RESET unbinds all names", unbindings),
    ("glyphs without a stroke", glyphs),
]
