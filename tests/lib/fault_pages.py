"""Pages, lines and requests, and the answers of each command to them where no call fails."""
from typing import Dict, Iterable, List, Optional, Sequence, Tuple, Union

from dev.judging import Answer

Words = List[str]
HEADER = bytes.fromhex("0e215f")
COMMANDS: List[Words] = [
    ["list"],
    ["check"],
    ["canon"],
    ["canon", "--stream"],
    ["list", "--hex"],
    ["check", "--hex"],
    ["canon", "--hex"],
]
MAKES: List[Words] = [["make"], ["make", "--stream"]]
HELPS: List[Words] = [["--help"], ["list", "--help"], ["canon", "--help"]]
WRONG: List[Words] = [[], ["frob"], ["list", "--what"], ["list", "--budget", "x"]]
CENTRE = bytes.fromhex("2652") + b"@" * 7
CENTRE_LINE = "POINT 4194304,4194304 pel=0,0 colour=own-start"
CIRCLE = bytes.fromhex("2e") + b"@" * 8 + b"\x49" + b"@" * 7 + b"\x7f" + b"@" * 7
CIRCLE_LINE = "ARC-OUTLINED 0,0 2097152,2097152 0,0 pel=0,0 colour=own-start texture=0/none"
SIGNS = "colour=own-start text=0,0/normal/----"


def name_of(value: object) -> str:
    """The name of a command line, a page or a number, for a test."""
    if isinstance(value, list):
        return "-".join(word.strip("-") for word in value) or "nothing"
    return str(value)


class Page:
    """A page, and its answers: canonical pieces and lines, an entry each, or a refusal."""

    def __init__(self, name: str, stream: Union[str, bytes], pieces: Iterable[Union[str, bytes]] = (),
                 lines: Sequence[str] = (), refusal: Optional[str] = None) -> None:
        self.name = name
        self.stream = bytes.fromhex(stream) if isinstance(stream, str) else stream
        self.hex = self.stream.hex().encode() + b"\n"
        self.pieces = [HEADER] + [bytes.fromhex(piece) if isinstance(piece, str) else piece for piece in pieces]
        self.canonical = b"".join(self.pieces)
        self.lines = "".join(line + "\n" for line in lines).encode()
        self.count = len(lines)
        self.refusal = refusal

    def __repr__(self) -> str:
        return self.name

    def beginnings(self) -> List[bytes]:
        """The canonical text of the first entries, of each number of them."""
        return [b"".join(self.pieces[:count]) for count in range(1, len(self.pieces) + 1)]

    def input(self, words: Words) -> bytes:
        """The bytes that a command reads."""
        return self.hex if "--hex" in words else self.stream

    def answer(self, words: Words) -> Answer:
        """The answer of a command."""
        if self.refusal is not None:
            line = self.refusal.encode() + b"\n"
            if words[0] == "check":
                return Answer(1, line)
            return Answer(1, self.canonical if "--stream" in words else b"", line)
        if words[0] == "list":
            return Answer(0, self.lines)
        if words[0] == "check":
            return Answer(0, f"accepted {self.count} entries\n".encode())
        if "--hex" in words:
            return Answer(0, self.canonical.hex().encode() + b"\n")
        return Answer(0, self.canonical)

    def written(self, count: int) -> bytes:
        """The canonical text that --stream writes of the first bytes, where they aren't all."""
        entries = WRITTEN[self.name]
        return b"".join(self.pieces[: 1 + entries[min(count, len(entries) - 1)]])


class Lines(Page):
    """The lines of a page, which `make` makes again; or lines with a mistake, which it reports."""

    def __init__(self, page: Page, more: bytes = b"", refusal: Optional[str] = None) -> None:
        super().__init__(f"lines of {page.name} {more.decode().strip()}".rstrip(), page.lines + more, refusal=refusal)
        self.pieces = page.pieces
        self.canonical = page.canonical

    def answer(self, words: Words) -> Answer:
        """The page of the lines, or the report of their mistake."""
        if self.refusal is not None:
            return Answer(1, self.canonical if "--stream" in words else b"", self.refusal.encode() + b"\n")
        return Answer(0, self.canonical)

    def written(self, count: int) -> bytes:
        """The entries of the lines that have ended."""
        return b"".join(self.pieces[: 1 + self.stream[:count].count(b"\n")])


class Requests(Page):
    """Requests to `batch`, each a command, a page, and the line and the payload of its answer."""

    def __init__(self, name: str, exchanges: Sequence[Tuple[str, bytes, str, bytes]]) -> None:
        self.requests = [f"{command} 1048576 {len(text)}\n".encode() + text for command, text, _, _ in exchanges]
        self.answers = [f"{line}\n{len(body)}\n".encode() + body for _, _, line, body in exchanges]
        super().__init__(name, b"".join(self.requests))

    def answer(self, words: Words) -> Answer:
        """The answers to all requests."""
        return Answer(0, b"".join(self.answers))

    def written(self, count: int) -> bytes:
        """The answers to the requests that are complete in the first bytes."""
        output = b""
        for request, answer in zip(self.requests, self.answers):
            count -= len(request)
            if count < 0:
                break
            output += answer
        return output


# The entries that are complete after each number of bytes.
WRITTEN: Dict[str, List[int]] = {"point": [0], "glyph": [0] * 8 + [1] * 5 + [2] + [3]}

POINT = Page("point", "0e26524040", [CENTRE], [CENTRE_LINE])
GLYPH = Page(
    "glyph",
    "0e245040401b4341214026491b4528524040",
    ["1b4341", bytes.fromhex("2649") + b"@" * 7, "1b45", bytes.fromhex("2a50") + b"@" * 7 + b"\x52" + b"@" * 7],
    [
        "GLYPH 41",
        "POINT 2097152,2097152 pel=0,0 colour=own-start",
        "END",
        "LINE 4194304,0 4194304,4194304 pel=0,0 colour=own-start texture=0/none",
    ],
)
# A polygon has no more displacements.
DISPLACEMENTS = 2000
POLYGON = Page(
    "polygon",
    bytes.fromhex("0e214034") + b"@" * DISPLACEMENTS,
    [b"\x36" + b"@" * (8 * (DISPLACEMENTS + 1))],
    ["POLY-OUTLINED" + " 0,0" * (DISPLACEMENTS + 1) + " pel=0,0 colour=own-start texture=0/none"],
)
MANY = Page(
    "too many displacements",
    bytes.fromhex("0e214034") + b"@" * (DISPLACEMENTS + 1),
    refusal="refused 14 ManyPoints at 3",
)
PAGES = [
    POINT,
    Page("circle", "0e2e404040494040", [CIRCLE], [CIRCLE_LINE]),
    Page("circle by three points", "0e2e4040404940407f4040", [CIRCLE], [CIRCLE_LINE]),
    Page("point by a macro", "1b40210e26521b451b2f7a1d214040", [CENTRE], [CENTRE_LINE]),
    Page("shown macro", "1b41210e26521b43411b45", [CENTRE, "1b4341", "1b45"], [CENTRE_LINE, "GLYPH 41", "END"]),
    POLYGON,
    MANY,
    GLYPH,
    Page(
        "three sets",
        "19411d421b287b43",
        ["1941", "1d42", "1b2b7b1d431b2b7d"],
        [
            f"CHAR supplementary 41 pen=start {SIGNS}",
            f"CHAR mosaic 42 pen=after {SIGNS}",
            f"CHAR drcs 43 pen=after {SIGNS}",
        ],
    ),
    Page("full store", bytes.fromhex("1b4021") + b"A" * 1048576 + bytes.fromhex("1b45")),
    Page(
        "store that runs over",
        bytes.fromhex("1b4021") + b"A" * 1048577 + bytes.fromhex("1b45"),
        refusal="refused 18 Store at 1048579",
    ),
]
# A run has 2,048 points, of which the first comes after the opcode.
LONG = Page("thirty thousand points", b"\x0e" + b"&R@@" * 30000,
            [CENTRE if number % 2048 == 0 else CENTRE[1:] for number in range(30000)], [CENTRE_LINE] * 30000)
# More lines than a write has, and then more points, more bytes of bodies and more open bodies than before: of twelve
# macros each calls the next, and has a shift after that.
MACROS = range(0x21, 0x21 + 12)
BODIES = [bytes([name, 0x0F]) for name in MACROS[1:]] + [b"\x0e&R@@\x0f"]
LATE = Page(
    "late growths",
    b"\x0e" + b"&R@@" * 3000 + b"\x34" + b"@" * (3 * DISPLACEMENTS) + b"\x0f"
    + b"".join(b"\x1b\x40" + bytes([name]) + body for name, body in zip(MACROS, BODIES)) + b"\x1b\x45\x1b(z\x21",
    lines=[
        *[CENTRE_LINE] * 3000,
        "POLY-OUTLINED" + " 4194304,4194304" * (DISPLACEMENTS + 1) + " pel=0,0 colour=own-start texture=0/none",
        CENTRE_LINE,
    ],
)
MADE_AGAIN = [Lines(POINT), Lines(GLYPH)]
MISTAKEN = Lines(GLYPH, b"WAIT 64\n", "line 5: no line of a list, at column 6")
REQUESTS = Requests(
    "requests",
    [
        ("check", POINT.stream, "accepted 1 entries", b""),
        ("list", GLYPH.stream, "accepted 4 entries", GLYPH.lines),
        ("canon", GLYPH.stream, "accepted 4 entries", GLYPH.canonical),
        ("check", bytes.fromhex("0e2652287f"), "refused 10 Outside at 3", b""),
        ("places", POINT.stream, "accepted 1 entries", b"5 " + POINT.lines),
    ],
)
