"""Lines of lists by chance, right ones and wrong ones, the same for the same seed and the same lists."""
import random
from typing import Callable, Dict, List, Sequence, Tuple

# Lines as a name and the sorts of their fields, which are keys of CHOICES or of RandomLines._texts; `p..` are more
# points, and any other word stands for itself.
SHAPES = tuple(
    f"{name} {fields}" for fields, names in {
        "p pel=m colour=C": ["POINT"], "p p INK": ["LINE", "RECT-OUTLINED", "RECT-FILLED"],
        "p p p p.. INK": ["ARC-OUTLINED", "ARC-FILLED"], "p p p.. INK": ["POLY-OUTLINED", "POLY-FILLED"],
        "set c HAND": ["CHAR", "CHAR"], "step HAND": ["MOVE"], "APS c c HAND": ["MOVE"], "HAND": ["TO-EOL"],
        "a v": ["MAP", "MAP"], "a t colour=C": ["BLINK"], "colour=C": ["BLINK-END", "BLINK-START", "BLINK-STOP"],
        "n": ["WAIT"], "state": ["CURSOR"], "whole pen=N": ["FIELD"], "p p pen=N": ["FIELD"], "n n pen=N": ["RESET"],
        "pen=N": ["CLEAR"], "c": ["GLYPH"], "mask": ["MASK"], "": ["BELL", "END"],
    }.items() for name in names
)
PARTS = {"INK": "pel=m colour=C texture=T", "HAND": "pen=N colour=C text=L"}
CHOICES: Dict[str, Sequence[str]] = {
    "set": ("primary", "supplementary", "mosaic", "drcs"), "step": ("APB", "APF", "APD", "APU", "APR", "APH"),
    "state": ("flash", "steady", "off"), "mask": "ABCD",
    "S": ("small", "medium", "normal", "tall", "double"),
}
# What is put into lines, or in place of something there.
PIECES = (
    b"\n", b"\r", b"\r\n", b" ", b"  ", b"\0", b"\x80", b"0", b"-", b"-0", b"+5", b"007", b"9", b",", b"/", b"=", b":",
    b"END\n", b"GLYPH 41\n", b"BELL\n", b"APS ", b"whole ", b"none", b"start", b"x", b"8388608", b"\xc3\xa9",
)
MOST_POINTS = 2001


class RandomLines:
    """Lines by chance: some of given lists, and some that are made here."""

    def __init__(self, seed: str, lists: Sequence[bytes]) -> None:
        self._chance = random.Random(seed)
        self._lists = lists
        self._texts: Dict[str, Callable[[], str]] = {
            "p": lambda: self._numbers(2, 0, 2**23 - 1), "m": lambda: self._numbers(2, -2**23, 2**23 - 1),
            "a": lambda: self._numbers(1, 0, 2**24 - 1), "n": lambda: self._numbers(1, 0, 63),
            "v": lambda: self._numbers(3, 0, 65535), "t": lambda: self._numbers(3, 0, 63), "c": self._code,
            "C": self._colour, "N": self._pen, "T": self._texture, "L": self._look,
        }
        self._changes: Tuple[Callable[[bytes], bytes], ...] = (
            self._put, self._put, self._cut, self._cut, self._byte, self._word, self._word, self._number, self._end,
        )

    def next(self) -> bytes:
        """Some lines, changed in at most four places."""
        text = self._lines()
        for _ in range(self._chance.choice((0, 0, 1, 1, 1, 2, 4))):
            text = self._chance.choice(self._changes)(text)
        return text

    def _one(self, *several: str) -> str:
        return self._chance.choice(several)

    def _lines(self) -> bytes:
        """Lines of a list, or lines of any kinds."""
        if self._chance.random() < 0.3:
            lines = self._chance.choice(self._lists).splitlines(keepends=True)
            begin = self._chance.randrange(len(lines))
            return b"".join(lines[begin and self._chance.choice((0, begin)):][: self._chance.randint(1, 12)])
        if self._chance.random() < 0.05:
            return "".join(self._map() for _ in range(30)).encode()
        return "".join(self._line() for _ in range(self._chance.choice((1, 1, 1, 2, 3, 20)))).encode()

    def _map(self) -> str:
        """A colour of the map, often one that is known, at one of more addresses than are known; or RESET."""
        if self._chance.random() < 0.05:
            return f"RESET {self._chance.randrange(8)} 0 pen={self._one('start', 'after')}\n"
        return f"MAP {self._chance.randrange(40)} 0,0,{self._chance.randrange(2)}\n"

    def _line(self) -> str:
        shape = self._one(*SHAPES)
        for name, fields in PARTS.items():
            shape = shape.replace(name, fields)
        return " ".join(self._field(field) for field in shape.split()) + "\n"

    def _field(self, field: str) -> str:
        """The text of a field of a shape."""
        if field == "p..":
            most = MOST_POINTS if self._chance.random() < 0.002 else 4
            return " ".join(self._texts["p"]() for _ in range(self._chance.choice((1, most - 3, most - 2, most))))
        key, equals, sort = field.rpartition("=")
        if sort in CHOICES:
            return key + equals + self._one(*CHOICES[sort])
        return key + equals + (self._texts[sort]() if sort in self._texts else sort)

    def _numbers(self, count: int, least: int, most: int) -> str:
        """Numbers, the ends of their range among them, and seldom one that is outside."""
        ends = (least, most, 0, 1, self._chance.randint(least, most), self._chance.randint(least, most))
        outside = (least - 1, most + 1) if self._chance.random() < 0.01 else ()
        return ",".join(str(self._chance.choice((*ends, *outside))) for _ in range(count))

    def _code(self) -> str:
        return f"{self._chance.choice((0x20, 0x7F, 0x1F, 0x80, *range(0x21, 0x7F))):02x}"

    def _colour(self) -> str:
        if self._chance.random() < 0.7:
            return "own-start"
        address = self._texts["a"]
        made = f"direct:{self._texts['v']()}", f"front:{address()}", f"pair:{address()},{address()}"
        return self._one("own-reset", "reset-2", "reset-3", *made)

    def _pen(self) -> str:
        return self._one("start", "after", "after", self._texts["p"](), self._texts["p"]())

    def _texture(self) -> str:
        return self._texts["n"]() + "/" + self._one("none", "none", self._texts["m"]())

    def _look(self) -> str:
        flags = "".join(self._one("-", flag) for flag in "ruws")
        return f"{self._numbers(2, 0, 63)}/{self._one(*CHOICES['S'], self._texts['m']())}/{flags}"

    def _put(self, text: bytes) -> bytes:
        at = self._chance.randrange(len(text) + 1)
        return text[:at] + self._chance.choice(PIECES) + text[at + self._chance.choice((0, 0, 1, 5)):]

    def _cut(self, text: bytes) -> bytes:
        at = self._chance.randrange(len(text) + 1)
        return text[:at] + text[at + self._chance.choice((1, 1, 2, 9, len(text))):]

    def _byte(self, text: bytes) -> bytes:
        at = self._chance.randrange(len(text) + 1)
        return text[:at] + bytes([self._chance.randrange(256)]) + text[at + 1:]

    def _word(self, text: bytes) -> bytes:
        """One word dropped, given twice, or put in place of another."""
        words = text.split(b" ")
        at, other = self._chance.randrange(len(words)), self._chance.randrange(len(words))
        instead: List[List[bytes]] = [[], [words[at]] * 2, [words[other]]]
        return b" ".join(words[:at] + self._chance.choice(instead) + words[at + 1:])

    def _number(self, text: bytes) -> bytes:
        """A number beside one that is there, or that one spelled otherwise."""
        places = [at for at, byte in enumerate(text) if 0x30 <= byte <= 0x39]
        if not places:
            return text
        at = self._chance.choice(places)
        return text[:at] + self._chance.choice((b"0", b"1", b"9", b"-", b"00", b"64", b"8388608")) + text[at:]

    def _end(self, text: bytes) -> bytes:
        return text[:-1] if text.endswith(b"\n") else text + b"\n"
