#!/usr/bin/env python3
"""Reads canonical streams of NAPLPS. This file needs no other, and no program; docs/CANONICAL.md has the format.

    from naplps.canonical import read
    for entry in read(stream):
        print(entry.place, entry.line)

A canonical stream is what `naplps canon` and `naplps make` print. `canonical.py list < STREAM` prints its lines.
"""
import sys
from dataclasses import dataclass
from typing import TYPE_CHECKING, Any, Callable, Container, Dict, Iterator, List, Optional, Sequence, Tuple

if TYPE_CHECKING:
    from .entry import Entry

Point = List[int]
Members = Dict[str, Any]

# The side of the unit screen, in steps; and how many colours of the map are known at most.
ONE, MOST_KNOWN = 1 << 23, 16
HEADER = b"\x0e\x21\x5f"
_INK, _HAND, _PEN, _COLOUR = ("pel", "colour", "texture"), ("colour", "pen", "text"), ("pen",), ("colour",)
_SINGLES, _PAIRS, _ARCS, _POLYGONS = (range(first, last + 1, step) for first, last, step in (
    (8, 16384, 8), (16, 16384, 16), (24, 16008, 8), (16, 16008, 8)))
# The opcodes: how many bytes the run of each may have, and the entries that it makes of points.
_RUNS: Dict[int, Tuple[Container[int], str]] = {
    0x20: ((2,), ""), 0x21: ((1, 9), ""), 0x22: ((2, 10), ""), 0x23: ((1, 9), ""), 0x24: ((8,), "PEN"),
    0x26: (_SINGLES, "POINT"), 0x28: (_SINGLES, "LINE"), 0x2A: (_PAIRS, "LINE"), 0x2E: (_ARCS, "ARC-OUTLINED"),
    0x2F: (_ARCS, "ARC-FILLED"), 0x32: (_PAIRS, "RECT-OUTLINED"), 0x33: (_PAIRS, "RECT-FILLED"),
    0x36: (_POLYGONS, "POLY-OUTLINED"), 0x37: (_POLYGONS, "POLY-FILLED"), 0x38: ((0, 16), "FIELD"),
    0x3C: ((8,), ""), 0x3D: ((1,), ""), 0x3E: ((0, 4, 8), ""), 0x3F: ((0, 7), "")}
_MOVES = {0x08: "APB", 0x09: "APF", 0x0A: "APD", 0x0B: "APU", 0x0D: "APR", 0x1E: "APH"}
# What the byte after ESC makes current.
_TEXTS: Dict[int, Members] = {
    **{byte: {"size": size, "given": None} for byte, size in zip(
        (0x4A, 0x4B, 0x4C, 0x4D, 0x4F), ("small", "medium", "normal", "tall", "double"))},
    **{byte: {flag: on} for flag, *both in (
        ("reverse", 0x48, 0x49), ("underline", 0x59, 0x5A), ("wrap", 0x55, 0x56), ("scroll", 0x57, 0x58))
        for byte, on in zip(both, (True, False))}}
# The entries of codes without an argument, with what these hold: bytes, and those after ESC.
_BYTES: Dict[int, Tuple[str, Sequence[str], Members]] = {
    0x07: ("BELL", (), {}), 0x0C: ("CLEAR", _PEN, {}),
    **{byte: ("MOVE", _HAND, {"move": name, "bytes": []}) for byte, name in _MOVES.items()}}
_CONTROLS: Dict[int, Tuple[str, Sequence[str], Members]] = {
    0x4E: ("BLINK-START", _COLOUR, {}), 0x5E: ("BLINK-STOP", _COLOUR, {}),
    **{0x5B + i: ("CURSOR", (), {"cursor": name}) for i, name in enumerate(("flash", "steady", "off"))}}


class NotCanonical(ValueError):
    """The stream isn't canonical: `reason`, a name of the table of refusals, and `place`, an offset."""

    def __init__(self, reason: str, place: int) -> None:
        super().__init__(f"refused {reason} at {place}")
        self.reason, self.place = reason, place


@dataclass(frozen=True)
class CanonicalEntry:
    """An act of the page. `members` are those of the JSON of entries; entries share them, so they aren't changed."""

    members: Members

    @property
    def kind(self) -> str:
        """The first word of its line."""
        return str(self.members["kind"])

    @property
    def place(self) -> int:
        """The offset of the byte that completes it: the first after its run, or the last of its control."""
        return int(self.members["place"])

    @property
    def entry(self) -> "Entry":
        """The entry of the module naplps, where that is there too."""
        from naplps.entry import read_line
        return read_line(self.line)

    @property
    def line(self) -> str:
        """The line that `naplps list` prints of it, without its end."""
        return " ".join(filter(None, (write(self.members) for name, write in _WRITERS if name in self.members)))

    def __str__(self) -> str:
        return self.line


class _Reader:
    """A stream, how far it is read, and what is current there."""

    def __init__(self, stream: bytes) -> None:
        self.stream, self.at = stream, 1
        self.state: Members = {"pen": _pen("start"), "pel": [0, 0], "colour": _colour("own-start"),
                               "base": _colour("own-start"), "texture": _PLAIN, "text": _TEXT}
        self.saved: Optional[Members] = None
        self.known: List[Tuple[int, List[int]]] = []
        self.draws, self.after_character = True, False

    def code(self) -> List[CanonicalEntry]:
        """The entries of the next code."""
        place, byte = self.at, self._next()
        if byte == 0x1B:
            return self._control(self._next())
        if byte in (0x0E, 0x0F):
            self.draws = byte == 0x0E
            return []
        if byte in _BYTES:
            kind, held, members = _BYTES[byte]
            return self._entry(kind, place, held, **members)
        if byte == 0x1C:
            both = [self._argument(), self._argument()]
            return self._entry("MOVE", self.at - 1, _HAND, move="APS", bytes=both)
        if byte in (0x19, 0x1D):
            return self._character("supplementary" if byte == 0x19 else "mosaic", self._argument(), place + 1)
        if 0x20 <= byte < 0x80 and not self.draws:
            return self._character("primary", byte, place)
        self._refuse_if(byte not in _RUNS or not self.draws, "BadCode", place)
        return self._opcode(byte, place)

    def _control(self, byte: int) -> List[CanonicalEntry]:
        """The entries of ESC and this byte."""
        place = self.at - 1
        if byte in _CONTROLS:
            kind, held, members = _CONTROLS[byte]
            return self._entry(kind, place, held, **members)
        if byte == 0x47:
            self._refuse_if(not self.after_character, "NothingToRepeat", place)
            return self._entry("TO-EOL", place, _HAND)
        if byte == 0x2B:  # a character of DRCS, which is in G3 for it alone
            self._expect(b"\x7b\x1d")
            code, place = self._argument(), self.at - 1
            self._expect(b"\x1b\x2b\x7d")
            return self._character("drcs", code, place)
        if byte in (0x43, 0x44, 0x45):
            return self._definition(byte, place)
        self._refuse_if(byte not in _TEXTS, "BadCode", place)
        self.state["text"] = {**self.state["text"], **_TEXTS[byte]}
        return []

    def _definition(self, byte: int, place: int) -> List[CanonicalEntry]:
        """The start of a glyph or a mask, or the end of one."""
        self._refuse_if((byte == 0x45) != (self.saved is not None), "BadDefinition", place)
        if self.saved:
            self.state, self.saved = self.saved, None
            return self._entry("END", place)
        code = self._argument() if byte == 0x43 else self._argument(0x41, 0x44)
        self.saved, self.state = self.state, {**self.state, "pen": _pen("start")}
        members: Members = {"character": code} if byte == 0x43 else {"mask": chr(code)}
        return self._entry("GLYPH" if byte == 0x43 else "MASK", place + 1, **members)

    def _opcode(self, opcode: int, start: int) -> List[CanonicalEntry]:
        """The entries of an opcode and its run, the bytes 40 to 7F that follow it."""
        while self.at < len(self.stream) and 0x40 <= self.stream[self.at] < 0x80:
            self.at += 1
        run, (lengths, shape) = self.stream[start + 1:self.at], _RUNS[opcode]
        words = [byte - 0x40 for byte in run]
        self._refuse_if(len(run) not in lengths, "BadOperands", start)
        self._refuse_if(opcode == 0x21 and run[0] != 0x5F, "OperandLength", start)
        if shape:
            return self._shapes(shape, opcode, start, [_pair(run[i:i + 8]) for i in range(0, len(run), 8)])
        if opcode == 0x20:
            return self._reset(words[0], words[1], start)
        if opcode == 0x3C:
            return self._set_colour(_value(words), start)
        if opcode == 0x3D:
            return self._entry("WAIT", self.at, tenths=words[0])
        if opcode == 0x3F and not run:
            return self._entry("BLINK-END", self.at, _COLOUR)
        if opcode == 0x3F:
            on, off, delay = words[4:]
            return self._entry("BLINK", self.at, _COLOUR, address=_number(words[:4]), on=on, off=off, delay=delay)
        self._attributes(opcode, words, _pair(run[-8:]) if len(run) > 8 else None)
        return []

    def _attributes(self, opcode: int, words: List[int], size: Optional[Point]) -> None:
        """DOMAIN, TEXT, TEXTURE and SELECT COLOR, which make attributes current."""
        state = self.state
        if opcode == 0x21:
            state["pel"] = size or state["pel"]
        elif opcode == 0x22:
            given = {"size": "given", "given": size} if size else {}
            state["text"] = {**state["text"], "words": words[:2], **given}
        elif opcode == 0x23:
            state["texture"] = {"word": words[0], "mask": size or state["texture"]["mask"]}
        else:
            addresses = [_number(words[i:i + 4]) for i in range(0, len(words), 4)]
            kinds = ("own", "front", "pair")
            state["colour"] = _colour(kinds[len(addresses)], None, addresses) if words else state["base"]

    def _shapes(self, kind: str, opcode: int, start: int, operands: List[Point]) -> List[CanonicalEntry]:
        """The entries of an opcode with points, once all of these are known to be on the unit screen."""
        pen, made = self.state["pen"]["point"], []
        self._refuse_if(opcode == 0x28 and pen is None, "PenUnknown", start)
        shapes = _points(kind, [pen, *operands] if opcode == 0x28 else operands, opcode == 0x28)
        on_screen = all(0 <= each < ONE for points in shapes for point in points for each in point)
        self._refuse_if(not on_screen, "Outside", start)
        for points in shapes:
            if kind != "PEN":
                held = _PEN if kind == "FIELD" else _INK[:2] if kind == "POINT" else _INK
                made += self._entry(kind, self.at, held, points=points)
            if kind != "FIELD":
                self.state["pen"] = _pen("point", _end(kind, points))
        return made

    def _reset(self, first: int, second: int, start: int) -> List[CanonicalEntry]:
        """RESET, after which DOMAIN follows where it resets the lengths of operands."""
        self._refuse_if(first & 1 == 1 and not self.stream.startswith(HEADER[1:], self.at), "OperandLength", start)
        made, state, code = self._entry("RESET", self.at, _PEN, words=[first, second]), self.state, first >> 1 & 3
        if first & 1:
            state["pel"] = [0, 0]
        if code:
            self.known, state["colour"] = [], _colour("own-reset" if code == 1 else f"reset-{code}")
        if code == 1:
            state["base"] = state["colour"]
        if second & 1:
            state["text"] = _TEXT
        if second & 8:
            state["texture"] = _PLAIN
        return made

    def _set_colour(self, value: List[int], start: int) -> List[CanonicalEntry]:
        """SET COLOR: of the map where the colour is an address of it, else the colour itself."""
        colour = self.state["colour"]
        self._refuse_if(colour["kind"].startswith("reset-"), "NoAddress", start)
        if not colour["addresses"]:
            self.state["base"] = self.state["colour"] = _colour("direct", value)
            return []
        address = colour["addresses"][0]
        self._refuse_if((address, value) in self.known, "KnownColour", start)
        self.known = [(address, value), *(each for each in self.known if each[0] != address)][:MOST_KNOWN]
        return self._entry("MAP", self.at, address=address, value=value)

    def _character(self, name: str, code: int, place: int) -> List[CanonicalEntry]:
        return self._entry("CHAR", place, _HAND, set=name, character=code)

    def _entry(self, kind: str, place: int, held: Sequence[str] = (), **members: Any) -> List[CanonicalEntry]:
        """An entry, after which the pen is nowhere known if the entry holds it."""
        made = CanonicalEntry({"kind": kind, "place": place, **members, **{name: self.state[name] for name in held}})
        self.after_character = kind == "CHAR"
        if "pen" in held:
            self.state["pen"] = _pen("after")
        return [made]

    def _next(self) -> int:
        self._refuse_if(self.at >= len(self.stream), "Cut", len(self.stream))
        self.at += 1
        return self.stream[self.at - 1]

    def _argument(self, least: int = 0x20, most: int = 0x7F) -> int:
        byte = self._next()
        self._refuse_if(not least <= byte <= most, "BadArgument", self.at - 1)
        return byte

    def _expect(self, expected: bytes) -> None:
        for each in expected:
            self._refuse_if(self._next() != each, "BadCode", self.at - 1)

    def _refuse_if(self, wrong: bool, reason: str, place: int) -> None:
        if wrong:
            raise NotCanonical(reason, place)


_PLAIN: Members = {"word": 0, "mask": None}
_TEXT: Members = {"words": [0, 0], "size": "normal", "given": None, "reverse": False, "underline": False,
                  "wrap": False, "scroll": False}


def _pen(at: str, point: Optional[Point] = None) -> Members:
    return {"at": at, "point": point}


def _colour(kind: str, value: Optional[List[int]] = None, addresses: Sequence[int] = ()) -> Members:
    return {"kind": kind, "value": value, "addresses": list(addresses)}


def _number(words: Sequence[int]) -> int:
    """An address: six bits of each word."""
    number = 0
    for word in words:
        number = number << 6 | word
    return number


def _pair(run: bytes) -> Point:
    """A point or a displacement: three bits of x and three of y in each word, in two's complement."""
    x = y = 0
    for byte in run:
        x, y = x << 3 | byte >> 3 & 7, y << 3 | byte & 7
    return [(x ^ ONE) - ONE, (y ^ ONE) - ONE]


def _value(words: Sequence[int]) -> List[int]:
    """A colour: in each word two bits of green, red and blue, which lie three bits apart."""
    parts = [0, 0, 0]
    for word in words:
        parts = [part << 2 | word >> (5 - i) << 1 & 2 | word >> (2 - i) & 1 for i, part in enumerate(parts)]
    return parts


def _sum(point: Point, move: Point) -> Point:
    return [point[0] + move[0], point[1] + move[1]]


def _points(kind: str, operands: List[Point], joined: bool) -> List[List[Point]]:
    """The points of each entry that an opcode makes of its operands."""
    if kind in ("PEN", "POINT"):
        return [[each] for each in operands]
    if kind == "LINE":
        return [list(each) for each in zip(operands[::1 if joined else 2], operands[1::1 if joined else 2])]
    if kind.startswith("RECT") or kind == "FIELD" and operands:
        return [[at, _sum(at, size)] for at, size in zip(operands[::2], operands[1::2])]
    points = operands[:1]
    for move in operands[1:]:
        points.append(_sum(points[-1], move))
    return [points]


def _end(kind: str, points: List[Point]) -> Point:
    """Where a shape leaves the pen."""
    if kind.startswith("RECT"):
        return [points[1][0], points[0][1]]
    return points[0 if kind.startswith("POLY") else -1]


def _joined(numbers: Sequence[object]) -> str:
    return ",".join(map(str, numbers))


def _written_text(it: Members) -> str:
    flags = "".join(name[0] if it[name] else "-" for name in ("reverse", "underline", "wrap", "scroll"))
    return f"text={_joined(it['words'])}/{_joined(it['given']) if it['given'] else it['size']}/{flags}"


def _written_colour(it: Members) -> str:
    parts = it["value"] or it["addresses"]
    return f"colour={it['kind']}:{_joined(parts)}" if parts else f"colour={it['kind']}"


# How the members of an entry are written in its line, in their order there.
_WRITERS: Sequence[Tuple[str, Callable[[Members], str]]] = (
    ("kind", lambda it: str(it["kind"])), ("set", lambda it: str(it["set"])),
    ("character", lambda it: f"{it['character']:02x}"), ("move", lambda it: str(it["move"])),
    ("bytes", lambda it: " ".join(f"{each:02x}" for each in it["bytes"])), ("address", lambda it: str(it["address"])),
    ("value", lambda it: _joined(it["value"])), ("on", lambda it: _joined((it["on"], it["off"], it["delay"]))),
    ("tenths", lambda it: str(it["tenths"])), ("words", lambda it: " ".join(map(str, it["words"]))),
    ("mask", lambda it: str(it["mask"])), ("cursor", lambda it: str(it["cursor"])),
    ("points", lambda it: " ".join(map(_joined, it["points"])) or "whole"),
    ("pel", lambda it: f"pel={_joined(it['pel'])}"),
    ("pen", lambda it: f"pen={_joined(it['pen']['point']) if it['pen']['point'] else it['pen']['at']}"),
    ("colour", lambda it: _written_colour(it["colour"])),
    ("texture", lambda it: f"texture={it['texture']['word']}/{_joined(it['texture']['mask'] or ()) or 'none'}"),
    ("text", lambda it: _written_text(it["text"])))


def read(stream: bytes) -> Iterator[CanonicalEntry]:
    """The entries of a canonical stream. Raises NotCanonical after the entries of all codes before the refused one."""
    for place, expected in enumerate(HEADER):
        if stream[place:place + 1] != bytes((expected,)):
            raise NotCanonical("BadHeader", place)
    reader = _Reader(bytes(stream))
    if b"\x40" <= reader.stream[len(HEADER):len(HEADER) + 1] < b"\x80":
        raise NotCanonical("BadHeader", len(HEADER))
    while reader.at < len(reader.stream):
        yield from reader.code()
    if reader.saved:
        raise NotCanonical("Unended", reader.at)


def _main(words: Sequence[str]) -> int:
    """Prints the lines of a stream, or why it is refused; answers the status."""
    if list(words) != ["list"]:
        print("usage: canonical.py list < STREAM", file=sys.stderr)
        return 2
    try:
        lines = [f"{entry.line}\n" for entry in read(sys.stdin.buffer.read())]
    except NotCanonical as refusal:
        print(refusal, file=sys.stderr)
        return 1
    sys.stdout.writelines(lines)
    return 0


if __name__ == "__main__":
    sys.exit(_main(sys.argv[1:]))
