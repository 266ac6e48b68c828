"""Cuts a page into codes with their names, with the entries that came of them, and those that stop a refused page.

That is for explanations alone: what a page means the program says. Macros are followed, since a body may change the
sets or begin a code that ends after the call.
"""
import bisect
from dataclasses import dataclass, field, replace
from typing import Dict, Iterable, Iterator, List, NamedTuple, Optional, Tuple

from naplps.answers import Refusal

# Steps are bytes that are taken, also those of macros.
MOST_STEPS = 300_000
SET_NAMES = {0x42: "primary", 0x7C: "supplementary", 0x57: "PDI", 0x7D: "mosaic", 0x7A: "macro", 0x7B: "DRCS"}
C0 = {0x00: "NUL", 0x07: "BEL", 0x08: "APB", 0x09: "APF", 0x0A: "APD", 0x0B: "APU", 0x0C: "CS", 0x0D: "APR",
      0x0E: "SO", 0x0F: "SI", 0x18: "CAN", 0x19: "SS2", 0x1A: "SDC", 0x1C: "APS", 0x1D: "SS3", 0x1E: "APH", 0x1F: "NSR"}
C1 = {0x40: "DEF MACRO", 0x41: "DEFP MACRO", 0x42: "DEFT MACRO", 0x43: "DEF DRCS", 0x44: "DEF TEXTURE", 0x45: "END",
      0x46: "REPEAT", 0x47: "REPEAT TO EOL", 0x48: "REVERSE VIDEO", 0x49: "NORMAL VIDEO", 0x4A: "SMALL TEXT",
      0x4B: "MED TEXT", 0x4C: "NORMAL TEXT", 0x4D: "DOUBLE HEIGHT", 0x4E: "BLINK START", 0x4F: "DOUBLE SIZE",
      0x50: "PROTECT", 0x51: "EDC1", 0x52: "EDC2", 0x53: "EDC3", 0x54: "EDC4", 0x55: "WORD WRAP ON",
      0x56: "WORD WRAP OFF", 0x57: "SCROLL ON", 0x58: "SCROLL OFF", 0x59: "UNDERLINE START", 0x5A: "UNDERLINE STOP",
      0x5B: "FLASH CURSOR", 0x5C: "STEADY CURSOR", 0x5D: "CURSOR OFF", 0x5E: "BLINK STOP", 0x5F: "UNPROTECT"}
WITH_ARGUMENT = (0x40, 0x41, 0x43, 0x44, 0x46)
MACROS = (0x40, 0x41)
OPCODES = ("RESET", "DOMAIN", "TEXT", "TEXTURE", "POINT SET ABS", "POINT SET REL", "POINT ABS", "POINT REL", "LINE ABS",
           "LINE REL", "SET & LINE ABS", "SET & LINE REL", "ARC OUTLINED", "ARC FILLED", "SET & ARC OUTLINED",
           "SET & ARC FILLED", "RECT OUTLINED", "RECT FILLED", "SET & RECT OUTLINED", "SET & RECT FILLED",
           "POLY OUTLINED", "POLY FILLED", "SET & POLY OUTLINED", "SET & POLY FILLED", "FIELD", "INCREMENTAL POINT",
           "INCREMENTAL LINE", "INCREMENTAL POLY FILLED", "SET COLOR", "WAIT", "SELECT COLOR", "BLINK")
# Escape sequences that ISO 2022 has and the profile hasn't, by their second byte.
OTHER_ESCAPES = {0x20: "announcer", 0x21: "designation of a C0 set", 0x22: "designation of a C1 set",
                 0x23: "single control function", 0x24: "designation of a set of several bytes",
                 0x25: "switch to another coding system", 0x26: "revision number", 0x27: "code of ISO 2022"}


class Code(NamedTuple):
    """A code: its bytes in the page, the offset of the byte with which it acts, its name, whether it is an opcode."""

    start: int
    end: int
    acts: int
    name: str
    opcode: bool = False


LETTERS = {0x20: "space", **{byte: "character %c" % byte for byte in range(0x21, 0x7F)}}


class PageEnded(Exception):
    """The page ends amid a code."""


class Cutter:
    """Takes codes off the front of a page, and off the macros that it calls."""

    def __init__(self, page: bytes, most_steps: int = MOST_STEPS) -> None:
        self.most_steps = most_steps
        self.length = len(page)
        # (bytes, how many are taken, the offset that they have, or None for the page itself)
        self.frames: List[Tuple[bytes, int, Optional[int]]] = [(page, 0, None)]
        self.sets = ["primary", "PDI", "supplementary", "mosaic"]
        self.gl = 0
        self.macros: Dict[int, bytes] = {}
        self.steps = 0
        self.last = 0

    def peek(self) -> Optional[Tuple[int, int]]:
        """The next byte and its offset; None at the end."""
        while self.frames and self.frames[-1][1] >= len(self.frames[-1][0]):
            if len(self.frames) == 1:
                return None
            self.frames.pop()
        data, taken, place = self.frames[-1]
        return data[taken], taken if place is None else place

    def take(self) -> int:
        """The next byte, which leaves the front."""
        data, taken, place = self.frames[-1]
        if taken >= len(data):
            data, taken, place = self._frame()
        self.frames[-1] = (data, taken + 1, place)
        self.steps += 1
        self.last = taken if place is None else place
        return data[taken]

    def codes(self) -> Iterator[Code]:
        """The codes, up to the end, or to as many steps as are gone."""
        while self.steps < self.most_steps:
            front = self.peek()
            if front is None:
                return
            if front[0] in LETTERS and self.sets[self.gl] == "primary":
                yield from self._letters()
                continue
            try:
                yield self._code(front[1])
            except PageEnded:
                yield Code(front[1], self.length, self.length, "unfinished code")
                return

    def _letters(self) -> Iterator[Code]:
        """The letters of the primary set that come next, which is in use."""
        data, taken, place = self.frames[-1]
        end = min(len(data), taken + self.most_steps - self.steps)
        for at in range(taken, end):
            name = LETTERS.get(data[at])
            if name is None:
                end = at
                break
            self.last = at if place is None else place
            self.steps += 1
            yield Code(self.last, self.last + 1, self.last, name)
        self.frames[-1] = (data, end, place)

    def _code(self, start: int) -> Code:
        byte = self.take()
        if byte >= 0x80:
            return self._named(start, "byte of the eight-bit code")
        if byte >= 0x20:
            return self._graphic(start, byte, self.sets[self.gl], shifted=False)
        if byte == 0x1B:
            return self._escape(start)
        if byte in (0x19, 0x1D):
            code = self.take()
            return self._graphic(start, code, self.sets[2 if byte == 0x19 else 3], shifted=True)
        if byte in (0x0E, 0x0F):
            self.gl = 1 if byte == 0x0E else 0
        if byte == 0x1C:
            self.take()
            self.take()
        return self._named(start, C0.get(byte, "control without effect"))

    def _named(self, start: int, name: str) -> Code:
        return Code(start, self.last + 1, self.last, name)

    def _graphic(self, start: int, byte: int, name: str, shifted: bool) -> Code:
        if name == "PDI" and not shifted:
            return self._opcode(start, byte) if byte < 0x40 else self._named(start, "word without an opcode")
        if name == "macro":
            # (its own end comes before the body)
            code = self._named(start, f"call of macro {byte:02x}")
            body = self.macros.get(byte)
            if body:
                self.frames.append((body, 0, self.last))
            return code
        if name == "primary" and byte in LETTERS:  # (after a single shift)
            return self._named(start, LETTERS[byte])
        return self._named(start, f"{name} character {byte:02x}")

    def _opcode(self, start: int, byte: int) -> Code:
        words: List[int] = []
        front = self.peek()
        while front is not None and 0x40 <= front[0] < 0x80:
            words.append(self.take())
            front = self.peek()
        if byte == 0x20 and len(words) > 1 and words[1] & 16:
            self.macros = {}
        acts = self.length if front is None else front[1]
        return Code(start, self.last + 1, acts, OPCODES[byte - 0x20], opcode=True)

    def _escape(self, start: int) -> Code:
        byte = self.take()
        if byte in (0x6E, 0x6F):
            self.gl = 2 if byte == 0x6E else 3
            return self._named(start, f"locking shift {self.gl}")
        if 0x28 <= byte <= 0x2F:
            return self._designation(start, byte)
        if byte in OTHER_ESCAPES:
            return self._other_escape(start, OTHER_ESCAPES[byte])
        if byte not in C1:
            return self._named(start, "escape sequence")
        argument = self.take() if byte in WITH_ARGUMENT else 0
        code = self._named(start, C1[byte])
        if byte in MACROS:
            self._body(argument, presented=byte == 0x41)
        return code

    def _designation(self, start: int, byte: int) -> Code:
        final = self.take()
        if final == 0x20:
            final = self.take()
        name = SET_NAMES.get(final)
        if name:
            self.sets[(byte - 0x28) % 4] = name
        return self._named(start, "%s set into G%d" % (name or "unknown", (byte - 0x28) % 4))

    def _other_escape(self, start: int, name: str) -> Code:
        while True:
            front = self.peek()
            if front is None or not 0x20 <= front[0] <= 0x7E:
                return self._named(start, name)
            if self.take() >= 0x30:
                return self._named(start, name)

    def _body(self, name: int, presented: bool) -> None:
        """Takes the body of a macro, up to the pair that ends it, which stays."""
        body = bytearray()
        while True:
            data, taken, place = self._frame()
            at = data.find(b"\x1b", taken)
            stop = len(data) if at < 0 else at
            body += data[taken:stop]
            self.steps += stop - taken
            self.frames[-1] = (data, stop, place)
            if at < 0:
                continue
            if self._ends_body():
                break
            body.append(self.take())
        self.macros[name] = bytes(body)
        if presented:
            pair = bytes((self.take(), self.take()))
            self.frames.append((bytes(body) + pair, 0, self.last))

    def _frame(self) -> Tuple[bytes, int, Optional[int]]:
        if self.peek() is None:
            raise PageEnded
        return self.frames[-1]

    def _ends_body(self) -> bool:
        """Whether the next pair ends a body. (A pair over the end of a body is looked at byte by byte.)"""
        joined = bytearray()
        for data, taken, _ in reversed(self.frames):
            joined += data[taken:taken + 2 - len(joined)]
            if len(joined) == 2:
                return 0x40 <= joined[1] <= 0x45
        raise PageEnded


def cut(page: bytes) -> Iterator[Code]:
    """The codes of a page."""
    return Cutter(page).codes()


# The place of the byte with which an entry came, where that is known, and the entry's line.
PlacedLine = Tuple[Optional[int], str]
# Kinds of entries that come with the last byte of their own code; the others come with the byte after a run.
OF_CONTROLS = frozenset((
    "CHAR", "MOVE", "TO-EOL", "BELL", "CLEAR", "CURSOR", "BLINK-START", "BLINK-STOP", "GLYPH", "MASK", "END"))
# Codes of which many may stand after each other, and add nothing.
WITHOUT_EFFECT = ("NUL", "control without effect")
# Codes after which the body of a macro stands.
OF_BODIES = ("DEF MACRO", "DEFP MACRO")
# The name of what stands after the codes that are cut: a page of very many is shown up to there.
REST = "the rest, which isn't cut"


@dataclass
class CodeRow:
    """Some bytes of the page, the code that they are, and the entries that came of them: their numbers, and lines."""

    start: int
    end: int
    acts: int
    name: str
    opcode: bool
    entries: List[int] = field(default_factory=list)
    lines: List[str] = field(default_factory=list)


def rows_with_lines(data: bytes, entries: List[PlacedLine], stop: Optional[int]) -> List[CodeRow]:
    """The rows of a page, up to the place of a refusal, with the lines of the entries that their bytes added."""
    rows = rows_of_codes(data, entries, stop)
    for row in rows:
        row.lines = [entries[number][1] for number in row.entries]
    return rows


def rows_of_codes(data: bytes, entries: List[PlacedLine], stop: Optional[int]) -> List[CodeRow]:
    """The same rows, with the numbers of the entries alone."""
    rows = [row for row in _code_rows(cut(data), len(data)) if stop is None or row.start <= stop]
    starts = [row.start for row in rows]
    runs = {row.acts: row for row in rows if row.opcode}
    later: List[CodeRow] = []
    for number, (place, line) in enumerate(entries):
        assert place is not None
        row = None if line.partition(" ")[0] in OF_CONTROLS else runs.get(place)
        if row is None:
            at = bisect.bisect_right(starts, place) - 1
            row = rows[at] if at >= 0 and place < rows[at].end else runs.get(place)
        if row is None and rows:
            row = rows[-1]
        if row is None or row.name == REST:
            later.append(CodeRow(place, place, place, "", False, [number]))
        else:
            row.entries.append(number)
    # (the code that is refused stays where a macro that it calls drew something)
    return [row for row in rows if stop is None or row.end <= stop or row.entries] + later


def rows_after(rows: Iterable[CodeRow], start: int) -> List[CodeRow]:
    """The rows of the bytes from the start on, with their offsets after it."""
    return [replace(row, start=max(0, row.start - start), end=row.end - start, acts=row.acts - start)
            for row in rows if row.end > start or row.start >= start]


def _code_rows(codes: Iterable[Code], length: int) -> List[CodeRow]:
    """Rows without a gap: what comes of a macro has no bytes of its own, and what no code takes is named so. The
    same code without effect again has no row of its own."""
    rows: List[CodeRow] = []
    done = 0
    last = ""
    for start, end, acts, name, opcode in codes:
        if start > done:
            rows.append(CodeRow(done, start, start, "body" if last in OF_BODIES else "", False))
            done = start
        if end > done:
            if name in WITHOUT_EFFECT and rows and rows[-1].name == name:
                rows[-1].end = end
            else:
                rows.append(CodeRow(done, end, acts, name, opcode))
            done = end
        last = name
    if done < length:
        rows.append(CodeRow(done, length, length, REST, False))
    return rows


# The number of bytes of a page that are read after its refusal, those of macros counted too.
MOST_AFTER_REFUSAL = 100_000
# The names that refusals have for codes, by those of the table of codes.
LEFT_OUT = {name: name for name in ("CAN", "SDC", "NSR", "UNPROTECT", "EDC1", "EDC2", "EDC3", "EDC4")}
LEFT_OUT.update({"DEFT MACRO": "DEFT", "INCREMENTAL POINT": "INCREMENTAL-POINT", "INCREMENTAL LINE": "INCREMENTAL-LINE",
                 "INCREMENTAL POLY FILLED": "INCREMENTAL-POLY"})
SEQUENCES = (*OTHER_ESCAPES.values(), "escape sequence")
UNKNOWN_SET = "unknown set"
EIGHTH_BIT, TRANSPARENT = "eighth bit", "SET COLOR without a colour"
MOST_SHOWN = 5
# The number of bytes after the place of a refusal that belong to its escape sequence.
MOST_BEHIND = 64


def stops(data: Optional[bytes], answer: Refusal) -> List[str]:
    """The codes that stop a page, the refusal's own first; at the end an empty name, if it wasn't read to its end."""
    cutter = Cutter(data or b"", MOST_AFTER_REFUSAL)
    names: List[str] = []
    refused = refused_name(data, answer)
    for code in cutter.codes():
        name = stop_name(code, data or b"")
        if name is not None and max(code.acts if not code.opcode else code.start, code.start) >= answer.place:
            names.append(name)
    if names[:1] != [refused]:
        names.insert(0, refused)
    return names + ([""] if data is None or cutter.steps >= MOST_AFTER_REFUSAL else [])


def refused_name(data: Optional[bytes], answer: Refusal) -> str:
    """The name of the code that is refused, or of the refusal where that isn't for a code that isn't read."""
    if answer.code:
        return answer.code
    if answer.fault == "EighthBit":
        return EIGHTH_BIT
    for code in _codes_at(data, answer.place) if data is not None else ():
        return stop_name(code, data or b"") or answer.fault
    return answer.fault


def stop_of(data: bytes, answer: Refusal) -> Optional[str]:
    """The name of the code that is refused, where the answer has neither that nor a fault that says as much."""
    if answer.fault == "BadEscape":
        start = data.rfind(b"\x1b", 0, answer.place + 1)
        some = data[max(start, 0):answer.place + MOST_BEHIND]
        code = next(Cutter(some).codes(), None)
        if start >= 0 and code and code.end > answer.place - start:
            return stop_name(code, some)
    if answer.fault == "BadEscape" or (answer.fault == "Missing" and data.startswith(b"\x3c", answer.place)):
        name = refused_name(data, answer)
        return name if name != answer.fault else None
    return None


def _codes_at(data: Optional[bytes], place: int) -> Iterator[Code]:
    return (code for code in Cutter(data or b"", MOST_AFTER_REFUSAL).codes() if code.start <= place < code.end)


def stop_name(code: Code, data: bytes) -> Optional[str]:
    """The name of a code that isn't read; nothing of others."""
    if code.name in LEFT_OUT:
        return LEFT_OUT[code.name]
    if code.name == "byte of the eight-bit code":
        return EIGHTH_BIT
    if code.name in SEQUENCES or code.name.startswith(UNKNOWN_SET):
        some = data[code.start:code.end]
        hexadecimal = some[:MOST_SHOWN].hex(" ").upper() + (" .." if len(some) > MOST_SHOWN else "")
        return f"{hexadecimal} ({code.name})" if some[:1] == b"\x1b" else code.name
    if code.name == "SET COLOR" and code.end - code.start == 1 and data[code.start:code.end] == b"\x3c":
        return TRANSPARENT
    return None
