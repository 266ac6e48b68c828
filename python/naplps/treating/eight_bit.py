"""A page of the eight-bit form written in the seven-bit one, by the rules of ISO 2022.

In the eight-bit form 20 to 7F are codes of the register in GL, and A0 to FF those of the register in GR: G0 and G1 at
the start. 80 to 9F are the controls that ESC 40 to ESC 5F are in seven bits. SI, SO, ESC 6E and ESC 6F put a register
into GL; ESC 7E, ESC 7D and ESC 7C put G1, G2 or G3 into GR.

The seven-bit form has GL alone. So the shift of a register is written before a code of another register than the one
that GL has there, and nothing else is added. Bodies of macros begin with no register known, and so does what comes
after a definition or a call. Where a step isn't sure, the page isn't converted: NotSure says why.
"""
import re
from typing import Dict, FrozenSet, List, Optional, Tuple

from .changes import Edit, NotSure

# A longer page isn't converted.
MOST_LENGTH = 1 << 18
SHIFTS = (b"\x0f", b"\x0e", b"\x1b\x6e", b"\x1b\x6f")
LEFT_SHIFTS = {0x6E: 2, 0x6F: 3}
RIGHT_SHIFTS = {0x7E: 1, 0x7D: 2, 0x7C: 3}
SETS_AT_START = (0x42, 0x57, 0x7C, 0x7D)
PDI, MACROS = 0x57, 0x7A
WITH_ARGUMENT = (0x40, 0x41, 0x43, 0x44, 0x46)
DEFINITIONS, LAST_END = (0x40, 0x41), 0x45
DESIGNATION = re.compile(rb"\x1b([\x28-\x2f])\x20?(.)?", re.DOTALL)
# A picture code of the right half with an operand. Letters of other codes, as those with accents, rarely look so.
PICTURE = re.compile(rb"[\xa0-\xbf][\xc0-\xff]")
# A code of ISO 2022 that isn't read here, and NSR with a place: they are kept whole, so that they can be taken out.
WHOLE = re.compile(rb"\x1b[\x20-\x27][\x20-\x2f]*[\x30-\x7e]|\x1f[\x40-\x7f]{2}")


def edits(data: bytes) -> List[Edit]:
    """What has to be changed. Raises NotSure."""
    if len(data) > MOST_LENGTH:
        raise NotSure(f"it is longer than {MOST_LENGTH} bytes")
    if not PICTURE.search(data):
        raise NotSure("no picture code of the right half has an operand")
    conversion = EightBitConversion(data)
    while conversion.at < len(data):
        conversion.step()
    return conversion.edits


class EightBitConversion:
    """Goes over a page code by code."""

    def __init__(self, data: bytes) -> None:
        self.data, self.at = data, 0
        self.edits: List[Edit] = []
        # The registers that the page has in GL and in GR, and the one that is in GL of what is written, if it is known.
        self.left, self.right = 0, 1
        self.written: Optional[int] = 0
        self.sets = list(SETS_AT_START)
        # The half and the register of the last byte, where that is a picture code or an operand of one.
        self.run: Optional[Tuple[bool, int]] = None
        # Whether the last code is a call, after which a run may continue that began in the macro's body.
        self.called = False
        self.in_body = self.has_macros = self.has_moved = False
        self.ever = _ever(data)

    def step(self) -> None:
        """Takes the next code."""
        start, byte = self.at, self.data[self.at]
        if byte >= 0xA0 or 0x20 <= byte < 0x80:
            self._graphic(byte)
        elif byte >= 0x80:
            self._control(start, 1, byte - 0x40)
        elif byte in (0x0E, 0x0F):
            self._shift(1, left=1 if byte == 0x0E else 0)
        elif byte in (0x19, 0x1D):
            self._single_shift(2 if byte == 0x19 else 3)
        elif byte == 0x1B:
            self._escape()
        else:
            found = WHOLE.match(self.data, start)
            self._code(found.end() - start if found else 1)
            if byte == 0x1C:
                self._arguments(2)

    def _replace(self, length: int, put: bytes) -> None:
        """Advances past a number of bytes, which are written as these."""
        at, self.at = self.at, self.at + length
        if self.data[at:self.at] == put:
            return
        if self.edits and self.edits[-1].offset + self.edits[-1].length == at:
            last = self.edits.pop()
            self.edits.append(Edit(last.offset, last.length + length, last.put + put))
        else:
            self.edits.append(Edit(at, length, put))

    def _code(self, length: int) -> None:
        """Goes past a code that is written as it is, and ends a run."""
        self._replace(length, self.data[self.at:self.at + length])
        self.run, self.called = None, False

    def _kinds(self, register: int) -> FrozenSet[int]:
        """The sets that a register may have: in a body all that it ever has, since the call isn't known."""
        return self.ever[register] if self.in_body else frozenset((self.sets[register],))

    def _graphic(self, byte: int) -> None:
        is_right = byte >= 0x80
        register = self.right if is_right else self.left
        kinds = self._kinds(register)
        if PDI in kinds and byte & 0x7F >= 0x40:
            self._operand((is_right, register))
        else:
            self.run = (is_right, register) if PDI in kinds else None
        self._written_in(register, bytes((byte & 0x7F,)))
        self.called = False
        if MACROS in kinds:
            self._behind_a_call()

    def _operand(self, place: Tuple[bool, int]) -> None:
        if self.called:
            raise NotSure(f"operands stand behind the call of a macro at {self.at}")
        if self.run not in (None, place):
            raise NotSure(f"the operands of a picture code go over into the other half at {self.at}")
        if self.in_body:
            self.run = place

    def _written_in(self, register: int, code: bytes) -> None:
        shift = b"" if self.written == register else SHIFTS[register]
        self.written = register
        self._replace(1, shift + code)

    def _behind_a_call(self) -> None:
        self.written, self.run, self.called = None, None, True

    def _shift(self, length: int, left: Optional[int] = None, right: Optional[int] = None) -> None:
        """A locking shift, which isn't written; the shift that is written before the next code ends a run, too."""
        left, right = (self.left if left is None else left), (self.right if right is None else right)
        self.has_moved |= (left, right) != (self.left, self.right)
        self._look_at_macros()
        self.left, self.right = left, right
        self._replace(length, b"")
        self.written, self.run, self.called = None, None, False

    def _look_at_macros(self) -> None:
        if self.has_macros and self.has_moved:
            raise NotSure(f"macros stand beside locking shifts at {self.at}")

    def _single_shift(self, register: int) -> None:
        self._code(1)
        if self._arguments(1) and MACROS in self._kinds(register):
            self._behind_a_call()

    def _arguments(self, number: int) -> bool:
        """Takes arguments as they are; whether all are there."""
        for _ in range(number):
            byte = self.data[self.at] if self.at < len(self.data) else 0
            if byte >= 0xA0:
                raise NotSure(f"an argument has the eighth bit at {self.at}")
            if not 0x20 <= byte < 0x80:
                if self.in_body:
                    raise NotSure(f"a code in the body of a macro isn't whole at {self.at}")
                return False
            self._code(1)
        return True

    def _control(self, start: int, length: int, code: int) -> None:
        """A control of the C1 set."""
        if self.in_body and code in range(DEFINITIONS[0], LAST_END + 1):
            self.in_body, self.written = False, None
        self._replace(length, bytes((0x1B, code)))
        self.run, self.called = None, False
        if code in WITH_ARGUMENT and self._arguments(1) and code in DEFINITIONS:
            self.in_body = self.has_macros = True
            self.written = None
            self._look_at_macros()

    def _escape(self) -> None:
        following = self.data[self.at + 1:self.at + 2]
        byte = following[0] if following else 0
        found = WHOLE.match(self.data, self.at)
        if byte in LEFT_SHIFTS:
            self._shift(2, left=LEFT_SHIFTS[byte])
        elif byte in RIGHT_SHIFTS:
            self._shift(2, right=RIGHT_SHIFTS[byte])
        elif 0x40 <= byte < 0x60:
            self._control(self.at, 2, byte)
        elif 0x28 <= byte <= 0x2F:
            self._designation()
        elif found:
            self._code(found.end() - self.at)
        elif byte >= 0x80 or self.in_body:
            raise NotSure(f"an escape sequence isn't whole at {self.at}")
        else:
            self._code(1)

    def _designation(self) -> None:
        found = DESIGNATION.match(self.data, self.at)
        assert found
        if self.in_body:
            raise NotSure(f"a set is designated in the body of a macro at {self.at}")
        final = found[2][0] if found[2] else 0
        if final >= 0x80:
            raise NotSure(f"an escape sequence isn't whole at {self.at}")
        self._code(found.end() - self.at)
        if final in _KNOWN:
            self.sets[(found[1][0] - 0x28) % 4] = final


_KNOWN = (0x42, 0x7C, 0x57, 0x7D, 0x7A, 0x7B)


def _ever(data: bytes) -> Dict[int, FrozenSet[int]]:
    """The sets that each register has anywhere in the page."""
    found = [((each[1][0] - 0x28) % 4, each[2][0]) for each in DESIGNATION.finditer(data) if each[2]]
    return {register: frozenset([first, *(kind for at, kind in found if at == register)])
            for register, first in enumerate(SETS_AT_START)}
