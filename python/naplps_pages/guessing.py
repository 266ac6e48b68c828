"""What stands after a refusal, by guess: the page is read on as if each code that is refused did nothing.

Such a code is taken for bytes without effect, so that all others keep their offsets. What comes of it is for a picture
alone.
"""
from dataclasses import dataclass
from typing import List, NamedTuple, Optional, Tuple

from naplps.answers import Accepted, Answer, Refusal
from naplps.client import Client

from .codes import Code, Cutter
from .listing import Listed, listed
from .source import Page

# The greatest number of codes that are passed over, of bytes cut into codes for that, macros counted too, and of
# bytes given to the program.
MOST_CODES = 64
MOST_STEPS = 1_000_000
MOST_ASKED = 16 << 20
# Refusals after which nothing can be read: where the page has ended, or is too much.
ENDS = ("Store", "Cut", "Unended", "Memory", "Sink")
SINGLE_SHIFTS = (0x19, 0x1D)
ESCAPE, DEFT_MACRO = 0x1B, "DEFT MACRO"
# The bytes of a place after NSR.
NSR, PLACE = "NSR", 2
MOST_TOLD = 3


class Span(NamedTuple):
    """Bytes of a page."""

    start: int
    end: int


@dataclass(frozen=True)
class GuessedPage:
    """The lines before a refusal and those after it; where codes were passed over; and the refusal where it ends."""

    lines: List[str]
    start: int
    passed: List[int]
    end: Optional[Refusal]

    def sentences(self, first: int = 0) -> Tuple[str, ...]:
        """The lines that tell of the guess. Offsets count from the first byte of the page."""
        places = ", ".join(str(place - first) for place in self.passed[:MOST_TOLD])
        more = f" and {len(self.passed) - MOST_TOLD} more" if len(self.passed) > MOST_TOLD else ""
        codes = "code" if len(self.passed) == 1 else "codes"
        sentence = f"Hatched is a guess: what stands behind, read on without the {codes} at {places}{more}."
        if self.end is None:
            return (sentence,)
        end = Refusal(self.end.number, self.end.fault, self.end.code, self.end.place - first).line
        return sentence, f"The guess ends where the page is {end}."


class Guesser:
    """Reads a refused page on."""

    def __init__(self, program: Client, page: bytes) -> None:
        self.program, self.data = program, bytearray(page)
        self.steps, self.asked = MOST_STEPS, 0

    def guess(self, page: Listed) -> Optional[GuessedPage]:
        """What stands after the refusal of a page with these entries; nothing where that can't be read."""
        answer: Answer = page.answer
        passed: List[int] = []
        while isinstance(answer, Refusal) and len(passed) < MOST_CODES and self._pass(answer):
            passed.append(answer.place)
            answer = self.program.ask("check", Page("", bytes(self.data)))
        before = page.lines
        if not passed or before is None or not isinstance(answer, (Accepted, Refusal)):
            return None
        lines = listed(self.program, Page("", bytes(self.data))).lines
        if lines is None:
            return None
        same = next((at for at, (one, other) in enumerate(zip(before, lines)) if one != other),
                    min(len(before), len(lines)))
        if len(lines) == same:
            return None
        # (a macro that is passed over drew something already where it was refused amid its body)
        end = answer if isinstance(answer, Refusal) else None
        return GuessedPage(before + lines[same:], len(before), passed, end)

    def _pass(self, answer: Refusal) -> bool:
        """Gives the refused code no effect, and returns whether that changed any byte."""
        self.asked += len(self.data)
        if answer.fault in ENDS or self.asked > MOST_ASKED:
            return False
        span = self._span(answer)
        if span is None or not any(self.data[span.start:span.end]):
            return False
        self.data[span.start:span.end] = bytes(span.end - span.start)
        return True

    def _span(self, answer: Refusal) -> Optional[Span]:
        """The bytes of what is refused; None where the page is too long to find them."""
        place, data = answer.place, self.data
        if answer.fault == "EighthBit":
            return Span(place, place + 1)
        if answer.fault == "Stray":
            return Span(place, _end_of_words(data, place))
        if answer.fault == "ShiftAlone" and place and data[place - 1] in SINGLE_SHIFTS:
            return Span(place - 1, place)
        cutter = Cutter(bytes(data), self.steps)
        code = next((code for code in cutter.codes() if code.end > place), None)
        self.steps -= cutter.steps
        if code is None:
            return None
        return _span_of(code, data) if code.start <= place else Span(place, place + 1)


def _span_of(code: Code, data: bytearray) -> Span:
    """The bytes of a code: of DEFT MACRO up to where its body ends, which isn't to be read as codes, and of NSR with
    the place after it, if two such bytes stand there."""
    if code.name == NSR and _end_of_words(data, code.end) >= code.end + PLACE:
        return Span(code.start, code.end + PLACE)
    if code.name == DEFT_MACRO:
        at = data.find(ESCAPE, code.end)
        while 0 <= at < len(data) - 1 and not 0x40 <= data[at + 1] <= 0x45:
            at = data.find(ESCAPE, at + 1)
        return Span(code.start, at if at >= 0 else len(data))
    return Span(code.start, code.end)


def _end_of_words(data: bytearray, place: int) -> int:
    """Where the words that begin at a place end."""
    end = place
    while end < len(data) and 0x40 <= data[end] < 0x80:
        end += 1
    return end
