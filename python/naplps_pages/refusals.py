"""What refusals mean, and common cases of them."""
import os
import re
from dataclasses import dataclass
from functools import lru_cache
from typing import Dict, List, NamedTuple, Optional, Tuple

from naplps.answers import Refusal
from naplps.treating.borders import pages_in
from naplps.treating.changes import EIGHTH, ODD
from naplps.treating.treatments import MOST_BEHIND_END, MOST_FRONT, leading

FILE = os.path.join(os.path.dirname(os.path.abspath(__file__)), "refusals.txt")
HEAD = re.compile(r"(\d+) (\w+)(?: ([A-Z0-9-]+))?(?:, ([a-z ]+))?")
# The codes that are left out, by their bytes.
CODES = {"18": "CAN", "1a": "SDC", "1f": "NSR", "1b42": "DEFT", "1b51": "EDC1", "1b52": "EDC2", "1b53": "EDC3",
         "1b54": "EDC4", "1b5f": "UNPROTECT", "39": "INCREMENTAL-POINT", "3a": "INCREMENTAL-LINE",
         "3b": "INCREMENTAL-POLY"}
# An escape sequence that isn't read, by its bytes or the first of them, and the refusal that it is.
SEQUENCE, ESCAPE = re.compile("1b([2-7][0-9a-f]){1,7}"), 2
# What stands for the name of a page in a command.
PAGE = "PAGE"


@dataclass(frozen=True)
class RefusalText:
    """What is said of a refusal, or of one code or case of it, and which repairs are for it."""

    number: int
    name: str
    code: str
    case: str
    means: str
    causes: str
    do: str
    command: str
    treatments: Tuple[str, ...]

    @property
    def title(self) -> str:
        """Number, name, code and case."""
        return " ".join(part for part in (str(self.number), self.name, self.code) if part) + (
            ", " + self.case if self.case else "")


@lru_cache(maxsize=None)
def every() -> List[RefusalText]:
    """All texts: that of each refusal, followed by those of its codes and cases."""
    with open(FILE, encoding="ascii") as file:
        return [_refusal(block) for block in file.read().strip().split("\n\n")]


def load() -> Dict[int, RefusalText]:
    """The texts of all refusals, by their numbers."""
    return {each.number: each for each in every() if not each.code and not each.case}


class Reason(NamedTuple):
    """A refusal by its number, and a code of it, or all of them."""

    number: int
    code: str = ""


def reason_of(text: str) -> Optional[Reason]:
    """The refusal of this number or name, or the code of this name or these bytes, as SDC, 1A, 0x18 or 1B 22."""
    word = text.lower().replace(" ", "")
    bare = word[2:] if word.startswith("0x") else word
    for number, known in load().items():
        if word in (str(number), known.name.lower()):
            return Reason(number)
    found = [each for each in every() if each.code and (word == each.code.lower() or CODES.get(bare) == each.code)]
    if found:
        return Reason(found[0].number, found[0].code)
    return Reason(ESCAPE, bytes.fromhex(bare).hex(" ").upper()) if SEQUENCE.fullmatch(bare) else None


def text_of(number: int, code: str = "", case: str = "") -> RefusalText:
    """The text of a refusal that fits best: of the code and the case, of the code, or of the refusal alone."""
    some = {(each.number, each.code, each.case): each for each in every()}
    for key in ((number, code, case), (number, code, ""), (number, "", case)):
        if key in some:
            return some[key]
    return some[number, "", ""]


def _refusal(block: str) -> RefusalText:
    first, *rest = block.replace("\n  ", " ").split("\n")
    found = HEAD.fullmatch(first)
    assert found
    fields = dict(line.split(": ", 1) for line in rest)
    return RefusalText(int(found[1]), found[2], found[3] or "", found[4] or "", fields["means"],
                   fields.get("may come from", ""), fields.get("do", ""), fields.get("command", ""),
                   tuple(fields.get("treatments", "").split()))


def case_of(data: bytes, answer: Refusal) -> str:
    """The name of the case, or nothing."""
    if answer.fault == "EighthBit":
        bits = data.translate(EIGHTH).count(1)
        return "mark" if bits == len(data) else "parity" if has_parity(data) else ""
    if answer.code == "SDC" and pages_in(data):
        return "several pages"
    if answer.code == "SDC" and len(data) - answer.place <= MOST_BEHIND_END + 1:
        return "at the end"
    if answer.fault == "BadEscape" or answer.code in ("CAN", "NSR"):
        return _of_leading_codes(data, answer)
    return ""


def _of_leading_codes(data: bytes, answer: Refusal) -> str:
    if pages_in(data):
        return "several pages"
    return "at the front" if _is_in_front(data, answer.place) else ""


def has_parity(data: bytes) -> bool:
    """Whether all bytes have one parity, and some of them the eighth bit, but not all."""
    bits = data.translate(EIGHTH).count(1)
    return 0 < bits < len(data) and data.translate(ODD).count(1) in (0, len(data))


def _is_in_front(data: bytes, place: int) -> bool:
    """Whether the byte at the place belongs to the codes that can be cut off the front."""
    at = 0
    while at <= place and at < MOST_FRONT:
        found = leading(data, at)
        if found is None:
            return False
        at += found[1]
    return at > place
