"""The grade of what is cut off before and after a page: around where none of it can be of the page, else within.

What is cut before a page has no code that acts on what follows. What acts by itself, as a letter does, may be there
before the last refused byte alone: from that on, the page is what could be read. What is cut after a page is fill, or a
SAUCE record.
"""
import re
from dataclasses import replace
from typing import Callable, Dict, Tuple

from . import LEADING_ON
from .borders import CLEAR, FILLS, SEPARATOR
from .changes import PLAIN, WITHIN, Change, Treated
from .sauce import find_sauce

# CAN, 1A, NSR with its place and announcers, whose bytes aren't codes; and what is refused wherever it is.
CONTAINER, SDC = re.compile(SEPARATOR), b"\x1a"
REFUSED = re.compile(rb"[\x1a\x80-\xff]")
# C0 bytes without effect; SI is one while G0 is in use.
IDLE = bytes((*range(0x07), 0x0F, *range(0x10, 0x18)))


def regrade(treated: Treated) -> Treated:
    """The same changes, in which those that may take codes of the page are guesses, with names of their own."""
    steps = list(treated.steps())
    # (where eighth bits come off later, what is cut may have those of the page)
    return Treated(treated.source, tuple(
        _regrade(change, data, any(later.parity for later, _ in steps[number + 1:]))
        for number, (change, data) in enumerate(steps)))


def _regrade(change: Change, data: bytes, has_bits: bool) -> Change:
    if change.treatment not in RULES:
        return change
    rule, guess = RULES[change.treatment]
    cut = b"".join(change.taken(data))
    return change if rule(cut.translate(PLAIN) if has_bits else cut) else replace(change, treatment=guess, grade=WITHIN)


def _is_before(data: bytes) -> bool:
    """Whether bytes before a page are none of it: they have no CS and nothing that leads on from text, and nothing acts
    after their last refused byte."""
    plain = CONTAINER.sub(SDC, data)
    if any(code in plain for code in (CLEAR, *LEADING_ON)):
        return False
    return not REFUSED.split(plain)[-1].strip(IDLE)


def _is_after(data: bytes) -> bool:
    """Whether bytes after a page are fills, line ends and ends of files, or a SAUCE record."""
    record = find_sauce(data)
    return not data[:len(data) - record.length if record else None].strip(FILLS + SDC + b"\r\n")


# What is asked of the bytes that a treatment cuts, and the name of the guess where these aren't so.
RULES: Dict[str, Tuple[Callable[[bytes], bool], str]] = {
    "header": (_is_before, "beginning"), "tail": (_is_after, "end")}
GUESSES = tuple(guess for _, guess in RULES.values())
