"""A census: which codes outside of what is read stop pages, how often, and on how many pages alone."""
from collections import Counter
from typing import Dict, Iterator, List, Tuple

from naplps.names import Members

from .printing import Printer

# How many codes are printed where none stops a page alone.
MOST_NOT_ALONE = 10
ESTIMATE = ("first: the refusal's own, which is exact. The rest is an estimate, by a reading of codes that goes on "
            "behind the refusal.")


# The columns of CSV.
COLUMNS = ["code", "first", "pages", "alone", "times"]


class Row:
    """One code: on how many pages it is the refusal, how often it was found, on how many pages, on how many alone."""

    def __init__(self, first: int = 0) -> None:
        self.first = first
        self.times = self.pages = self.only = 0


class Census:
    """What was found on all pages."""

    def __init__(self) -> None:
        self.accepted = self.refused = self.without = self.in_part = 0
        # (refused files that look like another format; they are counted as refused too)
        self.others = 0
        self.rows: Dict[str, Row] = {}

    def note(self, names: List[str]) -> None:
        """Notes the codes that stop a page."""
        counts = Counter(names)
        for name, times in counts.items():
            row = self.rows.setdefault(name, Row())
            row.times += times
            row.pages += 1
            row.only += len(counts) == 1

    def sorted(self) -> List[Tuple[str, Row]]:
        """The codes: those first that alone stop most pages, then those on most pages."""
        return sorted(self.rows.items(), key=lambda each: (-each[1].only, -each[1].pages, -each[1].times, each[0]))


def show(printer: Printer, found: Census) -> None:
    """Prints a census."""
    if printer.form == "json":
        printer.object(members(found))
    elif printer.form == "csv":
        for code in codes(found):
            printer.row(code)
    else:
        for line in lines(found):
            printer.line(line)
    printer.flush()


def lines(found: Census) -> Iterator[str]:
    """The table for people."""
    every = found.accepted + found.refused + found.without
    without = f", {found.without} without an answer" if found.without else ""
    yield "%d %s: %d accepted, %d refused%s" % (
        every, "page" if every == 1 else "pages", found.accepted, found.refused, without)
    if found.others:
        verb = "is of another format, and isn't" if found.others == 1 else "are of other formats, and aren't"
        yield f"{found.others} of the refused files {verb} in the table."
    if not found.rows:
        return
    yield "%-44s %8s %8s %8s %8s" % ("What stops pages", "first", "pages", "alone", "times")
    some = found.sorted()
    alone = [each for each in some if each[1].only] or some[:MOST_NOT_ALONE]
    for name, row in alone:
        yield "%-44s %8d %8d %8d %8d" % (name, row.first, row.pages, row.only, row.times)
    if len(alone) < len(some):
        left = len(some) - len(alone)
        yield "%d more %s no page alone; --json prints %s." % (
            left, *(("code stops", "it") if left == 1 else ("codes stop", "them")))
    yield ESTIMATE
    if found.in_part:
        yield f"{found.in_part} of the refused pages were read on in part, or not at all."


def codes(found: Census) -> List[Members]:
    """The members of each code."""
    return [dict(zip(COLUMNS, (name, row.first, row.pages, row.only, row.times))) for name, row in found.sorted()]


def members(found: Census) -> Members:
    """The members of the object in JSON."""
    return {"accepted": found.accepted, "refused": found.refused, "no_answer": found.without,
            "in_part": found.in_part, "other_formats": found.others, "codes": codes(found)}
