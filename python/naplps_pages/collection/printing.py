"""The forms in which a table of a store is printed: text, JSON, CSV, and names alone, each ended by NUL."""
import os
import sys
from typing import IO, List, Optional, Sequence

from naplps.names import Members, as_json, printable, shown

from ..console import CHANGED, COMPLETE, Output, tell
from .folders import Place

MARK = "'"
FORMULAS = ("=", "+", "-", "@", MARK)
END = b"\0"


class Printer:
    """Prints a table in one of the forms, on standard output or into a file."""

    def __init__(self, form: str, columns: Sequence[str], file: Optional[IO[bytes]] = None) -> None:
        self.form, self.columns = form, list(columns)
        self.output = Output(file or sys.stdout.buffer)
        if form == "csv":
            self._csv(self.columns)

    def line(self, text: str) -> None:
        """A line of text."""
        self.output.line(printable(text))

    def object(self, members: Members) -> None:
        """An object of JSON, on a line."""
        from ..schema import dumps  # (which is imported where it's needed alone, as csv is)
        self.output.line(dumps(members))

    def row(self, members: Members) -> None:
        """A row of CSV, which has those of the members that are columns."""
        self._csv([_field(members.get(name)) for name in self.columns])

    def name(self, place: Place) -> None:
        """The name of a file, ended by NUL."""
        self.output.bytes(os.fsencode(place.path) + END)

    def end(self) -> None:
        """NUL alone, after the names that stand together."""
        self.output.bytes(END)

    def _csv(self, fields: Sequence[str]) -> None:
        import csv
        import io
        made = io.StringIO()
        csv.writer(made, lineterminator="\n").writerow(fields)
        self.output.text(made.getvalue())

    def flush(self) -> None:
        """Sends on what was printed."""
        self.output.flush()


class ErrorReporter:
    """Tells what is wrong with files, and keeps the status."""

    def __init__(self, printer: Printer) -> None:
        self.printer, self.status = printer, COMPLETE

    def __call__(self, name: str, why: str, status: int = CHANGED) -> None:
        """Tells what is wrong with a file, which has this status."""
        self.printer.flush()
        tell(f"{shown(name)}: {why}")
        self.status = max(self.status, status)


def _field(value: object) -> str:
    """A value as CSV has it. A text that a spreadsheet might take for a formula, or that begins with what marks such a
    text, gets a mark in front, an apostrophe."""
    text = "" if value is None else printable(str(value))
    return MARK + text if isinstance(value, str) and text.startswith(FORMULAS) else text


def named(place: Place) -> Members:
    """The members that name a file in JSON, where nothing is raw."""
    return as_json(place.path)


def shown_as(place: Place) -> Members:
    """The columns that name a file in CSV: its name as it is shown, and its bytes where these are others."""
    name = shown(place.path)
    return {"name": name, "name_hex": None if name == place.path else os.fsencode(place.path).hex()}


def numbered(number: int, one: str, more: str = "") -> str:
    """A number of something, in words. The plural has an s, if it isn't given."""
    return "%d %s" % (number, one if number == 1 else more or one + "s")


NAME: List[str] = ["name", "name_hex"]
