"""The command files: what a store holds, its refused files by the reason, each file with all that is known of it, or
what stops its refused pages.
"""
from __future__ import annotations

import argparse
import sys
from typing import TYPE_CHECKING, List

from .. import messages
from ..console import COMPLETE, Output
from . import COLLECTION_GROUP, CSV, JSON, PRINT0, STORE, Command, Given, OneOf, Option, Part

if TYPE_CHECKING:
    from ..refusals import Reason

REFUSED = Option("--refused", "print refused files alone, by reason", default=False)
KIND = Option("--kind", "print each file of a kind: page, text, blank, capture, or a format that refused files look "
              "like, such as GIF; or any", "KIND")
CENSUS = Option("--census", "count the codes for which pages are refused", default=False)
ANY = "any"


def reason(text: str) -> Reason:
    """A refusal by its number or its name, or a code that is left out, by its name or its bytes."""
    from .. import refusals
    found = refusals.reason_of(text)
    if found is None:
        codes = ", ".join(f"{code.upper()} {title}" for code, title in refusals.CODES.items())
        raise argparse.ArgumentTypeError(messages.NO_REASON.format(text=text, known=_refusals(), codes=codes))
    return found


def _refusals() -> str:
    from .. import refusals
    return ", ".join(f"{each.number} {each.name}" for each in refusals.load().values())


def _parts() -> List[Part]:
    why = Option("--reason", "print refused files with this reason alone: the number or name of a refusal, or the "
                 "name or bytes of a code, such as SDC, 1A or 1B22", "REASON", reason)
    return [STORE, REFUSED, why, KIND, CENSUS, OneOf((JSON, CSV, PRINT0))]


def _check(given: Given) -> None:
    """Exits where the census is asked for together with what chooses files."""
    for word, is_there in (("--refused", given.refused), ("--reason", given.reason), ("--kind", given.kind),
                           ("--print0", given.form == "null")) if given.census else ():
        if is_there:
            given.parser.error(f"--census and {word} exclude each other")


def _run(given: Given, _: str) -> int:
    from ..collection.store import run
    if given.census:
        from ..collection.census_of_store import census
        return run(given.store, lambda: census(given.store, given.form))
    if given.form == "text" and given.kind is None:
        show = _show_refused if given.refused or given.reason else _show_status
        return run(given.store, lambda: show(given))
    return run(given.store, lambda: _show_each(given))


def _show_status(given: Given) -> int:
    """Prints the state of a store; the status."""
    from ..collection import status
    from ..collection.store import open_to_read
    output = Output(sys.stdout.buffer)
    status.show(output, status.status(open_to_read(given.store), given.store))
    output.flush()
    return COMPLETE


def _show_refused(given: Given) -> int:
    """Prints the refused files of a store, by the reason; the status."""
    from ..collection import every_file
    from ..collection.store import open_to_read
    output = Output(sys.stdout.buffer)
    every_file.show_refused(output, every_file.refused_files(open_to_read(given.store), given.reason))
    output.flush()
    return COMPLETE


def _show_each(given: Given) -> int:
    from ..collection import every_file
    from ..collection.printing import Printer
    from ..collection.store import open_to_read
    connection = open_to_read(given.store)
    printer = Printer(given.form, every_file.COLUMNS)
    why = given.reason or (every_file.ANY if given.refused else None)
    kind = None if given.kind == ANY else given.kind
    for file in every_file.load(connection, kind, why):
        every_file.show(printer, file)
    printer.flush()
    return COMPLETE


COMMAND = Command("summarise a store, or list its files with what is known of each", _parts, _run,
                  "files pages.db --refused", _check, group=COLLECTION_GROUP, rank=30)
