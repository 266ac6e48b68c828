"""The command box: all that is found in folders of files, in one folder."""
from typing import List

from .. import messages
from ..console import NotWritten
from . import BUDGET, COLLECTION_GROUP, FOLDERS, JOBS, OUTPUT, TIMEOUT, Argument, Command, Given, Part, skipped

SOURCES = Argument("folders", "FOLDER", "a folder of files, a pack of files (.zip, .tar, .tar.gz or .tgz), or a file",
                   "+")
OUT = OUTPUT._replace(title="FOLDER", completes=FOLDERS, is_required=True,
                      help="a new folder, or the one that an earlier run made")


def _parts() -> List[Part]:
    return [SOURCES, OUT, skipped("words", "repair", "carve"), JOBS, BUDGET, TIMEOUT]


def _check(given: Given) -> None:
    from .. import outputs
    outputs.place_folder(given)


def _run(given: Given, tool: str) -> int:
    from ..collection.store import run
    return run(given.into, lambda: _fill(given, tool))


def _fill(given: Given, tool: str) -> int:
    import sqlite3
    from ..box.making import fill_box
    try:
        return fill_box(given, tool)
    except sqlite3.Error as error:
        raise NotWritten(given.into, messages.GOES_ON_AFTER.format(reason=error)) from None


COMMAND = Command("search folders for pages, and collect all that is found in one folder", _parts, _run,
                  "box archive -o found", _check, group=COLLECTION_GROUP, rank=10)
