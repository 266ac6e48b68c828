"""The command fix: what can be got out of files that are no accepted pages."""
from __future__ import annotations

from typing import TYPE_CHECKING, List, Optional

from naplps.names import shown

from . import (
    ALONE, BUDGET, FOLDERS, JSON_ALONE, OF_PAGE, OUTPUT, PAGE_GROUP, TIMEOUT, Argument, Command, Given, Option, Part,
    number, on_pages, require_one_standard_input, store,
)

if TYPE_CHECKING:
    from naplps.answers import Answer
    from naplps.client import Client
    from ..collection.progress import Stopping
    from ..listing import Earlier
    from ..page_session import Session
    from ..source import Page

REPAIR, SPLIT, CARVE = WAYS = ("repair", "split", "carve")
FILES = Argument("pages", "FILE", f"{OF_PAGE}. It can be of any kind, such as a disk image. Or a STORE, for its "
                 "refused files", "+", "store | file", store)
OUT = OUTPUT._replace(title="FOLDER", completes=FOLDERS, help="the folder in which each page that is recovered becomes "
                      "a file, with a note on its origin; without -o, only print what would be made")
ONLY = Option("--only", "split cuts a capture at the borders of its pages; repair tries to make a refused page "
              "readable; carve searches a file of any kind for pages. The default is the first of the three that "
              "gets an accepted page out of the file", "WAY", str, choices=WAYS)
ENDING = "No file is overwritten. If the search is stopped, the same command continues it."


def _parts() -> List[Part]:
    from naplps.finds import LEAST_ENTRIES
    least = Option("--min-entries", "for carve, the fewest entries of a page; the default "
                   f"is {LEAST_ENTRIES}. At least one draws a shape", "N", number(1, 1_000_000), default=LEAST_ENTRIES)
    return [FILES, OUT, ONLY, least, JSON_ALONE, BUDGET, TIMEOUT]


def _check(given: Given) -> None:
    from .. import outputs
    outputs.place_folder(given)
    require_one_standard_input(given)


def fix(session: Session) -> int:
    """Gets out of each file what can be got, in the one way that is asked for, or in that which fits it."""
    from ..collection.progress import Stopping
    from ..console import REFUSED, tell
    from .. import messages
    from ..new_files import made_folder
    with made_folder(session.into), Stopping() as stopping:
        def work(page: Page) -> None:
            if stopping.number is None and not _is_fixed(session, page, stopping):
                session.fail(REFUSED)
        status = session.each(work, more=("cure", "unsure"))
    if stopping.number is not None:
        tell(messages.STOPPED)
    stopping.act()
    return status


def _is_fixed(session: Session, page: Page, stopping: Stopping) -> bool:
    """Whether something is got out of a file, in the way that is asked for."""
    from ..fixing.carve import carve
    if session.only == CARVE or session.only is None and page.data is None:
        return carve(session, page, stopping) > 0
    if session.only == SPLIT:
        return _is_split(session, page)
    return _is_read(session, page, stopping)


def _is_read(session: Session, page: Page, stopping: Stopping) -> bool:
    """Whether a page is accepted, or a repair makes it readable; or, unless repairs alone are asked for, its parts or
    pages in it are found. One that couldn't be asked about has a status of its own."""
    from naplps.answers import Refusal, Unanswered
    from ..fixing.carve import carve
    from ..fixing.repair import repair, report
    from ..fixing.split import split
    from .. import messages
    answer = session.program.ask("check", page)
    if isinstance(answer, Refusal) and page.data is None:
        answer = Unanswered(messages.LONG_FOR_TREATMENTS)
    if isinstance(answer, Unanswered):
        session.complain(page.name, answer.reason)
    if not isinstance(answer, Refusal):
        report(session, page, answer, None)
        return True
    if session.only is None and _is_capture(page, answer) and split(session, page) is None:
        return True
    unsure = repair(session, page, answer)
    if unsure is None or session.only is None and carve(session, page, stopping) > 0:
        return True
    report(session, page, answer, None, unsure)
    return False


def _is_capture(page: Page, answer: Answer) -> bool:
    from .. import file_kinds
    return file_kinds.described(page, answer).kind == file_kinds.CAPTURE


def _is_split(session: Session, page: Page) -> bool:
    """Whether a file is cut into its pages; where it isn't, why is told."""
    from ..fixing.split import split
    why = split(session, page)
    if why is not None and session.json:
        session.tell(f"{shown(page.name)}: {why}")
    elif why is not None:
        session.output.line(session.front(page.name) + why)
    return why is None


def _of_store(given: Given, client: Client, after: Optional[Earlier]) -> int:
    from ..collection.session import REFUSED_ALONE, on_files
    return on_files(given, client, after, fix, REFUSED_ALONE)


COMMAND = Command("recover pages from damaged files, captures, disk images and other files", _parts, on_pages(
    fix, ALONE, _of_store), "fix session.log -o fixed", _check, ENDING, PAGE_GROUP, 30)
