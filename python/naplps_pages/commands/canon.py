"""The command canon: canonical streams, of pages or of a whole store."""
from __future__ import annotations

from typing import TYPE_CHECKING, List, Optional

from naplps.limits import Limits

from .. import messages
from ..new_files import made_folder
from . import (
    ALONE, BUDGET, CSV, JSON, NOTHING_OVERWRITTEN, OUTPUT, PAGES_OR_STORE, PAGE_GROUP, TIMEOUT, Command, Given, OneOf,
    Part, on_pages, require_one_standard_input,
)

if TYPE_CHECKING:
    from naplps.client import Client
    from ..listing import Earlier
    from ..page_session import Session
    from ..source import Page

OUT = OUTPUT._replace(help="the file to write, or - for standard output. For several pages, a folder; for a STORE, a "
                      "folder of canonical streams, each named by its hash")


def _parts() -> List[Part]:
    return [PAGES_OR_STORE, OUT, OneOf((JSON, CSV)), BUDGET, TIMEOUT]


def _check(given: Given) -> None:
    from .. import outputs
    from ..collection.store_files import is_store
    is_several = outputs.is_several(given)
    outputs.place(given, is_several)
    if given.form != "text" and not is_store(given.pages[0]):
        given.parser.error("--json and --csv are for a STORE")
    if is_several and given.into is None:
        given.parser.error(messages.SEVERAL_PAGES)
    outputs.require_no_terminal(given, "a canonical stream")
    require_one_standard_input(given)


def canon(session: Session) -> int:
    """The canonical bytes of each page, printed or put into a folder."""
    from naplps.answers import Accepted

    def work(page: Page) -> None:
        answer = session.program.ask("canon", page)
        if not session.answered(page, answer):
            return
        session.tell_refused(page.name, answer)
        if isinstance(answer, Accepted):
            session.deliver(page.name, answer.body)
    with made_folder(session.into):
        return session.each(work)


def _of_store(given: Given, client: Client, _: Optional[Earlier]) -> int:
    from ..collection.convert import convert
    from ..collection.store import run
    return run(given.pages[0], lambda: convert(client, given.pages[0], given.into, given.form))


COMMAND = Command(
    "write the canonical streams of pages", _parts, on_pages(
        canon, ALONE, _of_store, Limits()), "canon ferry.nap -o ferry.canonical.nap", _check, NOTHING_OVERWRITTEN,
    PAGE_GROUP, 50)
