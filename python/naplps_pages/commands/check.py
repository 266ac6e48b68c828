"""The command check: whether pages are accepted, or why not; and what each file is."""
import os
from functools import partial
from typing import List

from naplps.answers import Accepted, Refusal

from .. import PACKS, file_kinds
from ..page_session import Session, on_pages
from ..source import Page
from . import (
    BUDGET, JSON_ALONE, OF_PAGE, PAGE_GROUP, PREVIOUS, TIMEOUT, Argument, Command, Given, Option, Part,
    require_one_standard_input,
)

PATHS = Argument("pages", "PATH", f"{OF_PAGE}. Or a folder, for all files in it and below it", "+")
EXPLAIN = Option("--explain", "show each entry next to its bytes, and say why a page is refused", default=False)


def _parts() -> List[Part]:
    return [PATHS, EXPLAIN, JSON_ALONE, PREVIOUS, BUDGET, TIMEOUT]


def check(session: Session) -> int:
    """Whether each page is accepted, or why not; and what the file is."""
    if any(os.path.isdir(name) or name.lower().endswith(PACKS) for name in session.names):
        session.take_folders()
    if session.explain:
        from ..explaining import explain
        return explain(session)
    return session.each(partial(tell_answer, session), more=("kind", "looks_like", "pages"))


def tell_answer(session: Session, page: Page) -> None:
    """Prints the answer to a page, and what the file is."""
    answer = session.answer_to(page)
    is_answered = session.answered(page, answer)
    it = file_kinds.described(page, answer)
    if session.json:
        session.print_answer(page, answer, **it._asdict())
    elif is_answered and isinstance(answer, (Accepted, Refusal)):
        more = "" if it.kind == file_kinds.PAGE else file_kinds.remark(it)
        session.output.line(session.front(page.name) + answer.line + more)


def _run(given: Given, tool: str) -> int:
    return on_pages(given, tool, check)


COMMAND = Command("say whether pages are accepted, and if not, why", _parts, _run, "check ferry.nap",
                  require_one_standard_input, group=PAGE_GROUP, rank=10)
