"""What a file is, and what can be done with it: for who names one in place of a command."""
from __future__ import annotations

import os
from argparse import Namespace
from typing import TYPE_CHECKING, Dict, List, Tuple

from naplps.limits import USUAL_BUDGET
from naplps.names import quoted, shown

from . import TOOL
from .commands import store
from .console import Output

if TYPE_CHECKING:
    from .page_session import Session
    from .source import Page

FOLDER, STORE, PACK = "a folder", "a store, which `scan` or `box` made", "a pack of files"
Next = Tuple[Tuple[str, str], ...]
OF_FILES: Next = (("check {name}", "says of each file in it whether it is a page"),
                  ("box {name} -o found", "puts all that is found in it into the folder found"),
                  ("scan {name} -o pages.db", "keeps the answers to all its files in a store"))
OF_STORE: Next = (("files {name}", "says what is in it"), ("find WORD {name}", "finds pages by their words"),
                  ("equal {name}", "finds equal pages"), ("report {name} -o report.html", "makes one file to look at"))
OF_KIND: Dict[str, Next] = {FOLDER: OF_FILES, PACK: OF_FILES, STORE: OF_STORE}
OF_PAGE: Next = (("show {name} -o page.svg", "draws it"), ("show {name} -o page.html", "plays it in a browser"),
                 ("check --explain {name}", "shows each entry next to its bytes"),
                 ("make --from {name} -o page.txt", "writes it as people edit it"))
OF_SOURCE: Next = (("make {name} -o page.nap", "makes a page of it, if people wrote it as one"),)
OF_TEXT: Next = (*OF_PAGE, *OF_SOURCE)
OF_REFUSED: Next = (("check --explain {name}", "says why it is refused"),
                    ("fix {name} -o fixed", "gets out of it what can be got"),
                    ("show {name} -o page.svg", "draws what comes before"))
OF_OTHER: Next = (("fix {name} -o fixed", "searches it for pages"),)


def given_of(words: List[str]) -> Namespace:
    """What is asked by names alone."""
    return Namespace(run=introduce, pages=words, budget=USUAL_BUDGET, timeout=20.0)


def introduce(given: Namespace, tool: str) -> int:
    """Says of each name what it is, and what can be done next; the status."""
    from .page_session import on_pages
    return on_pages(given, tool, _introduced)


def _introduced(session: Session) -> int:
    names, status = session.names, 0
    for name in names:
        kind = _kind(name)
        if kind:
            session.output.line(f"{shown(name)}: {kind}")
            _print_next(session.output, name, OF_KIND[kind])
        else:
            session.names, session.is_several = [name], True
            status = session.each(lambda page: _tell(session, page))
    session.output.flush()
    return status


def _kind(name: str) -> str:
    """What it is where it is no single page."""
    from .collection.store_files import is_store
    from .packs import is_pack
    if os.path.isdir(name):
        return STORE if store(name) != name else FOLDER
    if os.path.isfile(name):
        return STORE if is_store(name) else PACK if is_pack(os.fsencode(name)) else ""
    return ""


def _tell(session: Session, page: Page) -> None:
    """Says what a page is, and what can be done with it."""
    from naplps.answers import Accepted, Unanswered
    from . import file_kinds
    from .commands.check import tell_answer
    tell_answer(session, page)
    answer = session.answer_to(page)
    if isinstance(answer, Unanswered):
        return
    it = file_kinds.described(page, answer)
    if isinstance(answer, Accepted):
        _print_next(session.output, page.name, OF_TEXT if it.kind == file_kinds.TEXT else OF_PAGE)
    elif it.looks_like and it.looks_like.startswith(file_kinds.TEXT):
        _print_next(session.output, page.name, OF_SOURCE)
    else:
        _print_next(session.output, page.name, OF_OTHER if it.looks_like and not it.pages else OF_REFUSED)


def _print_next(output: Output, name: str, some: Next) -> None:
    """The commands that come next, and what each does."""
    commands = [(f"{TOOL} {words.format(name=quoted(name))}", what) for words, what in some]
    wide = max(len(words) for words, _ in commands)
    for words, what in commands:
        output.line(f"  {words:{wide}}  {what}")
