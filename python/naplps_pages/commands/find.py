"""The command find: pages by their words."""
from typing import List

from naplps.names import shown

from .. import messages
from ..console import COMPLETE, FAILED, REFUSED, tell
from . import COLLECTION_GROUP, CSV, JSON, PRINT0, STORE, Argument, Command, Given, OneOf, Part

WORDS = Argument("words", "WORD", "the beginning of a word; or a quoted phrase", "+")


def _parts() -> List[Part]:
    return [WORDS, STORE, OneOf((JSON, CSV, PRINT0))]


def _run(given: Given, _: str) -> int:
    from ..collection.store import run
    return run(given.store, lambda: _find(given))


def _find(given: Given) -> int:
    """Prints the pages that have the words; the status, which tells whether there are any."""
    from ..collection import texts
    from ..collection.printing import Printer, numbered
    from ..collection.store import StoreFailed, open_to_read
    from ..page_words import NoWords, parse_query
    try:
        parts = parse_query(" ".join(given.words))
    except NoWords as error:
        tell(str(error))
        return FAILED
    connection = open_to_read(given.store)
    why = texts.why_not(connection)
    if why:
        raise StoreFailed(given.store, why)
    printer = Printer(given.form, texts.COLUMNS)
    status = REFUSED
    for page in texts.found(connection, parts):
        texts.show(printer, page)
        status = COMPLETE
    printer.flush()
    lacking = texts.without_text(connection)
    if lacking:
        tell(f"{shown(given.store)}: {messages.NO_TEXTS_OF.format(pages=numbered(lacking, 'page has', 'pages have'))}")
    return status


COMMAND = Command("find pages by their words", _parts, _run, "find harbour pages.db", group=COLLECTION_GROUP, rank=40)
