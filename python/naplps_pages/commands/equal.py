"""The command equal: groups of pages that draw the same, or almost the same."""
from typing import List

from . import COLLECTION_GROUP, CSV, JOBS, JSON, PRINT0, STORE, TIMEOUT, Command, Given, OneOf, Option, Part

STORES = STORE._replace(to="stores", help=f"{STORE.help}; several are taken as one", number="+")
NEARLY = Option("--nearly", "print pages that differ only in words, colours or places, and pages that are the "
                "beginning of another", default=False)
PICTURES = Option("--pictures", "print pages whose final pictures are equal, though their lists differ", default=False)
# What is put into groups, or among them, besides pages that are accepted as they are.
WITH = ("treated", "guesses")
INCLUDE = Option("--include", "put repaired copies into the groups of files that draw the same: treated, those whose "
                 "page is unchanged; guesses, also those whose page was changed", "WHAT", str, choices=WITH,
                 is_repeated=True)
SKIP = Option("--skip", "leave out: copies, groups of files with the same bytes alone", "WHAT", str,
              choices=("copies",), is_repeated=True)
VERIFY = Option("--verify", "read the files again, and compare their canonical streams", default=False)
ONE_STORE = "{way} takes one store: `scan --merge` makes one of several"


def _parts() -> List[Part]:
    return [STORES, OneOf((NEARLY, PICTURES)), INCLUDE, SKIP, VERIFY, OneOf((JSON, CSV, PRINT0)), JOBS, TIMEOUT]


def _check(given: Given) -> None:
    """Exits where an option of lists is asked for with another way to compare, or the other way round."""
    for each in WITH:
        setattr(given, each, each in (given.include or ()))
    given.copies = not given.skip
    way = "--nearly" if given.nearly else "--pictures" if given.pictures else ""
    if not way and given.jobs is not None:
        given.parser.error("--jobs is for --nearly and --pictures")
    if way and len(given.stores) > 1:
        given.parser.error(ONE_STORE.format(way=way))
    for word, is_there in (("--include", given.include), ("--skip", given.skip), ("--verify", given.verify),
                           ("--csv", given.nearly and given.form == "csv"),
                           ("--print0", given.nearly and given.form == "null")):
        if way and is_there:
            given.parser.error(f"{way} and {word} exclude each other")


def _run(given: Given, tool: str) -> int:
    from ..collection.equal import equal, equal_by_picture
    from ..collection.near import near
    from ..collection.store import run
    work = near if given.nearly else equal_by_picture if given.pictures else equal
    return run(given.stores[0], lambda: work(given, tool))


COMMAND = Command("list pages that draw the same, or almost the same", _parts, _run, "equal pages.db", _check,
                  group=COLLECTION_GROUP, rank=50)
